/* Polices cells: each line of standard input is an arrival in picoseconds, and gives a line with its verdict.
 *
 * usage: police CODE TAU    CODE: the rate that is held, a rate code of four hexadecimal digits; TAU: the tolerance in picoseconds */
#include <abt.h>
#include <inttypes.h>
#include <stdio.h>
#include <stdlib.h>

int main(int count, char **words)
{
    if (count != 3) {
        fprintf(stderr, "usage: police CODE TAU\n");
        return 2;
    }
    uint16_t code = (uint16_t)strtoul(words[1], NULL, 16);
    uint64_t tau = strtoull(words[2], NULL, 10), at;
    printf("rate %" PRIu64 " units, spacing %" PRIu64 " ps\n", abt_rate_units(code), abt_rate_spacing(code));

    abt_policer policer;
    abt_outcome outcome = abt_policer_init(&policer, tau);
    if (outcome != ABT_OK) {
        fprintf(stderr, "police: %s\n", abt_outcome_name(outcome));
        return 1;
    }
    unsigned long taken = 0, early = 0;
    while (scanf("%" SCNu64, &at) == 1) {
        outcome = abt_policer_arrive(&policer, at, code);
        if (outcome == ABT_CONFORMING)
            taken++;
        if (outcome == ABT_TOO_EARLY)
            early++;
        printf("%" PRIu64 " %s\n", at, abt_outcome_name(outcome));
    }
    printf("taken %lu, too early %lu\n", taken, early);
    return 0;
}
