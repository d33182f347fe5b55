/* The shaper: worked rows, and random calls against plain C. */
#include "check.h"

/* The spacing of 5120 is 2500000000, that of 53e8 is 1000000000. */
static void worked(void)
{
    const struct { uint64_t now; uint16_t rate; abt_outcome outcome; uint64_t next; } rows[] = {
        {999, 0x5120, ABT_TOO_SOON, 1000},
        {1000, 0x0000, ABT_ZERO, 7},
        {1000, 0x5120, ABT_OK, UINT64_C(2500001000)},
        {UINT64_C(2500000999), 0x53e8, ABT_TOO_SOON, UINT64_C(2500001000)},
        {UINT64_C(2500001000), 0x53e8, ABT_OK, UINT64_C(3500001000)},
        {UINT64_C(2500000999), 0x53e8, ABT_CLOCK_BACK, 7},
        {UINT64_C(2500000999), 0x0000, ABT_CLOCK_BACK, 7},
        {ABT_EMIT_MAX + 1, 0x0000, ABT_TIME_RANGE, 7},
        {ABT_EMIT_MAX, 0x53e8, ABT_OK, ABT_EMIT_MAX + UINT64_C(1000000000)},
        {ABT_EMIT_MAX, 0x53e8, ABT_TOO_SOON, ABT_EMIT_MAX + UINT64_C(1000000000)},
    };
    abt_shaper shaper;
    SAME(abt_shaper_init(&shaper, 1000), ABT_OK);
    for (size_t i = 0; i < sizeof rows / sizeof *rows; i++) {
        uint64_t next = 7;
        SAME(abt_shaper_emit(&shaper, rows[i].now, rows[i].rate, &next), rows[i].outcome);
        SAME(next, rows[i].next);
    }
}

/* The rule in plain C. */
static void random_calls(long calls)
{
    uint64_t seed = 40;
    while (calls > 0) {
        uint64_t from = below(&seed, 5000), next = from, last = 0, now = 0, given;
        int has_last = 0;
        abt_shaper shaper;
        SAME(abt_shaper_init(&shaper, from), ABT_OK);
        for (int i = 0; i < 1000; i++, calls--) {
            uint16_t rate = below(&seed, 8) ? (uint16_t)(0x7800 | draw(&seed) >> 48) : 0;
            uint64_t spacing = abt_rate_spacing(rate), moment = now + below(&seed, 800);
            if (!below(&seed, 16))
                moment = below(&seed, moment + 1);
            abt_outcome wanted = has_last && moment < last ? ABT_CLOCK_BACK
                                 : !spacing                ? ABT_ZERO
                                 : moment < next           ? ABT_TOO_SOON
                                                           : ABT_OK;
            given = 7;
            SAME(abt_shaper_emit(&shaper, moment, rate, &given), wanted);
            if (wanted == ABT_OK) {
                has_last = 1;
                last = now = moment;
                next = moment + spacing;
            }
            SAME(given, wanted == ABT_OK || wanted == ABT_TOO_SOON ? next : 7);
        }
    }
}

static void misuse(void)
{
    abt_shaper shaper, before;
    abt_gcra gcra;
    uint64_t next = 7;
    SAME(abt_shaper_init(NULL, 0), ABT_NULL);
    SAME(abt_shaper_init(&shaper, ABT_EMIT_MAX), ABT_OK);
    before = shaper;
    SAME(abt_shaper_init(&shaper, ABT_EMIT_MAX + 1), ABT_TIME_RANGE);
    SAME(abt_shaper_emit(NULL, 0, 0x4000, &next), ABT_NULL);
    SAME(abt_shaper_emit(&shaper, 0, 0x4000, NULL), ABT_NULL);
    SAME(abt_gcra_init(&gcra, 0), ABT_OK);
    SAME(abt_shaper_emit((abt_shaper *)(void *)&gcra, 0, 0x4000, &next), ABT_NO_STATE);
    SAME_MEMORY(&shaper, &before, sizeof shaper);
    memset(&shaper, 0, sizeof shaper);
    SAME(abt_shaper_emit(&shaper, 0, 0x4000, &next), ABT_NO_STATE);
    SAME(next, 7);
}

int main(void)
{
    worked();
    random_calls(1000000);
    misuse();
    return 0;
}
