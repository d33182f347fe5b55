/* A port of a switch: it serves RM cells by a table of its connections, and as their ingress polices their data cells by what they hold.
 *
 * usage: switch CAPACITY TAU VPI/VCI..
 *
 * CAPACITY: of the link, in units of 1/512 cell per second; TAU: the tolerance of each policer in picoseconds; then the connections. Lines of
 * standard input, and the line that each gives:
 *
 *     fwd CELL        a request that came forward   fwd CELL: it goes on; bwd CELL: its no goes back; or drop WHY
 *     bwd CELL        an answer that came backward  bwd CELL: it goes on; or drop WHY
 *     cell VPI/VCI AT a data cell at a moment       the verdict of its connection's policer
 *
 * CELL: 104 hexadecimal digits, an RM cell without its HEC octet. At the end a line tells what is held of the link. */
#include <abt.h>
#include <inttypes.h>
#include <stdio.h>
#include <stdlib.h>
#include <string.h>

static abt_table table;

static int fault(const char *what, abt_outcome why)
{
    fprintf(stderr, "switch: %s: %s\n", what, abt_outcome_name(why));
    return 1;
}

static int cell_of(const char *text, uint8_t *cell)
{
    if (strlen(text) != 2 * ABT_CELL_LENGTH || strspn(text, "0123456789abcdefABCDEF") != 2 * ABT_CELL_LENGTH)
        return 0;
    for (size_t at = 0; at < ABT_CELL_LENGTH; at++)
        sscanf(text + 2 * at, "%2hhx", &cell[at]);
    return 1;
}

static void send(const char *way, const uint8_t *cell)
{
    printf("%s ", way);
    for (size_t at = 0; at < ABT_CELL_LENGTH; at++)
        printf("%02x", cell[at]);
    puts("");
}

static void serve(const char *way, const char *text)
{
    uint8_t cell[ABT_CELL_LENGTH], sent[ABT_CELL_LENGTH];
    if (!cell_of(text, cell)) {
        puts("drop Text");
        return;
    }
    abt_outcome outcome = abt_table_cell(&table, cell, sizeof cell, sent, sizeof sent);
    if (outcome == ABT_PASS)
        send(way, sent);
    else if (outcome == ABT_REFUSE)
        send("bwd", sent);
    else
        printf("drop %s\n", abt_outcome_name(outcome));
}

static int begin(int words, char **word)
{
    uint16_t vpi, vci;
    abt_outcome outcome = abt_table_init(&table, strtoull(word[1], NULL, 10));
    if (outcome != ABT_OK)
        return fault("capacity", outcome);
    for (int i = 3; i < words; i++) {
        if (sscanf(word[i], "%" SCNu16 "/%" SCNu16, &vpi, &vci) != 2)
            return fault(word[i], ABT_VPI_RANGE);
        if ((outcome = abt_table_add_ingress(&table, vpi, vci, strtoull(word[2], NULL, 10))) != ABT_OK)
            return fault(word[i], outcome);
    }
    return 0;
}

int main(int words, char **word)
{
    if (words < 4) {
        fprintf(stderr, "usage: switch CAPACITY TAU VPI/VCI..\n");
        return 2;
    }
    if (begin(words, word))
        return 1;
    char way[8], text[128];
    uint16_t vpi, vci;
    uint64_t at, total = 0;
    while (scanf("%7s %127s", way, text) == 2) {
        if (strcmp(way, "cell"))
            serve(way, text);
        else if (sscanf(text, "%" SCNu16 "/%" SCNu16, &vpi, &vci) == 2 && scanf("%" SCNu64, &at) == 1)
            puts(abt_outcome_name(abt_table_arrive(&table, vpi, vci, at)));
        fflush(stdout);
    }
    abt_table_total(&table, &total);
    printf("held %" PRIu64 "\n", total);
    return 0;
}
