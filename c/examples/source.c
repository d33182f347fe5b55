/* A source with a durable store: it asks for a rate, hears answers and emits cells, and takes up its numbers after any crash.
 * usage: source STORE VPI VCI
 *
 * STORE: the file of its record, made at the first write. A record is written to a file beside it, synced, and renamed over it. Moments are
 * those of CLOCK_BOOTTIME from the start of the process (docs/C.md, "Which clock"). Lines of standard input, and what each gives:
 *
 *     ask CODE    rm CELL, the request that goes out        again       rm CELL, the newest request
 *     bwd CELL    Raised, Refused or Ignored                emit        OK, or TooSoon and how long, or another fault
 *
 * CELL: 104 hexadecimal digits, an RM cell without its HEC octet; CODE: a rate code of four. */
#define _GNU_SOURCE
#include <abt.h>
#include <errno.h>
#include <fcntl.h>
#include <inttypes.h>
#include <libgen.h>
#include <limits.h>
#include <stdio.h>
#include <stdlib.h>
#include <string.h>
#include <time.h>
#include <unistd.h>

static uint64_t now(void)
{
    static uint64_t origin;
    struct timespec it;
    clock_gettime(CLOCK_BOOTTIME, &it);
    uint64_t at = (uint64_t)it.tv_sec * 1000000000 + (uint64_t)it.tv_nsec;
    return (at - (origin = origin ? origin : at)) * 1000;
}

/* An octet more than a record, so that a store that holds more is seen. */
enum { ROOM = ABT_RECORD_LENGTH + 1 };

/* Reads what the store holds, up to ROOM octets; a store that isn't there yet is four zeros. Gives their number, or 0 if it can't be read:
 * abt_source_start refuses what is no record's length. */
static size_t stored(const char *path, uint8_t *record)
{
    int file = open(path, O_RDONLY);
    if (file < 0 && errno == ENOENT)
        return memset(record, 0, 4), 4;
    ssize_t length = file < 0 ? -1 : read(file, record, ROOM);
    close(file);
    return length < 0 ? 0 : (size_t)length;
}

static int synced(const char *path, int flags, const uint8_t *record)
{
    int file = open(path, flags, 0600);
    if (file < 0)
        return 0;
    int is_well = (!record || write(file, record, ABT_RECORD_LENGTH) == ABT_RECORD_LENGTH) && fsync(file) == 0;
    return (close(file) == 0) && is_well;
}

/* Writes a record so that a crash leaves the old one or the new one, whole. */
static uint32_t store(const char *path, const uint8_t *record)
{
    char beside[PATH_MAX], folder[PATH_MAX];
    if (snprintf(beside, sizeof beside, "%s.new", path) >= PATH_MAX || snprintf(folder, sizeof folder, "%s", path) >= PATH_MAX)
        return ABT_FAILED_BEFORE;
    if (!synced(beside, O_WRONLY | O_CREAT | O_TRUNC, record) || rename(beside, path) != 0)
        return ABT_FAILED_BEFORE;
    return synced(dirname(folder), O_RDONLY | O_DIRECTORY, NULL) ? ABT_WRITTEN : ABT_FAILED_AFTER;
}

static void tell(abt_outcome outcome, const abt_rm *rm)
{
    uint8_t cell[ABT_CELL_LENGTH];
    if (outcome >= ABT_FAULTS || (outcome = abt_rm_write(rm, cell, sizeof cell)) != ABT_OK) {
        puts(abt_outcome_name(outcome));
        return;
    }
    printf("rm ");
    for (size_t at = 0; at < sizeof cell; at++)
        printf("%02x", cell[at]);
    puts("");
}

static abt_outcome hear(abt_source *source, const char *text)
{
    uint8_t cell[ABT_CELL_LENGTH];
    abt_rm rm;
    if (strlen(text) != 2 * sizeof cell || strspn(text, "0123456789abcdefABCDEF") != 2 * sizeof cell)
        return ABT_LENGTH;
    for (size_t at = 0; at < sizeof cell; at++)
        sscanf(text + 2 * at, "%2hhx", &cell[at]);
    abt_outcome outcome = abt_rm_read(cell, sizeof cell, &rm);
    return outcome == ABT_OK ? abt_source_answer(source, &rm) : outcome;
}

int main(int words, char **word)
{
    if (words != 4)
        return fprintf(stderr, "usage: source STORE VPI VCI\n"), 2;
    abt_source source;
    abt_rm rm = {0};
    uint8_t record[ROOM];
    size_t length = stored(word[1], record);
    abt_outcome outcome = abt_source_init(&source, (uint16_t)strtoul(word[2], NULL, 10), (uint16_t)strtoul(word[3], NULL, 10));
    if (outcome == ABT_OK)
        outcome = abt_source_start(&source, record, length, now());
    if (outcome != ABT_OK)
        return fprintf(stderr, "source: %s\n", abt_outcome_name(outcome)), 1;
    char what[8], text[128];
    while (scanf("%7s", what) == 1) {
        if (!strcmp(what, "again")) {
            tell(abt_source_again(&source, &rm), &rm);
        } else if (!strcmp(what, "emit")) {
            uint64_t moment = now(), next = moment;
            outcome = abt_source_emit(&source, moment, &next);
            printf("%s", abt_outcome_name(outcome));
            printf(outcome == ABT_TOO_SOON ? " %" PRIu64 "\n" : "\n", next - moment);
        } else if (scanf("%127s", text) == 1 && !strcmp(what, "ask")) {
            outcome = abt_source_ask(&source, (uint16_t)strtoul(text, NULL, 16), record, ABT_RECORD_LENGTH, &rm);
            tell(outcome == ABT_WRITE_FIRST ? abt_source_wrote(&source, store(word[1], record), &rm) : outcome, &rm);
        } else {
            puts(abt_outcome_name(strcmp(what, "bwd") ? ABT_KIND : hear(&source, text)));
        }
        fflush(stdout);
    }
    return 0;
}
