/* A source whose store is the program's: worked rows of requests, crashes and restarts. */
#include "check.h"

/* A store in memory, whose next write may fail before or after it was made. */
struct store {
    uint8_t record[ABT_RECORD_LENGTH];
    size_t length;
};

static struct store old_store(uint32_t number)
{
    struct store store = {{(uint8_t)(number >> 24), (uint8_t)(number >> 16), (uint8_t)(number >> 8), (uint8_t)number}, 4};
    return store;
}

static abt_outcome start(abt_source *source, const struct store *store, uint64_t now)
{
    return abt_source_start(source, store->record, store->length, now);
}

/* Asks, and writes where that is wanted, as the plan says. */
static abt_outcome ask(abt_source *source, struct store *store, uint16_t rate, uint32_t plan, abt_rm *rm)
{
    uint8_t record[ABT_RECORD_LENGTH];
    abt_outcome outcome = abt_source_ask(source, rate, record, sizeof record, rm);
    if (outcome != ABT_WRITE_FIRST)
        return outcome;
    if (plan != ABT_FAILED_BEFORE) {
        memcpy(store->record, record, sizeof record);
        store->length = sizeof record;
    }
    return abt_source_wrote(source, plan, rm);
}

static void is_request(const abt_rm *rm, uint32_t seq, uint16_t floor, uint16_t rate)
{
    SAME(rm->kind, ABT_REQUEST);
    SAME(rm->vpi, 1);
    SAME(rm->vci, 100);
    SAME(rm->seq, seq);
    SAME(rm->floor, floor);
    SAME(rm->ask, rate);
}

static abt_outcome hear(abt_source *source, abt_rm rm, uint32_t kind)
{
    rm.kind = kind;
    return abt_source_answer(source, &rm);
}

static uint16_t rate_of(const abt_source *source)
{
    uint16_t rate = 77;
    SAME(abt_source_rate(source, &rate), ABT_OK);
    return rate;
}

static void is_record(const struct store *store, uint32_t number, uint64_t spacing)
{
    uint8_t wanted[ABT_RECORD_LENGTH];
    for (int i = 0; i < 4; i++)
        wanted[i] = (uint8_t)(number >> (24 - 8 * i));
    for (int i = 0; i < 8; i++)
        wanted[4 + i] = (uint8_t)(spacing >> (56 - 8 * i));
    SAME(store->length, sizeof wanted);
    SAME_MEMORY(store->record, wanted, sizeof wanted);
}

static void emits(abt_source *source, uint64_t now, abt_outcome outcome, uint64_t moment)
{
    uint64_t next = 7;
    SAME(abt_source_emit(source, now, &next), outcome);
    SAME(next, moment);
}

/* The spacing of 53e8 is 1000000000, that of 5120 is 2500000000; the first hold-off is 10^12. */
static void grants(void)
{
    abt_source source;
    struct store store = old_store(0);
    abt_rm rm, again;
    SAME(abt_source_init(&source, 1, 100), ABT_OK);
    SAME(start(&source, &store, UINT64_C(5000000000000)), ABT_OK);
    emits(&source, UINT64_C(5000000000000), ABT_ZERO, 7);
    SAME(ask(&source, &store, 0x53e8, ABT_WRITTEN, &rm), ABT_ASKED);
    is_request(&rm, 1, 0x0000, 0x53e8);
    is_record(&store, 64, UINT64_C(1000000000000));
    SAME(abt_source_again(&source, &again), ABT_OK);
    SAME_MEMORY(&again, &rm, sizeof rm);
    SAME(hear(&source, rm, ABT_YES), ABT_RAISED);
    SAME(rate_of(&source), 0x53e8);
    SAME(abt_source_again(&source, &again), ABT_NOT_ASKING);
    emits(&source, UINT64_C(5900000000000), ABT_TOO_SOON, UINT64_C(6000000000000));
    emits(&source, UINT64_C(6000000000000), ABT_OK, UINT64_C(6001000000000));
    SAME(ask(&source, &store, 0x5120, ABT_WRITTEN, &rm), ABT_ASKED);
    is_request(&rm, 2, 0x5120, 0x5120);
    SAME(rate_of(&source), 0x5120);
    emits(&source, UINT64_C(5999999999999), ABT_CLOCK_BACK, 7);
    emits(&source, UINT64_C(6001000000000), ABT_OK, UINT64_C(6003500000000));
    emits(&source, ABT_EMIT_MAX + 1, ABT_TIME_RANGE, 7);
    /* A no leaves the floor, and an answer to an older request or of another channel is ignored. */
    again = rm;
    again.seq = 1;
    SAME(hear(&source, again, ABT_YES), ABT_IGNORED);
    again = rm;
    again.vci = 101;
    SAME(hear(&source, again, ABT_YES), ABT_IGNORED);
    SAME(ask(&source, &store, 0x53e8, ABT_WRITTEN, &rm), ABT_ASKED);
    is_request(&rm, 3, 0x5120, 0x53e8);
    SAME(hear(&source, rm, ABT_NO), ABT_REFUSED);
    SAME(hear(&source, rm, ABT_YES), ABT_IGNORED);
    SAME(rate_of(&source), 0x5120);
}

/* A write that fails, and a crash after it: the number is lost only if it was written. */
static void failed_writes(void)
{
    const struct { uint32_t plan; int crash; uint32_t seq; } rows[] = {
        {ABT_FAILED_AFTER, 0, 1}, {ABT_FAILED_AFTER, 1, 65}, {ABT_FAILED_BEFORE, 0, 1}, {ABT_FAILED_BEFORE, 1, 1}};
    for (size_t i = 0; i < sizeof rows / sizeof *rows; i++) {
        abt_source source, before;
        struct store store = old_store(0);
        abt_rm rm, old = {9, 9, 9, 9, 9, 9};
        rm = old;
        SAME(abt_source_init(&source, 1, 100), ABT_OK);
        SAME(start(&source, &store, 0), ABT_OK);
        before = source;
        SAME(ask(&source, &store, 0x5120, rows[i].plan, &rm), ABT_NOT_KEPT);
        SAME_MEMORY(&rm, &old, sizeof rm);
        SAME(rate_of(&source), rate_of(&before));
        if (rows[i].crash) {
            SAME(abt_source_crash(&source), ABT_OK);
            SAME(start(&source, &store, 0), ABT_OK);
        }
        SAME(ask(&source, &store, 0x5120, ABT_WRITTEN, &rm), ABT_ASKED);
        is_request(&rm, rows[i].seq, 0x0000, 0x5120);
    }
}

/* The first part of the rows below: raised to 53e8, one cell out, and 64 asks more. */
static void raised(abt_source *source, struct store *store, abt_rm *rm)
{
    *store = old_store(0);
    SAME(abt_source_init(source, 1, 100), ABT_OK);
    SAME(start(source, store, 0), ABT_OK);
    SAME(ask(source, store, 0x53e8, ABT_WRITTEN, rm), ABT_ASKED);
    SAME(hear(source, *rm, ABT_YES), ABT_RAISED);
    emits(source, UINT64_C(1000000000000), ABT_OK, UINT64_C(1001000000000));
    for (uint32_t seq = 2; seq <= 65; seq++) {
        /* Only the last one writes. */
        SAME(ask(source, store, 0x53e8, seq == 65 ? ABT_WRITTEN : 0, rm), ABT_ASKED);
        is_request(rm, seq, 0x53e8, 0x53e8);
    }
    is_record(store, 128, UINT64_C(1000000000));
}

static void restarts(void)
{
    abt_source source;
    struct store store;
    abt_rm rm;
    raised(&source, &store, &rm);
    SAME(abt_source_crash(&source), ABT_OK);
    SAME(rate_of(&source), 0);
    SAME(hear(&source, rm, ABT_YES), ABT_IGNORED);
    SAME(start(&source, &store, UINT64_C(1000000000000)), ABT_OK);
    SAME(ask(&source, &store, 0x53e8, ABT_WRITTEN, &rm), ABT_ASKED);
    is_request(&rm, 129, 0x0000, 0x53e8);
    SAME(hear(&source, rm, ABT_YES), ABT_RAISED);
    emits(&source, UINT64_C(1000999999999), ABT_TOO_SOON, UINT64_C(1001000000000));
    emits(&source, UINT64_C(1001000000000), ABT_OK, UINT64_C(1002000000000));

    raised(&source, &store, &rm);
    SAME(ask(&source, &store, 0x53e8, 0, &rm), ABT_ASKED);
    is_request(&rm, 66, 0x53e8, 0x53e8);
    SAME(ask(&source, &store, 0x5120, ABT_FAILED_BEFORE, &rm), ABT_NOT_KEPT);
    SAME(ask(&source, &store, 0x5120, ABT_WRITTEN, &rm), ABT_ASKED);
    is_request(&rm, 67, 0x5120, 0x5120);
    SAME(abt_source_crash(&source), ABT_OK);
    SAME(start(&source, &store, UINT64_C(1000000000000)), ABT_OK);
    SAME(ask(&source, &store, 0x5120, ABT_WRITTEN, &rm), ABT_ASKED);
    is_request(&rm, 131, 0x0000, 0x5120);
}

/* The last numbers. */
static void exhausted(void)
{
    abt_source source;
    struct store store = old_store(UINT32_C(4294967294));
    abt_rm rm;
    SAME(abt_source_init(&source, 1, 100), ABT_OK);
    SAME(start(&source, &store, 0), ABT_OK);
    SAME(ask(&source, &store, 0x5120, ABT_WRITTEN, &rm), ABT_ASKED);
    is_request(&rm, UINT32_C(4294967295), 0x0000, 0x5120);
    SAME(hear(&source, rm, ABT_YES), ABT_RAISED);
    SAME(ask(&source, &store, 0x53e8, ABT_WRITTEN, &rm), ABT_SEQ_EXHAUSTED);
    SAME(rate_of(&source), 0x5120);
    store = old_store(UINT32_C(4294967290));
    SAME(abt_source_crash(&source), ABT_OK);
    SAME(start(&source, &store, 0), ABT_OK);
    SAME(ask(&source, &store, 0x5120, ABT_WRITTEN, &rm), ABT_ASKED);
    is_request(&rm, UINT32_C(4294967291), 0x0000, 0x5120);
    SAME(abt_source_crash(&source), ABT_OK);
    SAME(start(&source, &store, 0), ABT_OK);
    SAME(ask(&source, &store, 0x5120, ABT_WRITTEN, &rm), ABT_SEQ_EXHAUSTED);
}

static void misuse(void)
{
    abt_source source, before;
    struct store store = old_store(0);
    uint8_t record[ABT_RECORD_LENGTH];
    const uint8_t narrow[12] = {0, 0, 0, 0x2a, 0, 0, 0, 0, 0, 0, 0, 0xe9}, five[5] = {0};
    abt_rm rm = {ABT_REQUEST, 1, 1, 100, 0, 0x5120};
    uint64_t next = 7;
    uint16_t rate = 77;
    abt_gcra gcra[3];
    SAME(abt_source_init(&source, 4096, 0), ABT_VPI_RANGE);
    SAME(abt_source_init(&source, 1, 100), ABT_OK);
    before = source;
    SAME(abt_source_start(&source, five, sizeof five, 0), ABT_LENGTH);
    SAME(abt_source_start(&source, narrow, sizeof narrow, 0), ABT_RECORD_SPACING);
    SAME(start(&source, &store, ABT_START_MAX + 1), ABT_TIME_RANGE);
    SAME(abt_source_crash(&source), ABT_DOWN);
    SAME(abt_source_ask(&source, 0x5120, record, sizeof record, &rm), ABT_DOWN);
    SAME(abt_source_emit(&source, 0, &next), ABT_DOWN);
    SAME(abt_source_again(&source, &rm), ABT_NOT_ASKING);
    SAME(abt_source_wrote(&source, ABT_WRITTEN, &rm), ABT_NOT_WRITING);
    SAME_MEMORY(&source, &before, sizeof source);
    SAME(start(&source, &store, ABT_START_MAX), ABT_OK);
    SAME(start(&source, &store, 0), ABT_RUNNING);
    SAME(abt_source_wrote(&source, ABT_WRITTEN, &rm), ABT_NOT_WRITING);
    SAME(abt_source_wrote(&source, 0, &rm), ABT_KIND);
    SAME(abt_source_wrote(&source, 4, &rm), ABT_KIND);
    SAME(abt_source_ask(&source, 0x5120, record, 11, &rm), ABT_LENGTH);
    SAME(abt_source_ask(&source, 0x5120, record, sizeof record, &rm), ABT_WRITE_FIRST);
    before = source;
    SAME(abt_source_ask(&source, 0x5120, record, sizeof record, &rm), ABT_WRITING);
    SAME(abt_source_emit(&source, ABT_EMIT_MAX, &next), ABT_WRITING);
    SAME(hear(&source, rm, ABT_YES), ABT_WRITING);
    SAME(hear(&source, rm, ABT_REQUEST), ABT_KIND);
    SAME(hear(&source, rm, 0), ABT_KIND);
    SAME_MEMORY(&source, &before, sizeof source);
    SAME(abt_source_wrote(&source, ABT_WRITTEN, &rm), ABT_ASKED);
    rm.vpi = 4096;
    SAME(hear(&source, rm, ABT_YES), ABT_VPI_RANGE);
    rm.vpi = 1;
    rm.seq = 0;
    SAME(hear(&source, rm, ABT_YES), ABT_SEQ_ZERO);
    rm.seq = 1;
    rm.floor = 0x53e8;
    SAME(hear(&source, rm, ABT_YES), ABT_RATE_ORDER);
    SAME(next, 7);

    SAME(abt_source_init(NULL, 1, 1), ABT_NULL);
    SAME(abt_source_start(NULL, record, 4, 0), ABT_NULL);
    SAME(abt_source_start(&source, NULL, 4, 0), ABT_NULL);
    SAME(abt_source_ask(NULL, 0, record, 12, &rm), ABT_NULL);
    SAME(abt_source_ask(&source, 0, NULL, 12, &rm), ABT_NULL);
    SAME(abt_source_ask(&source, 0, record, 12, NULL), ABT_NULL);
    SAME(abt_source_wrote(NULL, 1, &rm), ABT_NULL);
    SAME(abt_source_wrote(&source, 1, NULL), ABT_NULL);
    SAME(abt_source_again(NULL, &rm), ABT_NULL);
    SAME(abt_source_again(&source, NULL), ABT_NULL);
    SAME(abt_source_answer(NULL, &rm), ABT_NULL);
    SAME(abt_source_answer(&source, NULL), ABT_NULL);
    SAME(abt_source_emit(NULL, 0, &next), ABT_NULL);
    SAME(abt_source_emit(&source, 0, NULL), ABT_NULL);
    SAME(abt_source_crash(NULL), ABT_NULL);
    SAME(abt_source_rate(NULL, &rate), ABT_NULL);
    SAME(abt_source_rate(&source, NULL), ABT_NULL);

    /* A state of another kind, and memory that was never a state. */
    for (int zero = 0; zero < 2; zero++) {
        memset(gcra, 0, sizeof gcra);
        if (!zero)
            SAME(abt_gcra_init(gcra, 5), ABT_OK);
        memcpy(&source, gcra, sizeof source);
        before = source;
        SAME(start(&source, &store, 0), ABT_NO_STATE);
        SAME(abt_source_ask(&source, 0, record, sizeof record, &rm), ABT_NO_STATE);
        SAME(abt_source_wrote(&source, ABT_WRITTEN, &rm), ABT_NO_STATE);
        SAME(abt_source_again(&source, &rm), ABT_NO_STATE);
        SAME(abt_source_answer(&source, &rm), ABT_NO_STATE);
        SAME(abt_source_emit(&source, 0, &next), ABT_NO_STATE);
        SAME(abt_source_crash(&source), ABT_NO_STATE);
        SAME(abt_source_rate(&source, &rate), ABT_NO_STATE);
        SAME_MEMORY(&source, &before, sizeof source);
    }
    SAME(rate, 77);
}

/* States whose octets were changed: each call answers, and none does anything undefined (the sanitizers look). */
static void spoiled(void)
{
    uint64_t seed = 50;
    for (int round = 0; round < 100000; round++) {
        abt_source source;
        struct store store = old_store((uint32_t)below(&seed, 5));
        abt_rm rm = {ABT_YES, 1, 1, 100, 0, 0x5120};
        uint8_t record[ABT_RECORD_LENGTH];
        uint64_t next, value = draw(&seed) >> below(&seed, 64);
        SAME(abt_source_init(&source, 1, 100), ABT_OK);
        SAME(start(&source, &store, 0), ABT_OK);
        if (below(&seed, 2))
            SAME(ask(&source, &store, 0x5120, ABT_WRITTEN, &rm), ABT_ASKED);
        memcpy((uint8_t *)&source + below(&seed, sizeof source - 8), &value, 8);
        for (int call = 0; call < 6; call++) {
            abt_outcome outcome = ABT_OK;
            switch (below(&seed, 7)) {
            case 0: outcome = abt_source_ask(&source, (uint16_t)draw(&seed), record, sizeof record, &rm); break;
            case 1: outcome = abt_source_wrote(&source, 1 + (uint32_t)below(&seed, 3), &rm); break;
            case 2: outcome = abt_source_again(&source, &rm); break;
            case 3: outcome = hear(&source, rm, ABT_YES + (uint32_t)below(&seed, 2)); break;
            case 4: outcome = abt_source_emit(&source, draw(&seed) >> below(&seed, 64), &next); break;
            case 5: outcome = abt_source_crash(&source); break;
            case 6: outcome = start(&source, &store, draw(&seed) >> below(&seed, 64)); break;
            }
            SAME(strcmp(abt_outcome_name(outcome), "unknown") != 0, 1);
        }
    }
}

int main(void)
{
    grants();
    failed_writes();
    restarts();
    exhausted();
    misuse();
    spoiled();
    return 0;
}
