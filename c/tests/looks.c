/* What C reads of the states: worked rows of each call, what a source tells along its life, and the turn at a path's end. */
#include "check.h"

static const abt_rm ask = {ABT_REQUEST, 1, 1, 100, 0, 0x5120};

static void ports(void)
{
    static abt_table table;
    abt_port port;
    abt_connection connection;
    abt_rm answer, more = {ABT_REQUEST, 2, 1, 100, 0x5120, 0x7fff};
    abt_reservation told = {9, 9, 9, 9}, before = told;
    uint64_t number = 9;
    memset(&port, 0, sizeof port);
    memset(&connection, 0, sizeof connection);
    SAME(abt_port_capacity(&port, &number), ABT_NO_STATE);
    SAME(abt_connection_reservation(&connection, &told), ABT_NO_STATE);
    SAME(abt_table_capacity(&table, &number), ABT_NO_STATE);
    SAME(abt_table_count(&table, &number), ABT_NO_STATE);
    SAME(abt_table_reservation(&table, 1, 100, &told), ABT_NO_STATE);
    SAME(number, 9);
    SAME_MEMORY(&told, &before, sizeof told);
    abt_port_init(&port, 512000);
    abt_connection_init(&connection, 1, 100);
    abt_table_init(&table, 512001);
    SAME(abt_table_add(&table, 1, 100), ABT_OK);
    SAME(abt_port_capacity(&port, &number), ABT_OK);
    SAME(number, 512000);
    SAME(abt_table_capacity(&table, &number), ABT_OK);
    SAME(number, 512001);
    SAME(abt_table_count(&table, &number), ABT_OK);
    SAME(number, 1);
    SAME(abt_connection_reservation(&connection, &told), ABT_OK);
    SAME(told.newest | told.is_open | told.floor | told.ask, 0);
    SAME(abt_port_request(&port, &connection, &ask, &answer), ABT_PASS);
    SAME(abt_port_request(&port, &connection, &more, &answer), ABT_REFUSE);
    SAME(abt_table_request(&table, &ask, &answer), ABT_PASS);
    SAME(abt_connection_reservation(&connection, &told), ABT_OK);
    SAME(told.newest == 2 && !told.is_open && told.floor == 0x5120 && told.ask == 0x7fff, 1);
    SAME(abt_table_reservation(&table, 1, 100, &told), ABT_OK);
    SAME(told.newest == 1 && told.is_open == 1 && told.floor == 0 && told.ask == 0x5120, 1);
    SAME(abt_table_reservation(&table, 1, 101, &told), ABT_UNKNOWN_VC);
    SAME(abt_table_reservation(&table, 4096, 100, &told), ABT_VPI_RANGE);
    SAME(abt_port_capacity(NULL, &number), ABT_NULL);
    SAME(abt_port_capacity(&port, NULL), ABT_NULL);
    SAME(abt_connection_reservation(&connection, NULL), ABT_NULL);
    SAME(abt_table_capacity(&table, NULL), ABT_NULL);
    SAME(abt_table_count(&table, NULL), ABT_NULL);
    SAME(abt_table_reservation(&table, 1, 100, NULL), ABT_NULL);
}

static void shapers(void)
{
    abt_shaper shaper;
    uint64_t next = 9, told = 9;
    memset(&shaper, 0, sizeof shaper);
    SAME(abt_shaper_next(&shaper, &next), ABT_NO_STATE);
    SAME(next, 9);
    abt_shaper_init(&shaper, 7);
    SAME(abt_shaper_next(&shaper, &next), ABT_OK);
    SAME(next, 7);
    SAME(abt_shaper_emit(&shaper, 8, 0x53e8, &next), ABT_OK);
    SAME(abt_shaper_next(&shaper, &told), ABT_OK);
    SAME(told, next);
    SAME(abt_shaper_next(NULL, &told), ABT_NULL);
    SAME(abt_shaper_next(&shaper, NULL), ABT_NULL);
}

/* The phase, the last number and the earliest emission, or why there is none. */
static void stands(const abt_source *source, uint32_t phase, uint32_t last, abt_outcome outcome, uint64_t next)
{
    uint32_t word = 99;
    uint64_t moment = 99;
    SAME(abt_source_phase(source, &word), ABT_OK);
    SAME(word, phase);
    SAME(abt_source_last(source, &word), ABT_OK);
    SAME(word, last);
    SAME(abt_source_next(source, &moment), outcome);
    SAME(moment, outcome == ABT_OK ? next : 99);
}

static void sources(void)
{
    const uint8_t empty[4] = {0, 0, 0, 0};
    uint8_t record[ABT_RECORD_LENGTH];
    uint32_t word = 9;
    uint64_t next, before;
    abt_source source, copy;
    abt_rm rm, yes;
    memset(&source, 0, sizeof source);
    SAME(abt_source_phase(&source, &word), ABT_NO_STATE);
    SAME(abt_source_last(&source, &word), ABT_NO_STATE);
    SAME(abt_source_next(&source, &next), ABT_NO_STATE);
    SAME(word, 9);
    abt_source_init(&source, 1, 100);
    stands(&source, ABT_PHASE_DOWN, 0, ABT_DOWN, 0);
    SAME(abt_source_start(&source, empty, 4, 5), ABT_OK);
    stands(&source, ABT_PHASE_IDLE, 0, ABT_ZERO, 0);
    SAME(abt_source_ask(&source, 0x5120, record, sizeof record, &rm), ABT_WRITE_FIRST);
    stands(&source, ABT_PHASE_WRITING, 0, ABT_WRITING, 0);
    SAME(abt_source_wrote(&source, ABT_WRITTEN, &rm), ABT_ASKED);
    stands(&source, ABT_PHASE_ASKING, 1, ABT_ZERO, 0);
    SAME(abt_rm_turn(&rm, &yes), ABT_OK);
    SAME(abt_source_answer(&source, &yes), ABT_RAISED);
    /* A store without a spacing holds off for the longest one, a second. */
    stands(&source, ABT_PHASE_IDLE, 1, ABT_OK, UINT64_C(1000000000005));
    copy = source;
    SAME(abt_source_emit(&copy, UINT64_C(1000000000004), &next), ABT_TOO_SOON);
    SAME(abt_source_emit(&copy, UINT64_C(1000000000005), &before), ABT_OK);
    stands(&copy, ABT_PHASE_IDLE, 1, ABT_OK, before);
    SAME(abt_source_emit(&source, ABT_EMIT_MAX, &next), ABT_OK);
    stands(&source, ABT_PHASE_IDLE, 1, ABT_TIME_RANGE, 0);
    SAME(abt_source_crash(&source), ABT_OK);
    stands(&source, ABT_PHASE_DOWN, 1, ABT_DOWN, 0);
    SAME(abt_source_start(&source, record, sizeof record, 9), ABT_OK);
    SAME(abt_source_last(&source, &word), ABT_OK);
    SAME(word, 64);
    SAME(abt_source_phase(&source, NULL), ABT_NULL);
    SAME(abt_source_last(NULL, &word), ABT_NULL);
    SAME(abt_source_next(&source, NULL), ABT_NULL);
}

static void turns(void)
{
    abt_rm yes = {9, 9, 9, 9, 9, 9}, before = yes, rm = ask;
    rm.kind = ABT_YES;
    SAME(abt_rm_turn(&rm, &yes), ABT_KIND);
    rm.kind = 0;
    SAME(abt_rm_turn(&rm, &yes), ABT_KIND);
    rm = ask;
    rm.vpi = 4096;
    SAME(abt_rm_turn(&rm, &yes), ABT_VPI_RANGE);
    rm = ask;
    rm.seq = 0;
    SAME(abt_rm_turn(&rm, &yes), ABT_SEQ_ZERO);
    rm = ask;
    rm.floor = 0x5258;
    SAME(abt_rm_turn(&rm, &yes), ABT_RATE_ORDER);
    SAME_MEMORY(&yes, &before, sizeof yes);
    rm = ask;
    rm.ask |= 0x8000; /* the reserved bit */
    SAME(abt_rm_turn(&rm, &yes), ABT_OK);
    rm = ask;
    rm.kind = ABT_YES;
    SAME_MEMORY(&yes, &rm, sizeof yes);
    SAME(abt_rm_turn(NULL, &yes), ABT_NULL);
    SAME(abt_rm_turn(&rm, NULL), ABT_NULL);
}

int main(void)
{
    ports();
    shapers();
    sources();
    turns();
    return 0;
}
