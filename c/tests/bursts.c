/* Bursts: worked rows, and random bursts against as many single calls, over a policer and over a table. */
#include "check.h"

enum { MOST = 40 };

/* The moments of a burst: onward by some steps, now and then back, or past the greatest. */
static void draw_moments(uint64_t *seed, uint64_t from, uint64_t *at, size_t count)
{
    for (size_t i = 0; i < count; i++) {
        from += below(seed, 8) ? below(seed, 100000) : 0;
        at[i] = from;
        if (!below(seed, 200))
            at[i] -= below(seed, 2) ? 1 : at[i];
        if (!below(seed, 400))
            at[i] = below(seed, 2) ? ABT_ARRIVE_MAX + 1 : ABT_ARRIVE_MAX;
    }
}

static void worked(void)
{
    const uint64_t at[] = {5, 6, 2500005, 2500004, 9};
    uint8_t verdicts[] = {9, 9, 9, 9, 9};
    const uint8_t wanted[] = {ABT_CONFORMING, ABT_TOO_EARLY, ABT_CONFORMING, 9, 9}, none[] = {ABT_NO_RATE, ABT_NO_RATE, ABT_NO_RATE, 9, 9};
    size_t judged = 7;
    abt_policer policer, before;
    SAME(abt_policer_init(&policer, 200), ABT_OK);
    /* 0x7120 is 409600 cells per second, so one each 2441407 picoseconds. */
    SAME(abt_policer_arrive_burst(&policer, 0x7120, at, verdicts, 5, &judged), ABT_CLOCK_BACK);
    SAME(judged, 3);
    SAME_MEMORY(verdicts, wanted, 5);
    before = policer;
    SAME(abt_policer_arrive_burst(&policer, 0x7120, at, verdicts, 0, &judged), ABT_OK);
    SAME(judged, 0);
    SAME_MEMORY(&policer, &before, sizeof policer);
    SAME(abt_policer_init(&policer, 200), ABT_OK);
    memset(verdicts, 9, sizeof verdicts);
    SAME(abt_policer_arrive_burst(&policer, 0, at, verdicts, 3, &judged), ABT_OK);
    SAME(judged, 3);
    SAME_MEMORY(verdicts, none, 5);
    SAME(abt_policer_arrive_burst(NULL, 0, at, verdicts, 3, &judged), ABT_NULL);
    SAME(abt_policer_arrive_burst(&policer, 0, NULL, verdicts, 3, &judged), ABT_NULL);
    SAME(abt_policer_arrive_burst(&policer, 0, at, NULL, 3, &judged), ABT_NULL);
    SAME(abt_policer_arrive_burst(&policer, 0, at, verdicts, 3, NULL), ABT_NULL);
    SAME(abt_raw_policer_arrive_burst(&policer, 0, at, 3, verdicts, 2, &judged), ABT_LENGTH);
    SAME(judged, 0);
    memset(&policer, 0, sizeof policer);
    SAME(abt_policer_arrive_burst(&policer, 0, at, verdicts, 3, &judged), ABT_NO_STATE);
}

/* A burst and single calls over copies of one policer: the same verdicts, fault, place of it and state. */
static void as_single_calls(void)
{
    uint64_t seed = 5, at[MOST], tolerances[] = {0, 200, 2400000, ABT_TAU_MAX};
    int stopped = 0, early = 0;
    for (int round = 0; round < 20000; round++) {
        abt_policer policer, single;
        uint64_t from = 0;
        abt_policer_init(&policer, tolerances[below(&seed, 4)]);
        for (int k = 0; k < 4; k++) {
            size_t count = below(&seed, MOST), judged = MOST, i = 0;
            uint16_t held = below(&seed, 10) ? (uint16_t)(0x7000 | below(&seed, 512)) : 0;
            uint8_t verdicts[MOST], wanted[MOST];
            abt_outcome outcome = ABT_OK;
            memset(verdicts, 99, MOST);
            memset(wanted, 99, MOST);
            draw_moments(&seed, from, at, count);
            single = policer;
            for (; i < count; i++) {
                outcome = abt_policer_arrive(&single, at[i], held);
                if (outcome >= ABT_FAULTS)
                    break;
                wanted[i] = (uint8_t)outcome;
                early += outcome == ABT_TOO_EARLY;
                from = at[i];
            }
            SAME(abt_policer_arrive_burst(&policer, held, at, verdicts, count, &judged), i < count ? outcome : (abt_outcome)ABT_OK);
            SAME(judged, i);
            SAME_MEMORY(verdicts, wanted, MOST);
            SAME_MEMORY(&policer, &single, sizeof policer);
            stopped += i < count;
        }
    }
    SAME(stopped > 1000 && early > 10000, 1);
}

/* The same over a table of 64 connections, most of them policed here, some not, some unknown; and requests come between the bursts. */
static void over_a_table(void)
{
    static abt_table table, single;
    static abt_arrival cells[MOST];
    uint64_t seed = 6, at[MOST], from = 0;
    int stopped = 0, unknown = 0;
    abt_table_init(&table, UINT64_C(1) << 40);
    for (uint16_t i = 0; i < 64; i++)
        SAME(i % 16 == 15 ? abt_table_add(&table, 0, i) : abt_table_add_ingress(&table, 0, i, 2400000), ABT_OK);
    for (uint32_t round = 1; round < 4000; round++) {
        size_t count = below(&seed, MOST), judged = MOST, i = 0;
        uint8_t outcomes[MOST], wanted[MOST];
        abt_outcome outcome = ABT_OK;
        abt_rm answer, rm = {ABT_REQUEST, round, 0, (uint16_t)below(&seed, 64), 0, below(&seed, 5) ? (uint16_t)(0x6c00 | below(&seed, 512)) : 0};
        SAME(abt_table_request(&table, &rm, &answer), ABT_PASS);
        memset(outcomes, 99, MOST);
        memset(wanted, 99, MOST);
        draw_moments(&seed, from, at, count);
        for (size_t k = 0; k < count; k++) {
            uint16_t vci = below(&seed, 100) ? (uint16_t)(below(&seed, 4) * 16 + below(&seed, 15)) : (uint16_t)below(&seed, 70);
            cells[k] = (abt_arrival){at[k], below(&seed, 2000) ? 0 : 4096, vci};
        }
        single = table;
        for (; i < count; i++) {
            outcome = abt_table_arrive(&single, cells[i].vpi, cells[i].vci, cells[i].at);
            if (outcome >= ABT_FAULTS)
                break;
            wanted[i] = (uint8_t)outcome;
            unknown += outcome == ABT_UNKNOWN_VC;
            from = at[i] > from && at[i] < ABT_ARRIVE_MAX / 2 ? at[i] : from;
        }
        SAME(abt_table_arrive_burst(&table, cells, outcomes, count, &judged), i < count ? outcome : (abt_outcome)ABT_OK);
        SAME(judged, i);
        SAME_MEMORY(outcomes, wanted, MOST);
        SAME_MEMORY(&table, &single, sizeof table);
        stopped += i < count;
    }
    SAME(stopped > 100 && unknown > 10, 1);
}

/* A table polices as a policer of each connection does, at the rate that the connection holds. */
static void as_a_policer(void)
{
    static abt_table table;
    uint8_t outcomes[1];
    size_t judged = 3;
    abt_rm answer, rm = {ABT_REQUEST, 1, 1, 100, 0, 0x5120};
    abt_arrival cell = {7, 1, 100};
    abt_table_init(&table, 512000);
    SAME(abt_table_arrive(&table, 1, 100, 7), ABT_UNKNOWN_VC);
    SAME(abt_table_add_ingress(&table, 1, 100, ABT_TAU_MAX + 1), ABT_TAU_RANGE);
    SAME(abt_table_add_ingress(&table, 4096, 100, 0), ABT_VPI_RANGE);
    SAME(abt_table_add_ingress(&table, 1, 100, 200), ABT_OK);
    SAME(abt_table_add_ingress(&table, 1, 100, 200), ABT_KNOWN);
    SAME(abt_table_add(&table, 1, 101), ABT_OK);
    SAME(abt_table_arrive(&table, 1, 101, 7), ABT_NOT_INGRESS);
    SAME(abt_table_arrive(&table, 4096, 101, 7), ABT_VPI_RANGE);
    SAME(abt_table_arrive(&table, 1, 100, 0), ABT_NO_RATE);
    SAME(abt_table_request(&table, &rm, &answer), ABT_PASS);
    /* 0x5120 is 400 cells per second. */
    SAME(abt_table_arrive(&table, 1, 100, 7), ABT_CONFORMING);
    SAME(abt_table_arrive(&table, 1, 100, UINT64_C(2499999806)), ABT_TOO_EARLY);
    SAME(abt_table_arrive(&table, 1, 100, UINT64_C(2499999807)), ABT_CONFORMING);
    SAME(abt_table_arrive(&table, 1, 100, UINT64_C(2499999806)), ABT_CLOCK_BACK);
    SAME(abt_table_arrive(&table, 1, 100, ABT_ARRIVE_MAX + 1), ABT_TIME_RANGE);
    SAME(abt_table_arrive(NULL, 1, 100, 7), ABT_NULL);
    SAME(abt_table_arrive_burst(NULL, &cell, outcomes, 1, &judged), ABT_NULL);
    SAME(abt_table_arrive_burst(&table, NULL, outcomes, 1, &judged), ABT_NULL);
    SAME(abt_table_arrive_burst(&table, &cell, NULL, 1, &judged), ABT_NULL);
    SAME(abt_table_arrive_burst(&table, &cell, outcomes, 1, NULL), ABT_NULL);
    SAME(judged, 3);
    SAME(abt_raw_table_arrive_burst(&table, &cell, 1, outcomes, 0, &judged), ABT_LENGTH);
    memset(&table, 0, sizeof table);
    SAME(abt_table_arrive_burst(&table, &cell, outcomes, 1, &judged), ABT_NO_STATE);
    SAME(judged, 0);
    SAME(abt_table_arrive(&table, 1, 100, 7), ABT_NO_STATE);
    SAME(abt_table_add_ingress(&table, 1, 100, 7), ABT_NO_STATE);
    SAME(abt_table_add_ingress(NULL, 1, 100, 7), ABT_NULL);
}

int main(void)
{
    worked();
    as_single_calls();
    over_a_table();
    as_a_policer();
    return 0;
}
