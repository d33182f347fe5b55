/* Nanoseconds a call of the library for C and of the same work in plain C, side by side: rounds of each in turn, and the fastest round of
 * each. With -DHAS_RTE_METER also of DPDK's single rate three color marker. With a name only that row runs, for a count of instructions.
 *
 * usage: speed [ROUNDS [NAME]] */
#define _POSIX_C_SOURCE 200809L
#include "plain.h"
#include <abt.h>
#include <stdio.h>
#include <stdlib.h>
#include <string.h>
#include <time.h>
#ifdef HAS_RTE_METER
#include <rte_meter.h>
#endif

enum { CALLS = 1 << 16, BURST = 32 };

static const uint64_t tau = 2400000; /* some 40 cells */
static uint64_t at[CALLS], spacings[CALLS], sink;
static uint16_t codes[CALLS];
static uint8_t payloads[CALLS][48];
static abt_rm requests[CALLS];
static struct plain_rm plain_requests[CALLS];
static abt_table filled, ingress;
static struct plain_port plain_filled;
static abt_arrival cells[CALLS];
static uint8_t verdicts[CALLS];

static double now(void)
{
    struct timespec t;
    clock_gettime(CLOCK_MONOTONIC, &t);
    return (double)t.tv_sec * 1e9 + (double)t.tv_nsec;
}

/* Random arrivals at nine tenths of the rate, of which few are early; a rate that changes each 64 cells; random payloads. */
static void draw_all(void)
{
    uint64_t seed = 7, moment = 0;
    uint16_t code = 0x7000;
    for (int i = 0; i < CALLS; i++) {
        seed ^= seed << 13;
        seed ^= seed >> 7;
        seed ^= seed << 17;
        if (i % 64 == 0)
            code = (uint16_t)(0x7000 | (seed >> 20 & 0x1ff));
        codes[i] = code;
        spacings[i] = abt_rate_spacing(code);
        moment += seed % (20 * spacings[i] / 9);
        at[i] = moment;
        for (int k = 0; k < 48; k++)
            payloads[i][k] = (uint8_t)(seed >> (k % 8 * 8)) ^ (uint8_t)k;
    }
}

/* A port of 1,024 connections, four VPIs of 256 VCIs, that have asked for nothing; and requests of them in no order, each with a number of its
 * own, for rates of which about half fit. */
static void fill_port(void)
{
    uint64_t seed = 11;
    abt_table_init(&filled, UINT64_C(1) << 31);
    plain_filled.capacity = UINT64_C(1) << 31;
    for (int i = 0; i < ABT_TABLE_PLACES; i++) {
        abt_table_add(&filled, (uint16_t)(i / 256), (uint16_t)(32 + i % 256));
        plain_add(&plain_filled, (uint16_t)(i / 256), (uint16_t)(32 + i % 256));
    }
    for (int i = 0; i < CALLS; i++) {
        seed ^= seed << 13;
        seed ^= seed >> 7;
        seed ^= seed << 17;
        uint32_t which = seed >> 30 & 1023;
        requests[i] = (abt_rm){ABT_REQUEST, (uint32_t)i + 1, (uint16_t)(which / 256), (uint16_t)(32 + which % 256), 0, (uint16_t)(0x5800 | (seed >> 50 & 0x3ff))};
        plain_requests[i] = (struct plain_rm){ABT_REQUEST, requests[i].seq, requests[i].vpi, requests[i].vci, 0, requests[i].ask};
    }
}

/* An ingress of the same 1,024 connections, each of which holds the rate of 0x7000, and cells of them in no order. */
static void fill_ingress(void)
{
    uint64_t seed = 13;
    abt_rm answer;
    abt_table_init(&ingress, ABT_CAPACITY_MAX);
    for (int i = 0; i < ABT_TABLE_PLACES; i++) {
        abt_rm rm = {ABT_REQUEST, 1, (uint16_t)(i / 256), (uint16_t)(32 + i % 256), 0, 0x7000};
        abt_table_add_ingress(&ingress, rm.vpi, rm.vci, tau);
        abt_table_request(&ingress, &rm, &answer);
    }
    for (int i = 0; i < CALLS; i++) {
        seed ^= seed << 13;
        seed ^= seed >> 7;
        seed ^= seed << 17;
        uint32_t which = seed >> 30 & 1023;
        cells[i] = (abt_arrival){at[i], (uint16_t)(which / 256), (uint16_t)(32 + which % 256)};
    }
}

static void library_request(void)
{
    static abt_table table;
    abt_rm answer;
    table = filled;
    for (int i = 0; i < CALLS; i++)
        sink += abt_table_request(&table, &requests[i], &answer);
}

static void plain_c_request(void)
{
    static struct plain_port port;
    struct plain_rm answer;
    port = plain_filled;
    for (int i = 0; i < CALLS; i++)
        sink += (uint64_t)plain_request(&port, &plain_requests[i], &answer);
}

/* Both decide alike, and both words come about often. */
static void compare_ports(void)
{
    static abt_table table;
    static struct plain_port port;
    abt_rm answer;
    struct plain_rm plain_answer;
    int times[3] = {0, 0, 0};
    table = filled;
    port = plain_filled;
    for (int i = 0; i < CALLS; i++) {
        abt_outcome outcome = abt_table_request(&table, &requests[i], &answer);
        int plain = plain_request(&port, &plain_requests[i], &plain_answer);
        if (plain != (outcome == ABT_PASS ? 1 : outcome == ABT_REFUSE ? 2 : 0)) {
            fprintf(stderr, "the ports differ at request %d\n", i);
            exit(1);
        }
        times[plain]++;
    }
    printf("requests: %d pass, %d refused, %d dropped\n", times[1], times[2], times[0]);
}

static void library_check(void)
{
    abt_gcra gcra;
    abt_gcra_init(&gcra, tau);
    for (int i = 0; i < CALLS; i++)
        sink += abt_gcra_check(&gcra, at[i], spacings[i]);
}

static void plain_c_check(void)
{
    struct plain_gcra gcra = {tau, 0, 0};
    for (int i = 0; i < CALLS; i++)
        sink += (uint64_t)plain_check(&gcra, at[i], spacings[i]);
}

static void library_bucket(void)
{
    abt_bucket bucket;
    abt_bucket_init(&bucket, tau);
    for (int i = 0; i < CALLS; i++)
        sink += abt_bucket_check(&bucket, at[i], spacings[i]);
}

static void library_arrive(void)
{
    abt_policer policer;
    abt_policer_init(&policer, tau);
    for (int i = 0; i < CALLS; i++)
        sink += abt_policer_arrive(&policer, at[i], codes[i]);
}

/* Bursts of 32 cells, at the rate of the first of them. */
static void library_burst(void)
{
    abt_policer policer;
    size_t judged;
    abt_policer_init(&policer, tau);
    for (int i = 0; i < CALLS; i += BURST)
        sink += abt_policer_arrive_burst(&policer, codes[i], at + i, verdicts + i, BURST, &judged);
}

static void library_table_arrive(void)
{
    static abt_table table;
    table = ingress;
    for (int i = 0; i < CALLS; i++)
        sink += abt_table_arrive(&table, cells[i].vpi, cells[i].vci, cells[i].at);
}

static void library_table_burst(void)
{
    static abt_table table;
    size_t judged;
    table = ingress;
    for (int i = 0; i < CALLS; i += BURST)
        sink += abt_table_arrive_burst(&table, cells + i, verdicts + i, BURST, &judged);
}

static void plain_c_arrive(void)
{
    struct plain_gcra gcra = {tau, 0, 0};
    for (int i = 0; i < CALLS; i++)
        sink += (uint64_t)plain_arrive(&gcra, at[i], codes[i]);
}

static void library_emit(void)
{
    abt_shaper shaper;
    uint64_t next;
    abt_shaper_init(&shaper, 0);
    for (int i = 0; i < CALLS; i++)
        sink += abt_shaper_emit(&shaper, at[i], codes[i], &next);
}

static void plain_c_emit(void)
{
    uint64_t next = 0;
    for (int i = 0; i < CALLS; i++)
        sink += (uint64_t)plain_emit(&next, at[i], codes[i]);
}

static void library_crc10(void)
{
    for (int i = 0; i < CALLS; i++) {
        uint16_t check;
        abt_crc10(payloads[i], 48, &check);
        sink += check;
    }
}

static void plain_c_crc10(void)
{
    for (int i = 0; i < CALLS; i++)
        sink += plain_crc10(payloads[i]);
}

#ifdef HAS_RTE_METER
/* As DPDK's applications call it: the function of its header, which the compiler puts in place. One tick is a picosecond here, and the
 * fields are set without DPDK's own start, which would look for the processor's clock: a cell of 53 octets each 45,000 ticks, a bucket of
 * 40 cells, and no second one. */
static const struct rte_meter_srtcm_profile cells_of_45000 = {
    .cbs = 40 * 53, .ebs = 0, .cir_period = 45000, .cir_bytes_per_period = 53};

/* The profile lies in memory, as one that is configured does: the compiler mustn't know its numbers, or it puts products in the place of the
 * marker's divisions. */
static struct rte_meter_srtcm_profile *in_memory(struct rte_meter_srtcm_profile *profile)
{
    __asm__ volatile("" : "+r"(profile) : : "memory");
    return profile;
}

static void rte_srtcm(void)
{
    static struct rte_meter_srtcm_profile all;
    struct rte_meter_srtcm_profile *profile = in_memory(&all);
    struct rte_meter_srtcm meter = {.time = 0, .tc = 40 * 53, .te = 0};
    *profile = cells_of_45000;
    profile = in_memory(profile);
    for (int i = 0; i < CALLS; i++)
        verdicts[i] = (uint8_t)rte_meter_srtcm_color_blind_check(&meter, profile, at[i], 53);
}

/* The same of 1,024 connections, each with a meter and a profile of its own, which are at hand. */
static void rte_srtcm_mixed(void)
{
    static struct rte_meter_srtcm_profile profiles[ABT_TABLE_PLACES];
    static struct rte_meter_srtcm meters[ABT_TABLE_PLACES];
    for (int i = 0; i < ABT_TABLE_PLACES; i++) {
        profiles[i] = cells_of_45000;
        meters[i] = (struct rte_meter_srtcm){.time = 0, .tc = 40 * 53, .te = 0};
    }
    struct rte_meter_srtcm_profile *of = in_memory(profiles);
    for (int i = 0; i < CALLS; i++) {
        int which = cells[i].vpi * 256 + cells[i].vci - 32;
        verdicts[i] = (uint8_t)rte_meter_srtcm_color_blind_check(&meters[which], &of[which], cells[i].at, 53);
    }
}
#endif

static const struct row {
    const char *name;
    void (*run)(void);
} rows[] = {
    {"abt_gcra_check", library_check},       {"plain virtual scheduling", plain_c_check},
    {"abt_bucket_check", library_bucket},    {"abt_policer_arrive", library_arrive},
    {"abt_policer_arrive_burst", library_burst},
    {"abt_table_arrive", library_table_arrive},
    {"abt_table_arrive_burst", library_table_burst},
    {"plain policer", plain_c_arrive},       {"abt_shaper_emit", library_emit},
    {"plain shaper", plain_c_emit},          {"abt_crc10", library_crc10},
    {"plain CRC-10 by tables", plain_c_crc10}, {"abt_table_request", library_request},
    {"plain port, open addresses", plain_c_request},
#ifdef HAS_RTE_METER
    {"rte_meter srTCM, color blind", rte_srtcm},
    {"rte_meter srTCM, 1,024 meters", rte_srtcm_mixed},
#endif
};

enum { ROWS = sizeof rows / sizeof *rows };

int main(int count, char **words)
{
    int rounds = count > 1 ? atoi(words[1]) : 200;
    const char *name = count > 2 ? words[2] : NULL;
    double fastest[ROWS];
    draw_all();
    plain_crc10_tables();
    fill_port();
    fill_ingress();
    compare_ports();
    for (int i = 0; i < ROWS; i++)
        fastest[i] = 1e18;
    for (int round = 0; round < rounds; round++)
        for (int i = 0; i < ROWS; i++) {
            if (name && strcmp(name, rows[i].name) != 0)
                continue;
            double began = now();
            rows[i].run();
            double took = (now() - began) / CALLS;
            if (took < fastest[i])
                fastest[i] = took;
        }
    for (int i = 0; i < ROWS; i++)
        if (!name || strcmp(name, rows[i].name) == 0)
            printf("%-30s %7.2f ns a call\n", rows[i].name, fastest[i]);
    fprintf(stderr, "%s", sink == 1 ? "\n" : "");
    return 0;
}
