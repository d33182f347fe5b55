/* The generic cell rate algorithm in both forms, and the policer: worked rows, and random arrivals against plain C. */
#include "check.h"

/* Spacing 10, tolerance 2; the cell at 27 comes before 30 - 2. */
static void worked(void)
{
    const struct { uint64_t at; abt_outcome outcome; } rows[] = {
        {0, ABT_CONFORMING}, {8, ABT_CONFORMING}, {18, ABT_CONFORMING}, {27, ABT_TOO_EARLY}, {28, ABT_CONFORMING}};
    abt_gcra gcra;
    abt_bucket bucket;
    SAME(abt_gcra_init(&gcra, 2), ABT_OK);
    SAME(abt_bucket_init(&bucket, 2), ABT_OK);
    for (size_t i = 0; i < sizeof rows / sizeof *rows; i++) {
        SAME(abt_gcra_check(&gcra, rows[i].at, 10), rows[i].outcome);
        SAME(abt_bucket_check(&bucket, rows[i].at, 10), rows[i].outcome);
    }
    SAME(abt_gcra_init(&gcra, 0), ABT_OK);
    SAME(abt_bucket_init(&bucket, 0), ABT_OK);
    SAME(abt_gcra_check(&gcra, ABT_ARRIVE_MAX + 1, 10), ABT_TIME_RANGE);
    SAME(abt_bucket_check(&bucket, ABT_ARRIVE_MAX + 1, 10), ABT_TIME_RANGE);
    SAME(abt_gcra_check(&gcra, 5, 10), ABT_CONFORMING);
    SAME(abt_bucket_check(&bucket, 5, 10), ABT_CONFORMING);
    SAME(abt_gcra_check(&gcra, 4, 10), ABT_CLOCK_BACK);
    SAME(abt_bucket_check(&bucket, 4, 10), ABT_CLOCK_BACK);
    SAME(abt_gcra_check(&gcra, ABT_ARRIVE_MAX, ABT_SPACING_MAX), ABT_CONFORMING);
    SAME(abt_bucket_check(&bucket, ABT_ARRIVE_MAX, ABT_SPACING_MAX), ABT_CONFORMING);
}

/* The spacing of 5120 is 2500000000. */
static void policed(void)
{
    const struct { uint64_t at; uint16_t held; abt_outcome outcome; } rows[] = {
        {5, 0x0000, ABT_NO_RATE},
        {4, 0x5120, ABT_CLOCK_BACK},
        {5, 0x5120, ABT_CONFORMING},
        {UINT64_C(2499999804), 0x5120, ABT_TOO_EARLY},
        {UINT64_C(2499999805), 0x5120, ABT_CONFORMING},
        {ABT_ARRIVE_MAX + 1, 0x0000, ABT_TIME_RANGE},
        {ABT_ARRIVE_MAX, 0x4000, ABT_CONFORMING},
    };
    abt_policer policer;
    SAME(abt_policer_init(&policer, 200), ABT_OK);
    for (size_t i = 0; i < sizeof rows / sizeof *rows; i++)
        SAME(abt_policer_arrive(&policer, rows[i].at, rows[i].held), rows[i].outcome);
}

/* A policer by the definition: a cell conforms if between each cell that was taken and it lie the spacings from that one on, but for the
 * tolerance. */
struct windows {
    uint64_t tau, at[16], spacing[16];
    int count;
};

static abt_outcome by_windows(struct windows *w, uint64_t at, uint64_t spacing)
{
    for (int first = 0; first < w->count; first++) {
        uint64_t owed = w->at[first];
        for (int i = first; i < w->count; i++)
            owed += w->spacing[i];
        if (owed > at + w->tau)
            return ABT_TOO_EARLY;
    }
    w->at[w->count] = at;
    w->spacing[w->count++] = spacing;
    return ABT_CONFORMING;
}

/* A policer by virtual scheduling, as the standard draws it. */
struct plain {
    uint64_t tau, tat;
    int has_tat;
};

static abt_outcome by_schedule(struct plain *p, uint64_t at, uint64_t spacing)
{
    if (!p->has_tat)
        p->tat = at;
    p->has_tat = 1;
    if (p->tat > at + p->tau)
        return ABT_TOO_EARLY;
    p->tat = (p->tat > at ? p->tat : at) + spacing;
    return ABT_CONFORMING;
}

/* A code whose rate is zero once in a while. */
static uint16_t some_code(uint64_t *seed)
{
    return (uint16_t)(below(seed, 8) ? 0x4000 | draw(seed) >> 40 : draw(seed) >> 48);
}

/* A step on, which is mostly near the spacing. */
static uint64_t some_step(uint64_t *seed, uint64_t spacing)
{
    switch (below(seed, 4)) {
    case 0: return 0;
    case 1: return below(seed, spacing / 8 + 2);
    default: return below(seed, 2 * spacing + 1);
    }
}

/* Short lists against the windows: all three machines. */
static void short_lists(long arrivals)
{
    uint64_t seed = 32;
    while (arrivals > 0) {
        struct windows w = {below(&seed, 3) ? below(&seed, 3000) : below(&seed, ABT_TAU_MAX + 1), {0}, {0}, 0}, p = w;
        abt_gcra gcra;
        abt_bucket bucket;
        abt_policer policer;
        SAME(abt_gcra_init(&gcra, w.tau), ABT_OK);
        SAME(abt_bucket_init(&bucket, w.tau), ABT_OK);
        SAME(abt_policer_init(&policer, w.tau), ABT_OK);
        uint64_t at = below(&seed, ABT_ARRIVE_MAX / 2);
        for (int i = 0; i < 16; i++, arrivals--) {
            uint16_t held = some_code(&seed);
            uint64_t spacing = abt_rate_spacing(held);
            at += some_step(&seed, spacing ? spacing : 1000);
            SAME(abt_policer_arrive(&policer, at, held), spacing ? by_windows(&p, at, spacing) : (abt_outcome)ABT_NO_RATE);
            if (!spacing)
                spacing = 1 + below(&seed, ABT_SPACING_MAX);
            abt_outcome wanted = by_windows(&w, at, spacing);
            SAME(abt_gcra_check(&gcra, at, spacing), wanted);
            SAME(abt_bucket_check(&bucket, at, spacing), wanted);
        }
    }
}

/* One long list against virtual scheduling, with states that move through memory meanwhile. */
static void long_list(long arrivals, uint64_t tau)
{
    uint64_t seed = 33 + tau, at = 0;
    struct plain p = {tau, 0, 0};
    abt_gcra gcra[2];
    abt_bucket bucket[2];
    SAME(abt_gcra_init(&gcra[0], tau), ABT_OK);
    SAME(abt_bucket_init(&bucket[0], tau), ABT_OK);
    for (long i = 0; i < arrivals; i++) {
        uint64_t spacing = 1 + below(&seed, 2000);
        at += some_step(&seed, spacing);
        abt_outcome wanted = by_schedule(&p, at, spacing);
        gcra[(i + 1) % 2] = gcra[i % 2];
        bucket[(i + 1) % 2] = bucket[i % 2];
        SAME(abt_gcra_check(&gcra[(i + 1) % 2], at, spacing), wanted);
        SAME(abt_bucket_check(&bucket[(i + 1) % 2], at, spacing), wanted);
    }
}

/* Calls that are refused leave the state as it was, and name their fault. */
static void misuse(void)
{
    abt_gcra gcra, gcra_before;
    abt_bucket bucket, bucket_before;
    abt_policer policer, policer_before;
    SAME(abt_gcra_init(NULL, 0), ABT_NULL);
    SAME(abt_bucket_init(NULL, 0), ABT_NULL);
    SAME(abt_policer_init(NULL, 0), ABT_NULL);
    SAME(abt_gcra_check(NULL, 0, 1), ABT_NULL);
    SAME(abt_bucket_check(NULL, 0, 1), ABT_NULL);
    SAME(abt_policer_arrive(NULL, 0, 0x4000), ABT_NULL);
    SAME(abt_gcra_init(&gcra, ABT_TAU_MAX), ABT_OK);
    SAME(abt_bucket_init(&bucket, ABT_TAU_MAX), ABT_OK);
    SAME(abt_policer_init(&policer, ABT_TAU_MAX), ABT_OK);
    gcra_before = gcra;
    bucket_before = bucket;
    policer_before = policer;
    SAME(abt_gcra_init(&gcra, ABT_TAU_MAX + 1), ABT_TAU_RANGE);
    SAME(abt_bucket_init(&bucket, UINT64_MAX), ABT_TAU_RANGE);
    SAME(abt_policer_init(&policer, ABT_TAU_MAX + 1), ABT_TAU_RANGE);
    SAME(abt_gcra_check(&gcra, 0, 0), ABT_SPACING_RANGE);
    SAME(abt_gcra_check(&gcra, 0, ABT_SPACING_MAX + 1), ABT_SPACING_RANGE);
    SAME(abt_bucket_check(&bucket, 0, 0), ABT_SPACING_RANGE);
    SAME(abt_bucket_check(&bucket, UINT64_MAX, UINT64_MAX), ABT_SPACING_RANGE);
    SAME(abt_policer_arrive(&policer, UINT64_MAX, 0), ABT_TIME_RANGE);
    /* States of another kind. */
    SAME(abt_gcra_check((abt_gcra *)(void *)&policer, 0, 1), ABT_NO_STATE);
    SAME(abt_policer_arrive((abt_policer *)(void *)&gcra, 0, 0x4000), ABT_NO_STATE);
    SAME(abt_gcra_check((abt_gcra *)(void *)&bucket, 0, 1), ABT_NO_STATE);
    SAME(abt_policer_arrive((abt_policer *)(void *)&bucket, 0, 0x4000), ABT_NO_STATE);
    SAME_MEMORY(&gcra, &gcra_before, sizeof gcra);
    SAME_MEMORY(&bucket, &bucket_before, sizeof bucket);
    SAME_MEMORY(&policer, &policer_before, sizeof policer);
    /* Memory that was never a state. */
    uint64_t seed = 34;
    for (int round = 0; round < 1000; round++) {
        uint8_t memory[64], before[64];
        for (size_t i = 0; i < sizeof memory; i++)
            memory[i] = (uint8_t)(round ? draw(&seed) >> 32 : 0);
        memcpy(before, memory, sizeof memory);
        memcpy(&gcra, memory, sizeof gcra);
        memcpy(&bucket, memory, sizeof bucket);
        memcpy(&policer, memory, sizeof policer);
        SAME(abt_gcra_check(&gcra, 0, 1), ABT_NO_STATE);
        SAME(abt_bucket_check(&bucket, 0, 1), ABT_NO_STATE);
        SAME(abt_policer_arrive(&policer, 0, 0x4000), ABT_NO_STATE);
        SAME_MEMORY(&gcra, before, sizeof gcra);
        SAME_MEMORY(&bucket, before, sizeof bucket);
        SAME_MEMORY(&policer, before, sizeof policer);
    }
}

/* States whose octets were changed: each call answers, and none does anything undefined (the sanitizers look). */
static void spoiled(void)
{
    uint64_t seed = 35;
    for (int round = 0; round < 200000; round++) {
        abt_gcra gcra;
        abt_bucket bucket;
        abt_policer policer;
        abt_gcra_init(&gcra, 5);
        abt_bucket_init(&bucket, 5);
        abt_policer_init(&policer, 5);
        SAME(abt_gcra_check(&gcra, 100, 10), ABT_CONFORMING);
        SAME(abt_bucket_check(&bucket, 100, 10), ABT_CONFORMING);
        SAME(abt_policer_arrive(&policer, 100, 0x7fff), ABT_CONFORMING);
        uint64_t place = below(&seed, sizeof policer), value = draw(&seed) >> below(&seed, 64);
        memcpy((uint8_t *)&gcra + place / 8 * 8, &value, 8);
        memcpy((uint8_t *)&bucket + place / 8 * 8, &value, 8);
        memcpy((uint8_t *)&policer + place / 8 * 8, &value, 8);
        uint64_t at = draw(&seed) >> below(&seed, 64), spacing = draw(&seed) >> below(&seed, 64);
        for (int call = 0; call < 3; call++) {
            abt_outcome a = abt_gcra_check(&gcra, at, spacing);
            abt_outcome b = abt_bucket_check(&bucket, at, spacing);
            abt_outcome c = abt_policer_arrive(&policer, at, (uint16_t)spacing);
            SAME(strcmp(abt_outcome_name(a), "unknown") && strcmp(abt_outcome_name(b), "unknown") &&
                     strcmp(abt_outcome_name(c), "unknown"), 1);
        }
    }
}

int main(int count, char **words)
{
    long arrivals = count > 1 ? atol(words[1]) : 10000000;
    worked();
    policed();
    short_lists(arrivals / 2);
    long_list(arrivals / 4, 0);
    long_list(arrivals / 4, 5000);
    misuse();
    spoiled();
    return 0;
}
