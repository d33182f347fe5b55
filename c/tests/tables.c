/* A port with a table: worked rows, random calls over 1,024 connections against plain C that searches all of them, and damaged tables. */
#include "check.h"

/* A link of 1000 cells per second, in units. 5120, 5258 and 53e8 are 400, 600 and 1000 cells per second. */
#define CAPACITY 512000

static abt_rm message(uint32_t kind, uint16_t vpi, uint16_t vci, uint32_t seq, uint16_t floor, uint16_t ask)
{
    abt_rm rm = {kind, seq, vpi, vci, floor, ask};
    return rm;
}

static abt_outcome call(abt_table *table, const abt_rm *rm, abt_rm *answer)
{
    return rm->kind == ABT_REQUEST ? abt_table_request(table, rm, answer) : abt_table_answer(table, rm);
}

/* A call, and how all stands after it. */
struct row {
    uint32_t kind;
    uint16_t vpi, vci;
    uint32_t seq;
    uint16_t floor, ask;
    abt_outcome outcome;
    uint16_t held;
    uint64_t total;
};

static void meet(abt_table *table, const struct row *row)
{
    abt_rm rm = message(row->kind, row->vpi, row->vci, row->seq, row->floor, row->ask), answer = message(9, 9, 9, 9, 9, 9);
    abt_rm wanted = row->outcome == ABT_REFUSE ? message(ABT_NO, row->vpi, row->vci, row->seq, row->floor, row->ask) : answer;
    uint16_t held = 0;
    uint64_t total = 7;
    SAME(call(table, &rm, &answer), row->outcome);
    SAME_MEMORY(&answer, &wanted, sizeof answer);
    SAME(abt_table_held(table, row->vpi, row->vci, &held), row->outcome == ABT_UNKNOWN_VC ? ABT_UNKNOWN_VC : ABT_OK);
    SAME(held, row->held);
    SAME(abt_table_total(table, &total), ABT_OK);
    SAME(total, row->total);
}

/* Of three connections two, 0/100 and 37/100, differ in their VPI alone. 1/100 is of none. */
static void worked(void)
{
    const struct row rows[] = {
        {ABT_REQUEST, 0, 100, 1, 0, 0x5120, ABT_PASS, 0x5120, 204800},
        {ABT_REQUEST, 37, 100, 1, 0, 0x5120, ABT_PASS, 0x5120, 409600},
        {ABT_REQUEST, 1, 63, 1, 0, 0x5120, ABT_REFUSE, 0, 409600},
        {ABT_REQUEST, 1, 100, 1, 0, 0, ABT_UNKNOWN_VC, 0, 409600},
        {ABT_NO, 1, 100, 1, 0, 0, ABT_UNKNOWN_VC, 0, 409600},
        {ABT_REQUEST, 0, 100, 1, 0, 0x5120, ABT_PASS, 0x5120, 409600},
        {ABT_REQUEST, 0, 100, 1, 0, 0x5258, ABT_CONFLICT, 0x5120, 409600},
        {ABT_REQUEST, 37, 100, 0xffffffff, 0, 0, ABT_PASS, 0, 204800},
        {ABT_REQUEST, 37, 100, 1, 0, 0x5120, ABT_STALE, 0, 204800},
        {ABT_REQUEST, 1, 63, 2, 0x5120, 0x5258, ABT_FLOOR_ABOVE, 0, 204800},
        {ABT_REQUEST, 1, 63, 2, 0, 0x5258, ABT_PASS, 0x5258, 512000},
        {ABT_NO, 0, 100, 1, 0, 0x5120, ABT_PASS, 0, 307200},
        {ABT_YES, 0, 100, 1, 0, 0x5120, ABT_CONFLICT, 0, 307200},
        {ABT_YES, 1, 63, 2, 0, 0x5258, ABT_PASS, 0x5258, 307200},
    };
    abt_table table;
    memset(&table, 0xa5, sizeof table);
    SAME(abt_table_init(&table, CAPACITY), ABT_OK);
    SAME(abt_table_add(&table, 0, 100), ABT_OK);
    SAME(abt_table_add(&table, 37, 100), ABT_OK);
    SAME(abt_table_add(&table, 1, 63), ABT_OK);
    SAME(abt_table_add(&table, 0, 100), ABT_KNOWN);
    for (size_t i = 0; i < sizeof rows / sizeof *rows; i++)
        meet(&table, &rows[i]);
    SAME(abt_table_set_capacity(&table, 307199), ABT_BELOW_SUM);
    SAME(abt_table_set_capacity(&table, 307200), ABT_OK);
    SAME(abt_table_set_capacity(&table, ABT_CAPACITY_MAX + 1), ABT_CAPACITY_RANGE);
}

/* The port in plain C: it looks at each connection in turn, and keeps no sum. */
struct plain {
    uint64_t capacity;
    int count;
    struct reserved {
        uint16_t vpi, vci;
        uint32_t newest;
        int open;
        uint64_t floor, ask;
    } of[ABT_TABLE_PLACES];
};

static uint64_t plain_held(const struct reserved *r)
{
    return r->open ? r->ask : r->floor;
}

static uint64_t plain_total(const struct plain *port)
{
    uint64_t total = 0;
    for (int i = 0; i < port->count; i++)
        total += plain_held(&port->of[i]);
    return total;
}

static struct reserved *plain_find(struct plain *port, uint16_t vpi, uint16_t vci)
{
    for (int i = 0; i < port->count; i++)
        if (port->of[i].vpi == vpi && port->of[i].vci == vci)
            return &port->of[i];
    return NULL;
}

static abt_outcome plain_call(struct plain *port, struct reserved *r, const abt_rm *rm)
{
    uint64_t floor = abt_rate_units(rm->floor), ask = abt_rate_units(rm->ask);
    int same = r && rm->seq == r->newest && floor == r->floor && ask == r->ask;
    if (!r)
        return ABT_UNKNOWN_VC;
    if (rm->seq < r->newest)
        return ABT_STALE;
    if (rm->kind != ABT_REQUEST) {
        if (!same || (rm->kind == ABT_YES && !r->open))
            return ABT_CONFLICT;
        r->open = r->open && rm->kind == ABT_YES;
        return ABT_PASS;
    }
    if (rm->seq == r->newest)
        return !same ? ABT_CONFLICT : r->open ? ABT_PASS : ABT_REFUSE;
    if (floor > plain_held(r))
        return ABT_FLOOR_ABOVE;
    r->open = plain_total(port) - plain_held(r) + ask <= port->capacity;
    r->newest = rm->seq;
    r->floor = floor;
    r->ask = ask;
    return r->open ? ABT_PASS : ABT_REFUSE;
}

static void plain_add(struct plain *port, uint16_t vpi, uint16_t vci)
{
    memset(&port->of[port->count], 0, sizeof *port->of);
    port->of[port->count].vpi = vpi;
    port->of[port->count++].vci = vci;
}

/* A channel: any one, or one of those that fall together, or such as are given out in order. */
static void channel(uint64_t *seed, int kind, uint16_t *vpi, uint16_t *vci)
{
    do {
        *vpi = (uint16_t)(kind < 2 ? below(seed, 4096) : below(seed, 4));
        *vci = (uint16_t)(kind < 2 ? below(seed, 65536) : 32 + below(seed, 1000));
    } while (kind == 1 && ((uint32_t)*vpi << 16 | *vci) * UINT32_C(2654435769) >> 22 != 7);
}

/* Takes connections in until the table is full. */
static void fill(abt_table *table, struct plain *port, uint64_t *seed)
{
    for (int kind = (int)below(seed, 3); port->count < ABT_TABLE_PLACES; kind = kind == 1 && port->count > 100 ? 0 : kind) {
        uint16_t vpi, vci;
        channel(seed, kind, &vpi, &vci);
        int is_known = plain_find(port, vpi, vci) != NULL;
        SAME(abt_table_add(table, vpi, vci), is_known ? ABT_KNOWN : ABT_OK);
        if (!is_known)
            plain_add(port, vpi, vci);
    }
    SAME(abt_table_add(table, port->of[1023].vpi, port->of[1023].vci), ABT_KNOWN);
    SAME(abt_table_add(table, 4096, 1), ABT_VPI_RANGE);
    for (int turn = 0; turn < 100; turn++) {
        uint16_t vpi = (uint16_t)below(seed, 4096), vci = (uint16_t)below(seed, 65536);
        SAME(abt_table_add(table, vpi, vci), plain_find(port, vpi, vci) ? ABT_KNOWN : ABT_FULL);
    }
}

static abt_rm random_message(uint64_t *seed, const struct plain *port)
{
    static const uint16_t codes[] = {0, 0x0123, 0x4e40, 0x5120, 0xd120, 0x5258, 0x5320, 0x53e8};
    const struct reserved *r = &port->of[below(seed, below(seed, 4) ? 8 : ABT_TABLE_PLACES)];
    uint16_t a = codes[below(seed, 8)], b = codes[below(seed, 8)];
    int ordered = abt_rate_units(a) <= abt_rate_units(b);
    uint32_t kind = below(seed, 3) ? ABT_REQUEST : below(seed, 2) ? ABT_YES : ABT_NO;
    abt_rm rm = message(kind, r->vpi, r->vci, r->newest + (uint32_t)below(seed, 3), ordered ? a : b, ordered ? b : a);
    if (!below(seed, 2)) {
        /* what was decided, again or as an answer */
        rm.seq = r->newest;
        rm.floor = abt_rate_at_most(r->floor);
        rm.ask = abt_rate_at_most(r->ask);
    }
    if (!below(seed, 16))
        rm.vci ^= (uint16_t)(1u << below(seed, 16));
    rm.seq -= rm.seq > 1 && !below(seed, 4);
    rm.seq += !rm.seq;
    return rm;
}

static long times[ABT_DAMAGED + 1];

static void random_call(abt_table *table, struct plain *port, uint64_t *seed)
{
    abt_rm rm = random_message(seed, port), answer = message(9, 9, 9, 9, 9, 9), no = answer;
    struct reserved *r = plain_find(port, rm.vpi, rm.vci);
    abt_outcome wanted = plain_call(port, r, &rm);
    uint16_t held = 0;
    uint64_t total = 7, capacity;
    times[wanted]++;
    SAME(call(table, &rm, &answer), wanted);
    if (wanted == ABT_REFUSE)
        no = message(ABT_NO, rm.vpi, rm.vci, rm.seq, abt_rate_canonical(rm.floor), abt_rate_canonical(rm.ask));
    SAME_MEMORY(&answer, &no, sizeof no);
    SAME(abt_table_held(table, rm.vpi, rm.vci, &held), r ? ABT_OK : ABT_UNKNOWN_VC);
    SAME(abt_rate_units(held), r ? plain_held(r) : 0);
    SAME(abt_table_total(table, &total), ABT_OK);
    SAME(total, plain_total(port));
    if (!below(seed, 32)) {
        capacity = below(seed, 8 * CAPACITY);
        SAME(abt_table_set_capacity(table, capacity), capacity < total ? ABT_BELOW_SUM : ABT_OK);
        port->capacity = capacity < total ? port->capacity : capacity;
    }
}

/* Each outcome of a message comes about often, and in the end each connection holds what plain C says. */
static void random_calls(int lists, int calls)
{
    static const abt_outcome all[] = {ABT_PASS, ABT_REFUSE, ABT_UNKNOWN_VC, ABT_STALE, ABT_CONFLICT, ABT_FLOOR_ABOVE};
    static abt_table table;
    static struct plain port;
    uint64_t seed = 51;
    for (int list = 0; list < lists; list++) {
        memset(&port, 0, sizeof port);
        port.capacity = 4 * CAPACITY;
        SAME(abt_table_init(&table, port.capacity), ABT_OK);
        fill(&table, &port, &seed);
        for (int made = 0; made < calls; made++)
            random_call(&table, &port, &seed);
        for (int i = 0; i < ABT_TABLE_PLACES; i++) {
            uint16_t held = 7;
            SAME(abt_table_held(&table, port.of[i].vpi, port.of[i].vci, &held), ABT_OK);
            SAME(abt_rate_units(held), plain_held(&port.of[i]));
        }
    }
    for (size_t i = 0; i < sizeof all / sizeof *all; i++)
        SAME(times[all[i]] > 1000, 1);
}

/* A cell comes to what its message comes to, and the cell that goes out says that message, or the no to it. Other octets get what reading them
 * says, and change nothing. */
static void cells(int calls)
{
    static abt_table table, other, before;
    static struct plain port;
    uint64_t seed = 53;
    memset(&port, 0, sizeof port);
    port.capacity = 4 * CAPACITY;
    SAME(abt_table_init(&table, port.capacity), ABT_OK);
    fill(&table, &port, &seed);
    for (int made = 0; made < calls; made++) {
        abt_rm rm = random_message(&seed, &port), answer = rm, read;
        uint8_t cell[ABT_CELL_LENGTH], sent[ABT_CELL_LENGTH], wanted[ABT_CELL_LENGTH];
        SAME(abt_rm_write(&rm, cell, sizeof cell), ABT_OK);
        if (!below(&seed, 4))
            cell[below(&seed, sizeof cell)] ^= (uint8_t)(1u << below(&seed, 8));
        memset(sent, 0xa5, sizeof sent);
        memset(wanted, 0xa5, sizeof wanted);
        other = before = table;
        abt_outcome outcome = abt_rm_read(cell, sizeof cell, &read);
        if (outcome == ABT_OK) {
            struct reserved *r = plain_find(&port, read.vpi, read.vci);
            outcome = call(&other, &read, &answer);
            SAME(plain_call(&port, r, &read), outcome);
            if (outcome == ABT_PASS || outcome == ABT_REFUSE)
                SAME(abt_rm_write(outcome == ABT_PASS ? &read : &answer, wanted, sizeof wanted), ABT_OK);
        }
        times[outcome]++;
        SAME(abt_table_cell(&table, cell, sizeof cell, sent, sizeof sent), outcome);
        SAME_MEMORY(sent, wanted, sizeof sent);
        SAME_MEMORY(&table, &other, sizeof table);
        SAME(abt_table_cell(&other, cell, 51, sent, sizeof sent), ABT_LENGTH);
        SAME(abt_table_cell(&other, cell, sizeof cell, sent, 53), ABT_LENGTH);
        SAME(abt_table_cell(&other, NULL, sizeof cell, sent, sizeof sent), ABT_NULL);
        SAME(abt_table_cell(&other, cell, sizeof cell, NULL, sizeof sent), ABT_NULL);
        SAME(abt_table_cell(NULL, cell, sizeof cell, sent, sizeof sent), ABT_NULL);
        SAME_MEMORY(&table, &other, sizeof table);
        SAME_MEMORY(sent, wanted, sizeof sent);
        memset(&before, 0, 8);
        SAME(abt_table_cell(&before, cell, 51, sent, sizeof sent), ABT_NO_STATE);
    }
    SAME(times[ABT_CRC] > 100, 1);
}

/* Each refused call leaves all as it was. */
static void refused(abt_table *table, const abt_rm *rm, abt_outcome wanted)
{
    static abt_table before;
    abt_rm answer = message(9, 9, 9, 9, 9, 9), answer_before = answer;
    before = *table;
    SAME(call(table, rm, &answer), wanted);
    SAME_MEMORY(table, &before, sizeof before);
    SAME_MEMORY(&answer, &answer_before, sizeof answer);
}

static void nulls(abt_table *table, abt_rm *rm, abt_rm *answer)
{
    uint64_t total;
    uint16_t held;
    SAME(abt_table_init(NULL, 1), ABT_NULL);
    SAME(abt_table_add(NULL, 0, 100), ABT_NULL);
    SAME(abt_table_request(NULL, rm, answer), ABT_NULL);
    SAME(abt_table_request(table, NULL, answer), ABT_NULL);
    SAME(abt_table_request(table, rm, NULL), ABT_NULL);
    SAME(abt_table_answer(NULL, rm), ABT_NULL);
    SAME(abt_table_answer(table, NULL), ABT_NULL);
    SAME(abt_table_set_capacity(NULL, 1), ABT_NULL);
    SAME(abt_table_total(NULL, &total), ABT_NULL);
    SAME(abt_table_total(table, NULL), ABT_NULL);
    SAME(abt_table_held(NULL, 0, 100, &held), ABT_NULL);
    SAME(abt_table_held(table, 0, 100, NULL), ABT_NULL);
}

/* A state of another kind, or one that begins wrongly. */
static void no_state(abt_table *table, const abt_rm *request, const abt_rm *answer)
{
    uint64_t total = 7;
    uint16_t held = 7;
    refused(table, request, ABT_NO_STATE);
    refused(table, answer, ABT_NO_STATE);
    SAME(abt_table_add(table, 0, 200), ABT_NO_STATE);
    SAME(abt_table_set_capacity(table, 1), ABT_NO_STATE);
    SAME(abt_table_total(table, &total), ABT_NO_STATE);
    SAME(abt_table_held(table, 0, 100, &held), ABT_NO_STATE);
    SAME(total, 7);
    SAME(held, 7);
}

static void write_word(abt_table *table, size_t at, uint64_t word, size_t octets)
{
    memcpy((unsigned char *)table + at, &word, octets);
}

static void misuse(void)
{
    static abt_table table, spoiled;
    abt_rm answer, yes = message(ABT_YES, 0, 100, 1, 0, 0x5120), rm = message(ABT_REQUEST, 0, 100, 1, 0, 0x5120);
    uint16_t held = 7;
    memset(&table, 0, sizeof table);
    no_state(&table, &rm, &yes);
    SAME(abt_port_init((abt_port *)(void *)&table, CAPACITY), ABT_OK);
    no_state(&table, &rm, &yes);
    SAME(abt_table_init(&table, ABT_CAPACITY_MAX + 1), ABT_CAPACITY_RANGE);
    no_state(&table, &rm, &yes);
    SAME(abt_table_init(&table, CAPACITY), ABT_OK);
    SAME(abt_table_add(&table, 0, 100), ABT_OK);
    SAME(abt_table_request(&table, &rm, &answer), ABT_PASS);
    nulls(&table, &rm, &answer);
    rm.seq = 0;
    refused(&table, &rm, ABT_SEQ_ZERO);
    rm = message(ABT_NO, 4096, 100, 1, 0, 0x5120);
    refused(&table, &rm, ABT_VPI_RANGE);
    rm = message(ABT_NO, 0, 100, 1, 0x53e8, 0x5120);
    refused(&table, &rm, ABT_RATE_ORDER);
    SAME(abt_table_request(&table, &yes, &answer), ABT_KIND);
    rm = message(ABT_REQUEST, 0, 100, 2, 0, 0x5120);
    SAME(abt_table_answer(&table, &rm), ABT_KIND);
    SAME(abt_table_held(&table, 4096, 100, &held), ABT_VPI_RANGE);
    /* The port's kind, a sum above the capacity, and 1,025 connections. */
    for (size_t at = 8; at <= 32; at += 8) {
        spoiled = table;
        write_word(&spoiled, at, at == 16 ? 1 : at == 32 ? 1025 : UINT64_C(0x7fffffffffffffff), 8);
        no_state(&spoiled, &rm, &yes);
    }
    /* The chain leads past the rows that there are; the row is of another kind; it holds more than the sum. */
    for (int what = 0; what < 3; what++) {
        spoiled = table;
        write_word(&spoiled, what == 0 ? 40 + 2 * (UINT32_C(100) * UINT32_C(2654435769) >> 22) : what == 1 ? 4136 : 24, what == 0 ? 1023 : 1, what == 0 ? 2 : 8);
        refused(&spoiled, &rm, ABT_DAMAGED);
        refused(&spoiled, &yes, ABT_DAMAGED);
    }
}

/* Whatever the table's memory is, each call answers, and a request that isn't carried out changes nothing. */
static void damaged(int tables)
{
    static abt_table table;
    uint64_t seed = 52;
    for (int turn = 0; turn < tables; turn++) {
        SAME(abt_table_init(&table, CAPACITY), ABT_OK);
        for (size_t at = 40; at < sizeof table; at += 8)
            write_word(&table, at, draw(&seed) & (turn % 2 ? ~UINT64_C(0) : UINT64_C(0x03ff03ff03ff03ff)), 8);
        write_word(&table, 32, below(&seed, 1025), 8);
        for (int made = 0; made < 64; made++) {
            abt_rm answer, rm = message(ABT_REQUEST, (uint16_t)below(&seed, 1024), (uint16_t)below(&seed, 1024), 1 + (uint32_t)below(&seed, 9), 0, 0x5120);
            uint16_t held;
            times[abt_table_request(&table, &rm, &answer)]++;
            times[abt_table_held(&table, rm.vpi, rm.vci, &held)]++;
            times[abt_table_add(&table, rm.vpi, rm.vci)]++;
        }
    }
    SAME(times[ABT_DAMAGED] > 1000, 1);
}

int main(void)
{
    worked();
    random_calls(30, 10000);
    cells(5000);
    misuse();
    damaged(500);
    return 0;
}
