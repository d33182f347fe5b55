/* A port: worked rows of requests, answers and capacities, and random calls against plain C. */
#include "check.h"

/* A link of 1000 cells per second, in units. 5120, 5258 and 53e8 are 400, 600 and 1000 cells per second. */
#define CAPACITY 512000

static abt_rm message(uint32_t kind, uint16_t vci, uint32_t seq, uint16_t floor, uint16_t ask)
{
    abt_rm rm = {kind, seq, 0, vci, floor, ask};
    return rm;
}

/* A call for one of two connections, and how all stands after it. */
struct row {
    uint32_t kind;
    uint16_t vci;
    uint32_t seq;
    uint16_t floor, ask;
    abt_outcome outcome;
    uint16_t held;
    uint64_t total;
};

static abt_outcome call(abt_port *port, abt_connection *connection, const abt_rm *rm, abt_rm *answer, int is_request)
{
    return is_request ? abt_port_request(port, connection, rm, answer) : abt_port_answer(port, connection, rm);
}

static void meet(abt_port *port, abt_connection *connection, const struct row *row)
{
    abt_rm rm = message(row->kind, row->vci, row->seq, row->floor, row->ask), answer = message(9, 9, 9, 9, 9);
    abt_rm wanted = row->outcome == ABT_REFUSE ? message(ABT_NO, row->vci, row->seq, row->floor, row->ask) : answer;
    uint16_t held = 7;
    uint64_t total = 7;
    SAME(call(port, connection, &rm, &answer, row->kind == ABT_REQUEST), row->outcome);
    SAME_MEMORY(&answer, &wanted, sizeof answer);
    SAME(abt_connection_held(connection, &held), ABT_OK);
    SAME(held, row->held);
    SAME(abt_port_total(port, &total), ABT_OK);
    SAME(total, row->total);
}

static void worked(void)
{
    const struct row rows[] = {
        {ABT_REQUEST, 100, 1, 0, 0x5120, ABT_PASS, 0x5120, 204800},
        {ABT_REQUEST, 100, 1, 0, 0x5120, ABT_PASS, 0x5120, 204800},
        {ABT_REQUEST, 100, 1, 0, 0x5258, ABT_CONFLICT, 0x5120, 204800},
        {ABT_REQUEST, 100, 1, 0x5120, 0x5120, ABT_CONFLICT, 0x5120, 204800},
        {ABT_REQUEST, 100, 2, 0x5120, 0x53e8, ABT_PASS, 0x53e8, 512000},
        {ABT_REQUEST, 101, 1, 0, 0x5258, ABT_REFUSE, 0, 512000},
        {ABT_NO, 100, 2, 0x5120, 0x53e8, ABT_PASS, 0x5120, 204800},
        {ABT_NO, 100, 2, 0x5120, 0x53e8, ABT_PASS, 0x5120, 204800},
        {ABT_YES, 100, 2, 0x5120, 0x53e8, ABT_CONFLICT, 0x5120, 204800},
        /* A repeat stays refused, though it would fit now. */
        {ABT_REQUEST, 100, 2, 0x5120, 0x53e8, ABT_REFUSE, 0x5120, 204800},
        {ABT_REQUEST, 101, 1, 0, 0x5258, ABT_REFUSE, 0, 204800},
        {ABT_REQUEST, 101, 2, 0, 0x5258, ABT_PASS, 0x5258, 512000},
        {ABT_YES, 101, 2, 0, 0x5258, ABT_PASS, 0x5258, 512000},
        {ABT_YES, 101, 3, 0, 0x5258, ABT_CONFLICT, 0x5258, 512000},
        {ABT_NO, 101, 1, 0, 0x5258, ABT_STALE, 0x5258, 512000},
        {ABT_REQUEST, 101, 1, 0, 0x5258, ABT_STALE, 0x5258, 512000},
        {ABT_REQUEST, 100, 3, 0x53e8, 0x53e8, ABT_FLOOR_ABOVE, 0x5120, 512000},
        {ABT_REQUEST, 101, 3, 0x5120, 0x5258, ABT_PASS, 0x5258, 512000},
        {ABT_REQUEST, 100, 3, 0x5120, 0x5258, ABT_REFUSE, 0x5120, 512000},
        {ABT_REQUEST, 101, 4, 0, 0, ABT_PASS, 0, 204800},
    };
    abt_port port;
    abt_connection connections[2];
    SAME(abt_port_init(&port, CAPACITY), ABT_OK);
    SAME(abt_connection_init(&connections[0], 0, 100), ABT_OK);
    SAME(abt_connection_init(&connections[1], 0, 101), ABT_OK);
    for (size_t i = 0; i < sizeof rows / sizeof *rows; i++)
        meet(&port, &connections[rows[i].vci - 100], &rows[i]);
}

/* A link shrinks to what is held on it and no further. */
static void shrinks(void)
{
    const struct row first = {ABT_REQUEST, 100, 1, 0, 0x5258, ABT_PASS, 0x5258, 307200};
    const struct row rise = {ABT_REQUEST, 100, 2, 0, 0x53e8, ABT_REFUSE, 0, 0};
    abt_port port, before;
    abt_connection connection;
    SAME(abt_port_init(&port, CAPACITY), ABT_OK);
    SAME(abt_connection_init(&connection, 0, 100), ABT_OK);
    meet(&port, &connection, &first);
    before = port;
    SAME(abt_port_set_capacity(&port, 307199), ABT_BELOW_SUM);
    SAME_MEMORY(&port, &before, sizeof port);
    SAME(abt_port_set_capacity(&port, 307200), ABT_OK);
    meet(&port, &connection, &rise);
    SAME(abt_port_set_capacity(&port, ABT_CAPACITY_MAX), ABT_OK);
    SAME(abt_port_set_capacity(&port, ABT_CAPACITY_MAX + 1), ABT_CAPACITY_RANGE);
    SAME(abt_port_set_capacity(&port, 0), ABT_OK);
}

/* The port in plain C: it adds up what all connections hold each time. */
#define CONNECTIONS 6

struct plain {
    uint64_t capacity;
    struct reserved {
        uint32_t newest;
        int open;
        uint64_t floor, ask;
    } of[CONNECTIONS];
};

static uint64_t plain_held(const struct reserved *r)
{
    return r->open ? r->ask : r->floor;
}

static uint64_t plain_total(const struct plain *port)
{
    uint64_t total = 0;
    for (int i = 0; i < CONNECTIONS; i++)
        total += plain_held(&port->of[i]);
    return total;
}

static abt_outcome plain_request(struct plain *port, struct reserved *r, const abt_rm *rm)
{
    uint64_t floor = abt_rate_units(rm->floor), ask = abt_rate_units(rm->ask);
    if (rm->seq < r->newest)
        return ABT_STALE;
    if (rm->seq == r->newest)
        return floor != r->floor || ask != r->ask ? ABT_CONFLICT : r->open ? ABT_PASS : ABT_REFUSE;
    if (floor > plain_held(r))
        return ABT_FLOOR_ABOVE;
    r->open = plain_total(port) - plain_held(r) + ask <= port->capacity;
    r->newest = rm->seq;
    r->floor = floor;
    r->ask = ask;
    return r->open ? ABT_PASS : ABT_REFUSE;
}

static abt_outcome plain_answer(struct reserved *r, const abt_rm *rm)
{
    if (rm->seq < r->newest)
        return ABT_STALE;
    if (rm->seq > r->newest || abt_rate_units(rm->floor) != r->floor || abt_rate_units(rm->ask) != r->ask)
        return ABT_CONFLICT;
    if (rm->kind == ABT_YES)
        return r->open ? ABT_PASS : ABT_CONFLICT;
    r->open = 0;
    return ABT_PASS;
}

/* A message for a connection: the last one of it again, as a request or an answer, or one with a number about the newest. Rates are few,
 * also with the reserved bit set and zero without the nonzero bit. */
static abt_rm random_message(uint64_t *seed, uint16_t vci, uint32_t newest, const abt_rm *last)
{
    static const uint16_t codes[] = {0, 0x0123, 0x4e40, 0x5120, 0xd120, 0x5258, 0x5320, 0x53e8};
    abt_rm rm = *last;
    if (below(seed, 3)) {
        uint16_t a = codes[below(seed, 8)], b = codes[below(seed, 8)];
        int ordered = abt_rate_units(a) <= abt_rate_units(b);
        rm = message(ABT_REQUEST, vci, newest + (uint32_t)below(seed, 4), ordered ? a : b, ordered ? b : a);
        rm.seq -= rm.seq > 1 && !below(seed, 4);
        rm.seq += !rm.seq;
    }
    rm.kind = below(seed, 2) ? ABT_REQUEST : below(seed, 2) ? ABT_YES : ABT_NO;
    return rm;
}

/* Both ports, their connections and the last request of each. */
struct both {
    struct plain plain;
    abt_port port;
    abt_connection connections[CONNECTIONS];
    abt_rm last[CONNECTIONS];
};

static void begin(struct both *both)
{
    memset(both, 0, sizeof *both);
    both->plain.capacity = 2 * CAPACITY;
    SAME(abt_port_init(&both->port, both->plain.capacity), ABT_OK);
    for (uint16_t i = 0; i < CONNECTIONS; i++) {
        SAME(abt_connection_init(&both->connections[i], 0, (uint16_t)(100 + i)), ABT_OK);
        both->last[i] = message(ABT_REQUEST, (uint16_t)(100 + i), 1, 0, 0);
    }
}

/* One message, and what it came to. */
static abt_outcome random_call(struct both *both, uint64_t *seed)
{
    uint16_t i = (uint16_t)below(seed, CONNECTIONS), held = 7;
    struct reserved *r = &both->plain.of[i];
    abt_rm rm = random_message(seed, (uint16_t)(100 + i), r->newest, &both->last[i]);
    abt_rm answer = message(9, 9, 9, 9, 9), no = answer;
    int is_request = rm.kind == ABT_REQUEST;
    abt_outcome wanted = is_request ? plain_request(&both->plain, r, &rm) : plain_answer(r, &rm);
    uint64_t total = 7;
    SAME(call(&both->port, &both->connections[i], &rm, &answer, is_request), wanted);
    if (wanted == ABT_REFUSE)
        no = message(ABT_NO, rm.vci, rm.seq, abt_rate_canonical(rm.floor), abt_rate_canonical(rm.ask));
    SAME_MEMORY(&answer, &no, sizeof no);
    SAME(abt_connection_held(&both->connections[i], &held), ABT_OK);
    SAME(abt_rate_units(held), plain_held(r));
    SAME(held, abt_rate_canonical(held));
    SAME(abt_port_total(&both->port, &total), ABT_OK);
    SAME(total, plain_total(&both->plain));
    if (is_request)
        both->last[i] = rm;
    return wanted;
}

static abt_outcome random_capacity(struct both *both, uint64_t *seed)
{
    uint64_t capacity = below(seed, 4 * CAPACITY);
    abt_outcome wanted = capacity < plain_total(&both->plain) ? ABT_BELOW_SUM : ABT_OK;
    SAME(abt_port_set_capacity(&both->port, capacity), wanted);
    if (wanted == ABT_OK)
        both->plain.capacity = capacity;
    return wanted;
}

/* Each outcome of a message comes about often, and so does each of a capacity. */
static void random_calls(long calls)
{
    static const abt_outcome all[] = {ABT_PASS, ABT_REFUSE, ABT_STALE, ABT_CONFLICT, ABT_FLOOR_ABOVE, ABT_OK, ABT_BELOW_SUM};
    static long times[ABT_CAPACITY_RANGE + 1];
    uint64_t seed = 50;
    struct both both;
    for (long made = 0; made < calls; made++) {
        if (made % 1000 == 0)
            begin(&both);
        times[random_call(&both, &seed)]++;
        if (!below(&seed, 16))
            times[random_capacity(&both, &seed)]++;
    }
    for (size_t i = 0; i < sizeof all / sizeof *all; i++)
        SAME(times[all[i]] > 1000, 1);
}

/* Each refused call leaves all as it was. */
static void refused(abt_port *port, abt_connection *connection, const abt_rm *rm, int is_request, abt_outcome wanted)
{
    abt_port port_before = *port;
    abt_connection before = *connection;
    abt_rm answer = message(9, 9, 9, 9, 9), answer_before = answer;
    SAME(call(port, connection, rm, &answer, is_request), wanted);
    SAME_MEMORY(port, &port_before, sizeof *port);
    SAME_MEMORY(connection, &before, sizeof before);
    SAME_MEMORY(&answer, &answer_before, sizeof answer);
}

static void nulls(abt_port *port, abt_connection *connection, abt_rm *rm, abt_rm *answer)
{
    uint64_t total;
    uint16_t held;
    SAME(abt_port_init(NULL, 1), ABT_NULL);
    SAME(abt_connection_init(NULL, 0, 100), ABT_NULL);
    SAME(abt_port_request(NULL, connection, rm, answer), ABT_NULL);
    SAME(abt_port_request(port, NULL, rm, answer), ABT_NULL);
    SAME(abt_port_request(port, connection, NULL, answer), ABT_NULL);
    SAME(abt_port_request(port, connection, rm, NULL), ABT_NULL);
    SAME(abt_port_answer(NULL, connection, rm), ABT_NULL);
    SAME(abt_port_answer(port, NULL, rm), ABT_NULL);
    SAME(abt_port_answer(port, connection, NULL), ABT_NULL);
    SAME(abt_port_set_capacity(NULL, 1), ABT_NULL);
    SAME(abt_port_total(NULL, &total), ABT_NULL);
    SAME(abt_port_total(port, NULL), ABT_NULL);
    SAME(abt_connection_held(NULL, &held), ABT_NULL);
    SAME(abt_connection_held(connection, NULL), ABT_NULL);
}

/* States of another kind, and such whose octets were changed. */
static void other_states(abt_port *port, abt_connection *connection, const abt_rm *rm)
{
    abt_port empty, spoiled = *port;
    abt_connection other;
    abt_shaper shaper;
    uint64_t total = 7, word;
    uint16_t held = 7;
    SAME(abt_shaper_init(&shaper, 0), ABT_OK);
    refused((abt_port *)(void *)&shaper, connection, rm, 1, ABT_NO_STATE);
    refused(port, (abt_connection *)(void *)&shaper, rm, 1, ABT_NO_STATE);
    refused(port, (abt_connection *)(void *)&spoiled, rm, 0, ABT_NO_STATE);
    SAME(abt_port_total((abt_port *)(void *)connection, &total), ABT_NO_STATE);
    SAME(abt_connection_held((abt_connection *)(void *)port, &held), ABT_NO_STATE);
    SAME(abt_port_set_capacity((abt_port *)(void *)connection, 1), ABT_NO_STATE);
    /* It holds more than the sum of a port that holds nothing. */
    SAME(abt_port_init(&empty, CAPACITY), ABT_OK);
    refused(&empty, connection, rm, 1, ABT_NO_STATE);
    refused(&empty, connection, rm, 0, ABT_NO_STATE);
    for (int at = 0; at < 3; at++) {
        /* A kind of other letters, a capacity below the sum, a sum above the capacity. */
        spoiled = *port;
        word = at == 1 ? 1 : UINT64_C(0x7fffffffffffffff);
        memcpy((unsigned char *)&spoiled + 8 * at, &word, 8);
        refused(&spoiled, connection, rm, 1, ABT_NO_STATE);
        SAME(abt_port_total(&spoiled, &total), ABT_NO_STATE);
        SAME(abt_port_set_capacity(&spoiled, 1), ABT_NO_STATE);
    }
    memset(&other, 0, sizeof other);
    refused(port, &other, rm, 0, ABT_NO_STATE);
    SAME(abt_connection_held(&other, &held), ABT_NO_STATE);
    SAME(total, 7);
    SAME(held, 7);
}

static void misuse(void)
{
    const struct row row = {ABT_REQUEST, 100, 1, 0, 0x5120, ABT_PASS, 0x5120, 204800};
    abt_port port, port_before;
    abt_connection connection, before;
    abt_rm answer, rm = message(ABT_REQUEST, 100, 2, 0, 0x5120);
    SAME(abt_port_init(&port, CAPACITY), ABT_OK);
    SAME(abt_connection_init(&connection, 0, 100), ABT_OK);
    meet(&port, &connection, &row);
    port_before = port;
    before = connection;
    nulls(&port, &connection, &rm, &answer);
    SAME(abt_port_init(&port, ABT_CAPACITY_MAX + 1), ABT_CAPACITY_RANGE);
    SAME(abt_connection_init(&connection, 4096, 100), ABT_VPI_RANGE);
    SAME_MEMORY(&port, &port_before, sizeof port);
    SAME_MEMORY(&connection, &before, sizeof before);
    other_states(&port, &connection, &rm);
    refused(&port, &connection, &rm, 0, ABT_KIND);
    for (uint32_t kind = ABT_REQUEST; kind <= ABT_NO; kind++) {
        int is_request = kind == ABT_REQUEST;
        rm = message(kind, 101, 2, 0, 0x5120);
        refused(&port, &connection, &rm, is_request, ABT_UNKNOWN_VC);
        refused(&port, &connection, &rm, !is_request, ABT_KIND);
        rm = message(kind, 100, 2, 0x53e8, 0x5120);
        refused(&port, &connection, &rm, is_request, ABT_RATE_ORDER);
        rm.seq = 0;
        refused(&port, &connection, &rm, is_request, ABT_SEQ_ZERO);
        rm.vpi = 4096;
        refused(&port, &connection, &rm, is_request, ABT_VPI_RANGE);
        rm.kind = 4;
        refused(&port, &connection, &rm, is_request, ABT_KIND);
    }
    SAME(abt_port_init(&port, ABT_CAPACITY_MAX), ABT_OK);
    SAME(abt_connection_init(&connection, 4095, 65535), ABT_OK);
}

int main(void)
{
    worked();
    shrinks();
    random_calls(1000000);
    misuse();
    return 0;
}
