/*
 * abt.h: proved parts for ATM block transfer: cell rates, RM cells and their check, the generic cell rate algorithm (GCRA), a policer, a
 * shaper, a source, a port, and a port with a table of its connections. Link with libabt.a and nothing else.
 *
 * What the calls share
 *
 * - Moments and durations are picoseconds. Rates are codes of 16 bits, as RM cells carry them, or units of 1/512 cell per second.
 * - The program keeps each state in memory of its own. A state begins by its `_init` call. It is plain memory without pointers: it may be
 *   copied, stored and moved. What is in it is no part of this interface.
 * - A call answers an outcome. Below ABT_FAULTS the call was carried out; from there on it was refused, and then nothing that the program
 *   handed in has changed, unless the call says otherwise. Where several faults apply, the first in the order of the call's list is answered.
 * - A length is just the number of octets that its call names: any other, also a greater one, is ABT_LENGTH.
 * - Compare an outcome, don't test it: ABT_TOO_EARLY and each fault are true, too. `if (abt_policer_arrive(..) == ABT_CONFORMING)` forwards
 *   what may be forwarded, and nothing else. An outcome that matters isn't to be left alone: compilers warn of that (ABT_MUST_USE).
 * - Nothing is allocated, nothing printed, and no state is shared: calls on different states may run at once.
 *
 * What is undefined: a pointer that is neither NULL nor one to memory of the named type and size, which is aligned for the type; memory that
 * overlaps that of another argument of the same call; and a state that another thread uses during the call. Nothing else is: each number, each
 * code, each content of a state and each octet has its answer.
 */
#ifndef ABT_H
#define ABT_H

#include <stddef.h>
#include <stdint.h>

#ifdef __cplusplus
extern "C" {
#endif

/* ---- version ---- */

/* The version of this header, and that of the library that is linked. */
#define ABT_VERSION "0.1.0"
const char *abt_version(void);

/* ---- outcomes and faults ---- */

typedef uint32_t abt_outcome;

/* On each call whose outcome says what is to be done, or whether anything is: a compiler warns where it is left alone. A program that defines
 * it as nothing isn't warned. */
#ifndef ABT_MUST_USE
#if defined(__GNUC__) || defined(__clang__)
#define ABT_MUST_USE __attribute__((warn_unused_result))
#else
#define ABT_MUST_USE
#endif
#endif

enum {
    /* carried out */
    ABT_OK = 0,
    ABT_CONFORMING = 1, /* the cell keeps every window with the cells that were taken before it, and is taken */
    ABT_TOO_EARLY = 2,  /* the cell comes too early, and isn't taken */
    ABT_NO_RATE = 3,    /* no rate is held, so the cell isn't taken */

    ABT_WRITE_FIRST = 8, /* the program has to write these octets first */
    ABT_ASKED = 9,       /* the request goes out */
    ABT_RAISED = 10,     /* it was a yes to the newest request: the source shapes at the asked rate */
    ABT_REFUSED = 11,    /* it was a no to the newest request: the source stays at the floor */
    ABT_IGNORED = 12,    /* it was the answer to something else */

    ABT_PASS = 16,        /* the port passes the message on */
    ABT_REFUSE = 17,      /* the port refuses the request: it goes no further, and its no goes back */
    ABT_UNKNOWN_VC = 18,  /* the port drops the message: it is another connection's, or of none in the table */
    ABT_STALE = 19,       /* the port drops the message: its number is below the newest */
    ABT_CONFLICT = 20,    /* the port drops the message: it isn't what the port decided under its number */
    ABT_FLOOR_ABOVE = 21, /* the port drops the request: its floor is above what is held */

    /* refused */
    ABT_FAULTS = 32,
    ABT_NULL = 32,          /* a pointer is NULL */
    ABT_NO_STATE = 33,      /* the state isn't one of this kind */
    ABT_LENGTH = 34,        /* there is another number of octets */
    ABT_TAU_RANGE = 35,     /* the tolerance is above ABT_TAU_MAX */
    ABT_SPACING_RANGE = 36, /* the spacing is 0 or above ABT_SPACING_MAX */
    ABT_UNITS_RANGE = 37,   /* no rate is as great */
    ABT_CLOCK_BACK = 38,    /* the moment is before the last one */
    ABT_TIME_RANGE = 39,    /* the moment is above its limit */
    ABT_ZERO = 40,          /* there is no rate to leave at */
    ABT_TOO_SOON = 41,      /* the line is taken up until a later moment */
    ABT_NOT_RM = 48,        /* not an RM cell of a virtual channel */
    ABT_CRC = 49,           /* the check is wrong */
    ABT_PROTOCOL = 50,      /* the protocol identifier isn't that of ATM block transfer */
    ABT_MAINTENANCE = 51,   /* the maintenance bit is set */
    ABT_ELASTIC = 52,       /* elastic mode */
    ABT_DIRECTION = 53,     /* a request goes backward, or an answer forward */
    ABT_SEQ_ZERO = 54,      /* the sequence number is 0 */
    ABT_RATE_ORDER = 55,    /* the asked rate is below the floor */
    ABT_KIND = 56,          /* the record is neither a request nor an answer, or not the one that is wanted */
    ABT_VPI_RANGE = 57,     /* the VPI has more than 12 bits */
    ABT_DOWN = 64,          /* the source isn't started */
    ABT_RUNNING = 65,       /* the source is started */
    ABT_WRITING = 66,       /* the program hasn't said yet what became of a write */
    ABT_NOT_WRITING = 67,   /* no write is to be made */
    ABT_NOT_ASKING = 68,    /* the source waits for no answer */
    ABT_SEQ_EXHAUSTED = 69, /* no sequence number is left */
    ABT_NOT_KEPT = 70,      /* the record wasn't kept, so the source doesn't ask */
    ABT_RECORD_SPACING = 71, /* no rate has the spacing of the record */
    ABT_BELOW_SUM = 72,      /* the capacity is below the sum of what is held */
    ABT_CAPACITY_RANGE = 73, /* the capacity is above ABT_CAPACITY_MAX */
    ABT_KNOWN = 74,          /* the connection is in the table already */
    ABT_FULL = 75,           /* the table has ABT_TABLE_PLACES connections */
    ABT_DAMAGED = 76,        /* the table isn't in order: its memory was written by something else */
    ABT_HELD = 77,           /* the connection holds a rate */
    ABT_NOT_INGRESS = 78     /* the connection's cells aren't policed here */
};

/* ---- units ---- */

/* Units in one cell per second, and picoseconds in a second: 400 cells per second are 400 * ABT_UNITS_PER_CELL_PER_SECOND units. */
#define ABT_UNITS_PER_CELL_PER_SECOND UINT64_C(512)
#define ABT_PICOSECONDS_PER_SECOND UINT64_C(1000000000000)

/* ---- limits ---- */

#define ABT_TAU_MAX UINT64_C(1000000000000)             /* the greatest tolerance */
#define ABT_SPACING_MAX UINT64_C(1000000000000)         /* the greatest spacing */
#define ABT_ARRIVE_MAX UINT64_C(4611686018427387904)    /* the greatest moment of an arrival, 2^62 */
#define ABT_EMIT_MAX UINT64_C(2305843009213693952)      /* the greatest moment of an emission, 2^61 */
#define ABT_UNITS_MAX UINT64_C(2196875771904)           /* the greatest rate */
#define ABT_CAPACITY_MAX UINT64_C(1152921504606846976)  /* the greatest capacity of a link, 2^60 units */

/* ---- rates ---- */

/* The rate of a code, in units. Each code has one; the reserved bit is ignored, and without the nonzero bit the rate is 0. */
uint64_t abt_rate_units(uint16_t code);

/* The one code of the rate of a code that is written: with the reserved bit 0, and 0 for the rate 0. */
uint16_t abt_rate_canonical(uint16_t code);

/* The least whole number of picoseconds between two cells that keeps the rate of a code; 0 for the rate 0, which no spacing keeps. */
uint64_t abt_rate_spacing(uint16_t code);

/* The canonical code of the greatest rate that isn't above so many units. */
uint16_t abt_rate_at_most(uint64_t units);

/* Gives the canonical code of the least rate that isn't below so many units.
 * Answers ABT_OK, or ABT_NULL, ABT_UNITS_RANGE. */
ABT_MUST_USE static inline abt_outcome abt_rate_at_least(uint64_t units, uint16_t *code);

/* ---- RM cells ---- */

/* Octets of a cell without its HEC octet, and of its payload. */
#define ABT_CELL_LENGTH 52
#define ABT_PAYLOAD_LENGTH 48

enum { ABT_REQUEST = 1, ABT_YES = 2, ABT_NO = 3 };

/* A request, or an answer to one, which repeats it. */
typedef struct abt_rm {
    uint32_t kind;  /* ABT_REQUEST, ABT_YES, ABT_NO */
    uint32_t seq;   /* the sequence number, from 1 */
    uint16_t vpi;   /* up to 4095 */
    uint16_t vci;
    uint16_t floor; /* the rate that the source keeps meanwhile, a code */
    uint16_t ask;   /* the rate that is asked for, a code */
} abt_rm;

/* The CRC-10 of a payload, of ABT_PAYLOAD_LENGTH octets: of its first 374 bits. The last ten bits aren't read.
 * Answers ABT_OK, or ABT_NULL, ABT_LENGTH. */
ABT_MUST_USE static inline abt_outcome abt_crc10(const uint8_t *payload, size_t length, uint16_t *check);

/* Reads an RM cell, of ABT_CELL_LENGTH octets. Rate codes come out canonical.
 * Answers ABT_OK, or ABT_NULL, ABT_LENGTH, ABT_NOT_RM, ABT_CRC, ABT_PROTOCOL, ABT_MAINTENANCE, ABT_ELASTIC, ABT_DIRECTION, ABT_SEQ_ZERO,
 * ABT_RATE_ORDER. */
ABT_MUST_USE static inline abt_outcome abt_rm_read(const uint8_t *cell, size_t length, abt_rm *rm);

/* Writes the one cell of a request or an answer, of ABT_CELL_LENGTH octets: length is just that, and a greater one is ABT_LENGTH, too. Rate
 * codes are written canonically. After a fault the octets are as they were.
 * Answers ABT_OK, or ABT_NULL, ABT_LENGTH, ABT_KIND, ABT_VPI_RANGE, ABT_SEQ_ZERO, ABT_RATE_ORDER. */
ABT_MUST_USE static inline abt_outcome abt_rm_write(const abt_rm *rm, uint8_t *cell, size_t length);

/* Gives the yes to a request, which goes back from the end of its path: to be called of a request that the last port passed. That port takes
 * the yes first (abt_table_answer, abt_port_answer), and what it passes goes back. Yes and rm may not be the same memory.
 * Answers ABT_OK, or ABT_NULL, ABT_KIND (no request), ABT_VPI_RANGE, ABT_SEQ_ZERO, ABT_RATE_ORDER. */
ABT_MUST_USE static inline abt_outcome abt_rm_turn(const abt_rm *rm, abt_rm *yes);

/* ---- the generic cell rate algorithm (I.371) ---- */

typedef struct abt_gcra { uint64_t private_[4]; } abt_gcra;
typedef struct abt_bucket { uint64_t private_[6]; } abt_bucket;

/* Makes a state that of an algorithm of a tolerance that has met no cell, whatever it was before: by virtual scheduling, or as a leaky
 * bucket. Both give the same verdicts.
 * Answers ABT_OK, or ABT_NULL, ABT_TAU_RANGE. */
static inline abt_outcome abt_gcra_init(abt_gcra *gcra, uint64_t tau);
static inline abt_outcome abt_bucket_init(abt_bucket *bucket, uint64_t tau);

/* The verdict on a cell that arrives at a moment, with the spacing from it to the next one.
 * Answers ABT_CONFORMING, ABT_TOO_EARLY, or ABT_NULL, ABT_NO_STATE, ABT_SPACING_RANGE, ABT_CLOCK_BACK, ABT_TIME_RANGE. */
ABT_MUST_USE static inline abt_outcome abt_gcra_check(abt_gcra *gcra, uint64_t at, uint64_t spacing);
ABT_MUST_USE static inline abt_outcome abt_bucket_check(abt_bucket *bucket, uint64_t at, uint64_t spacing);

/* ---- the policer, which follows a rate as it changes ---- */

typedef struct abt_policer { uint64_t private_[4]; } abt_policer;

/* Makes a state that of a policer of a tolerance that has met no cell, whatever it was before.
 * Answers ABT_OK, or ABT_NULL, ABT_TAU_RANGE. */
static inline abt_outcome abt_policer_init(abt_policer *policer, uint64_t tau);

/* The verdict on a cell that arrives at a moment, where a rate of this code is held.
 * Answers ABT_CONFORMING, ABT_TOO_EARLY, ABT_NO_RATE, or ABT_NULL, ABT_NO_STATE, ABT_CLOCK_BACK, ABT_TIME_RANGE. */
ABT_MUST_USE static inline abt_outcome abt_policer_arrive(abt_policer *policer, uint64_t at, uint16_t held);

/* The same for a burst of cells of one connection, at so many moments: just what as many calls of abt_policer_arrive do, in this order. Each
 * verdict, ABT_CONFORMING, ABT_TOO_EARLY or ABT_NO_RATE, goes to the place of its cell. The first cell for which a single call is refused ends
 * the burst with that fault: judged is its place, the cells before it have their verdicts, and the policer is as after these. Otherwise judged
 * is the count. It is 0 after ABT_NO_STATE. Policer, at, verdicts and judged have to be different memory.
 * Answers ABT_OK, or ABT_NULL, ABT_NO_STATE, ABT_CLOCK_BACK, ABT_TIME_RANGE. */
ABT_MUST_USE static inline abt_outcome abt_policer_arrive_burst(abt_policer *policer, uint16_t held, const uint64_t *at, uint8_t *verdicts, size_t count,
                                                   size_t *judged);

/* ---- the shaper ---- */

typedef struct abt_shaper { uint64_t private_[4]; } abt_shaper;

/* Makes a state that of a shaper that lets no cell leave before a moment, whatever it was before.
 * Answers ABT_OK, or ABT_NULL, ABT_TIME_RANGE. */
static inline abt_outcome abt_shaper_init(abt_shaper *shaper, uint64_t not_before);

/* Lets a cell leave now, at a rate of this code, and gives the earliest moment of the next cell, also after ABT_TOO_SOON.
 * Answers ABT_OK, or ABT_NULL, ABT_NO_STATE, ABT_CLOCK_BACK, ABT_TIME_RANGE, ABT_ZERO, ABT_TOO_SOON. */
ABT_MUST_USE static inline abt_outcome abt_shaper_emit(abt_shaper *shaper, uint64_t now, uint16_t rate, uint64_t *next);

/* Gives the earliest moment at which the next cell may leave.
 * Answers ABT_OK, or ABT_NULL, ABT_NO_STATE. */
static inline abt_outcome abt_shaper_next(const abt_shaper *shaper, uint64_t *next);

/* ---- a source ----
 *
 * It asks for rates by requests, shapes its cells by what it was granted, and keeps a record of twelve octets in a store of the program, so
 * that it takes up its numbers after a crash. The library never calls the program: it says which octets to write, the program writes them
 * and comes back with what became of it. */

typedef struct abt_source { uint64_t private_[9]; } abt_source;

/* Octets of a record. Four octets, a number alone, are read too; four zeros are the store of a source that was never started. */
#define ABT_RECORD_LENGTH 12

#define ABT_START_MAX UINT64_C(2305842009213693952)     /* the greatest moment of a start */

/* What became of a write: it was made; it failed, and nothing was written; it failed after all was written. */
enum { ABT_WRITTEN = 1, ABT_FAILED_BEFORE = 2, ABT_FAILED_AFTER = 3 };

/* Makes a state that of the source of a connection to which nothing has happened, whatever it was before. It is down.
 * Answers ABT_OK, or ABT_NULL, ABT_VPI_RANGE. */
static inline abt_outcome abt_source_init(abt_source *source, uint16_t vpi, uint16_t vci);

/* Starts now, from the record that the program read from its store: length is ABT_RECORD_LENGTH, or 4 of a number alone. The rate is 0, and no
 * cell leaves during the record's spacing.
 * Answers ABT_OK, or ABT_NULL, ABT_NO_STATE, ABT_RUNNING, ABT_LENGTH, ABT_RECORD_SPACING, ABT_TIME_RANGE. */
ABT_MUST_USE static inline abt_outcome abt_source_start(abt_source *source, const uint8_t *record, size_t length, uint64_t now);

/* Asks for a rate. Length is that of record, ABT_RECORD_LENGTH: any other, also a greater one, is ABT_LENGTH. After ABT_ASKED the request is
 * in rm, and goes out; record is as it was. After ABT_WRITE_FIRST the program has to write the twelve octets of record to its store, and to
 * call abt_source_wrote, which gives the request: until then the source neither asks nor emits nor hears, and rm is as it was. After
 * ABT_SEQ_EXHAUSTED the source emits and hears as before, but the number 2^32 - 1 is used up, so it never asks again.
 * Answers ABT_ASKED, ABT_WRITE_FIRST, or ABT_NULL, ABT_LENGTH, ABT_NO_STATE, ABT_DOWN, ABT_WRITING, ABT_SEQ_EXHAUSTED. */
ABT_MUST_USE static inline abt_outcome abt_source_ask(abt_source *source, uint16_t rate, uint8_t *record, size_t length, abt_rm *rm);

/* Takes what became of the write. After ABT_ASKED the request is in rm, and goes out; after any other outcome rm is as it was. After
 * ABT_NOT_KEPT the source is as it was before the ask; after ABT_KIND one that waits for what became of a write still does.
 * ABT_SEQ_EXHAUSTED comes only of a state that something else has written, as abt_source_ask says it before there is a write. The source is
 * as it was then, and still waits: ABT_FAILED_BEFORE, ABT_FAILED_AFTER or abt_source_crash ends that.
 * Answers ABT_ASKED, or ABT_NULL, ABT_NO_STATE, ABT_KIND (neither of the three), ABT_NOT_WRITING, ABT_NOT_KEPT, ABT_SEQ_EXHAUSTED. */
ABT_MUST_USE static inline abt_outcome abt_source_wrote(abt_source *source, uint32_t became, abt_rm *rm);

/* Gives the newest request, to be sent again.
 * Answers ABT_OK, or ABT_NULL, ABT_NO_STATE, ABT_NOT_ASKING. */
ABT_MUST_USE static inline abt_outcome abt_source_again(const abt_source *source, abt_rm *rm);

/* Takes an answer. It counts only if connection, number, floor and asked rate are those of the newest request.
 * Answers ABT_RAISED, ABT_REFUSED, ABT_IGNORED, or ABT_NULL, ABT_NO_STATE, ABT_KIND, ABT_VPI_RANGE, ABT_SEQ_ZERO, ABT_RATE_ORDER,
 * ABT_WRITING. */
ABT_MUST_USE static inline abt_outcome abt_source_answer(abt_source *source, const abt_rm *rm);

/* Emits a cell now, at the present rate, and gives the earliest moment of the next cell, also after ABT_TOO_SOON.
 * Answers ABT_OK, or ABT_NULL, ABT_NO_STATE, ABT_DOWN, ABT_WRITING, ABT_CLOCK_BACK, ABT_TIME_RANGE, ABT_ZERO, ABT_TOO_SOON. */
ABT_MUST_USE static inline abt_outcome abt_source_emit(abt_source *source, uint64_t now, uint64_t *next);

/* Loses the rate, the newest request and a write that was to be made. The next start reads the record anew.
 * Answers ABT_OK, or ABT_NULL, ABT_NO_STATE, ABT_DOWN. */
static inline abt_outcome abt_source_crash(abt_source *source);

/* Gives the canonical code of the rate at which the source shapes.
 * Answers ABT_OK, or ABT_NULL, ABT_NO_STATE. */
static inline abt_outcome abt_source_rate(const abt_source *source, uint16_t *rate);

/* What a source does: it isn't started, waits for nothing, waits for an answer, or for what became of a write. */
enum { ABT_PHASE_DOWN = 0, ABT_PHASE_IDLE = 1, ABT_PHASE_ASKING = 2, ABT_PHASE_WRITING = 3 };

/* Gives the phase of the source.
 * Answers ABT_OK, or ABT_NULL, ABT_NO_STATE. */
static inline abt_outcome abt_source_phase(const abt_source *source, uint32_t *phase);

/* Gives the last number that is used up, by a request or by a start that passed over it: the next request has the one above it.
 * Answers ABT_OK, or ABT_NULL, ABT_NO_STATE. */
static inline abt_outcome abt_source_last(const abt_source *source, uint32_t *number);

/* Gives the earliest moment at which abt_source_emit lets a cell leave, at the present rate, without trying: just from then on it does.
 * Answers ABT_OK, or ABT_NULL, ABT_NO_STATE, ABT_DOWN, ABT_WRITING, ABT_ZERO, ABT_TIME_RANGE (it is above ABT_EMIT_MAX, so there is none). */
ABT_MUST_USE static inline abt_outcome abt_source_next(const abt_source *source, uint64_t *next);

/* ---- a port ----
 *
 * It decides the requests and answers of its connections, so that the sum of what they hold is never above the capacity of its link. The
 * port is one state, and each of its connections is another. The program finds the connection of a message, in a table of its own, and
 * hands both in. The port keeps the sum by what each call changes. It is that of the connections as long as the program uses each of them
 * at this port alone, and copies, resets or loses none that holds something: the library can't see that. */

typedef struct abt_port { uint64_t private_[3]; } abt_port;
typedef struct abt_connection { uint64_t private_[3]; } abt_connection;

/* Makes a state that of a port of a link of a capacity in units, of which nothing is held, whatever it was before.
 * Answers ABT_OK, or ABT_NULL, ABT_CAPACITY_RANGE. */
static inline abt_outcome abt_port_init(abt_port *port, uint64_t capacity);

/* Makes a state that of a connection that has asked for nothing, whatever it was before.
 * Answers ABT_OK, or ABT_NULL, ABT_VPI_RANGE. */
static inline abt_outcome abt_connection_init(abt_connection *connection, uint16_t vpi, uint16_t vci);

/* Decides a request, which goes on after ABT_PASS. After ABT_REFUSE the no to it is in answer, and goes back; after any other outcome, also
 * ABT_PASS, answer is as it was. Answer and rm have to be different memory. A repeat of the newest request isn't decided anew. Where the
 * connection holds more than the port's sum, this and the next call answer ABT_NO_STATE: it isn't one of this port.
 * Answers ABT_PASS, ABT_REFUSE, ABT_UNKNOWN_VC, ABT_STALE, ABT_CONFLICT, ABT_FLOOR_ABOVE, or ABT_NULL, ABT_NO_STATE, ABT_KIND (no request),
 * ABT_VPI_RANGE, ABT_SEQ_ZERO, ABT_RATE_ORDER. */
ABT_MUST_USE static inline abt_outcome abt_port_request(abt_port *port, abt_connection *connection, const abt_rm *rm, abt_rm *answer);

/* Takes an answer, which goes on after ABT_PASS. A no to the newest request gives back what was held above its floor.
 * Answers ABT_PASS, ABT_UNKNOWN_VC, ABT_STALE, ABT_CONFLICT, or ABT_NULL, ABT_NO_STATE, ABT_KIND (no answer), ABT_VPI_RANGE, ABT_SEQ_ZERO,
 * ABT_RATE_ORDER. */
ABT_MUST_USE static inline abt_outcome abt_port_answer(abt_port *port, abt_connection *connection, const abt_rm *rm);

/* Gives the link another capacity. What was granted stays.
 * Answers ABT_OK, or ABT_NULL, ABT_NO_STATE, ABT_BELOW_SUM, ABT_CAPACITY_RANGE. */
ABT_MUST_USE static inline abt_outcome abt_port_set_capacity(abt_port *port, uint64_t capacity);

/* Gives the sum of what the port's connections hold, in units.
 * Answers ABT_OK, or ABT_NULL, ABT_NO_STATE. */
static inline abt_outcome abt_port_total(const abt_port *port, uint64_t *total);

/* Gives the canonical code of the rate that a connection holds, at which a policer holds its cells.
 * Answers ABT_OK, or ABT_NULL, ABT_NO_STATE. */
static inline abt_outcome abt_connection_held(const abt_connection *connection, uint16_t *held);

/* Gives the capacity of the port's link, in units.
 * Answers ABT_OK, or ABT_NULL, ABT_NO_STATE. */
static inline abt_outcome abt_port_capacity(const abt_port *port, uint64_t *capacity);

/* What a port keeps of a connection: the newest request that it decided. While that is open, the connection holds ask, and else floor. */
typedef struct abt_reservation {
    uint32_t newest;  /* its number, 0 before the first */
    uint32_t is_open; /* 1 if it is open, 0 if it is shut */
    uint16_t floor;   /* a canonical code */
    uint16_t ask;     /* a canonical code */
} abt_reservation;

/* Gives what the port keeps of a connection.
 * Answers ABT_OK, or ABT_NULL, ABT_NO_STATE. */
static inline abt_outcome abt_connection_reservation(const abt_connection *connection, abt_reservation *reservation);

/* ---- a port with a table ----
 *
 * A port that finds the connection of a message itself. One state has the port and all of its connections, so what they hold adds up to the
 * port's sum, call by call, whatever messages come. Where the port is a connection's ingress, it also polices the connection's cells. A
 * connection is found along a chain of those whose channels fall together: about one step where VPIs and VCIs differ as usual, and as many
 * as there are connections at worst. */

/* The most connections of a table. */
#define ABT_TABLE_PLACES 1024

typedef struct abt_table { uint64_t private_[7685]; } abt_table;

/* Makes a state that of a port of a link of a capacity in units, of which nothing is held, and that has no connection, whatever it was
 * before.
 * Answers ABT_OK, or ABT_NULL, ABT_CAPACITY_RANGE. */
static inline abt_outcome abt_table_init(abt_table *table, uint64_t capacity);

/* Takes a connection in, which has asked for nothing.
 * Answers ABT_OK, or ABT_NULL, ABT_NO_STATE, ABT_VPI_RANGE, ABT_KNOWN, ABT_FULL, ABT_DAMAGED. */
ABT_MUST_USE static inline abt_outcome abt_table_add(abt_table *table, uint16_t vpi, uint16_t vci);

/* The same for a connection whose ingress the port is: with a policer of this tolerance, which has met no cell.
 * Answers ABT_OK, or ABT_NULL, ABT_TAU_RANGE, ABT_NO_STATE, ABT_VPI_RANGE, ABT_KNOWN, ABT_FULL, ABT_DAMAGED. */
ABT_MUST_USE static inline abt_outcome abt_table_add_ingress(abt_table *table, uint16_t vpi, uint16_t vci, uint64_t tau);

/* Takes a connection away, with its policer. One that holds a rate stays, with ABT_HELD: what was granted is given back by messages alone, as
 * a request for the rate 0. So the sum is the same before and after. All others are linked anew, in some 1,024 steps at most.
 * Answers ABT_OK, ABT_UNKNOWN_VC, or ABT_NULL, ABT_NO_STATE, ABT_VPI_RANGE, ABT_HELD, ABT_DAMAGED. */
ABT_MUST_USE static inline abt_outcome abt_table_remove(abt_table *table, uint16_t vpi, uint16_t vci);

/* Decides a request, as abt_port_request does, of the connection that has its VPI and VCI.
 * Answers ABT_PASS, ABT_REFUSE, ABT_UNKNOWN_VC, ABT_STALE, ABT_CONFLICT, ABT_FLOOR_ABOVE, or ABT_NULL, ABT_NO_STATE, ABT_KIND (no request),
 * ABT_VPI_RANGE, ABT_SEQ_ZERO, ABT_RATE_ORDER, ABT_DAMAGED. */
ABT_MUST_USE static inline abt_outcome abt_table_request(abt_table *table, const abt_rm *rm, abt_rm *answer);

/* Takes an answer, as abt_port_answer does, of the connection that has its VPI and VCI.
 * Answers ABT_PASS, ABT_UNKNOWN_VC, ABT_STALE, ABT_CONFLICT, or ABT_NULL, ABT_NO_STATE, ABT_KIND (no answer), ABT_VPI_RANGE, ABT_SEQ_ZERO,
 * ABT_RATE_ORDER, ABT_DAMAGED. */
ABT_MUST_USE static inline abt_outcome abt_table_answer(abt_table *table, const abt_rm *rm);

/* Takes an RM cell that came to the port, of ABT_CELL_LENGTH octets: a request that came forward, or an answer that came backward. After
 * ABT_PASS the cell that goes on is in sent, and after ABT_REFUSE the no that goes back, of as many octets; after any other outcome nothing
 * is, and the cell goes nowhere. Cell and sent have to be different memory. Length and room are both ABT_CELL_LENGTH: any other number, also
 * a greater room, is ABT_LENGTH.
 * Answers as abt_table_request and abt_table_answer do, or ABT_NULL, ABT_NO_STATE, ABT_LENGTH, ABT_NOT_RM, ABT_CRC, ABT_PROTOCOL,
 * ABT_MAINTENANCE, ABT_ELASTIC, ABT_DIRECTION, ABT_SEQ_ZERO, ABT_RATE_ORDER, ABT_DAMAGED. */
ABT_MUST_USE static inline abt_outcome abt_table_cell(abt_table *table, const uint8_t *cell, size_t length, uint8_t *sent, size_t room);

/* Gives the link another capacity. What was granted stays.
 * Answers ABT_OK, or ABT_NULL, ABT_NO_STATE, ABT_BELOW_SUM, ABT_CAPACITY_RANGE. */
ABT_MUST_USE static inline abt_outcome abt_table_set_capacity(abt_table *table, uint64_t capacity);

/* Gives the sum of what the connections hold, in units.
 * Answers ABT_OK, or ABT_NULL, ABT_NO_STATE. */
static inline abt_outcome abt_table_total(const abt_table *table, uint64_t *total);

/* Gives the canonical code of the rate that a connection holds, at which a policer holds its cells.
 * Answers ABT_OK, ABT_UNKNOWN_VC, or ABT_NULL, ABT_NO_STATE, ABT_VPI_RANGE, ABT_DAMAGED. */
ABT_MUST_USE static inline abt_outcome abt_table_held(const abt_table *table, uint16_t vpi, uint16_t vci, uint16_t *held);

/* Gives what the port keeps of a connection.
 * Answers ABT_OK, ABT_UNKNOWN_VC, or ABT_NULL, ABT_NO_STATE, ABT_VPI_RANGE, ABT_DAMAGED. */
ABT_MUST_USE static inline abt_outcome abt_table_reservation(const abt_table *table, uint16_t vpi, uint16_t vci, abt_reservation *reservation);

/* Gives the capacity of the link, in units.
 * Answers ABT_OK, or ABT_NULL, ABT_NO_STATE. */
static inline abt_outcome abt_table_capacity(const abt_table *table, uint64_t *capacity);

/* Gives how many connections the table has.
 * Answers ABT_OK, or ABT_NULL, ABT_NO_STATE. */
static inline abt_outcome abt_table_count(const abt_table *table, uint64_t *count);

/* The verdict on a cell of a connection that arrives at a moment at the port, its ingress, at the rate that the connection holds.
 * Answers ABT_CONFORMING, ABT_TOO_EARLY, ABT_NO_RATE, ABT_UNKNOWN_VC, or ABT_NULL, ABT_NO_STATE, ABT_VPI_RANGE, ABT_NOT_INGRESS,
 * ABT_CLOCK_BACK (the connection's last cell came later), ABT_TIME_RANGE, ABT_DAMAGED. */
ABT_MUST_USE static inline abt_outcome abt_table_arrive(abt_table *table, uint16_t vpi, uint16_t vci, uint64_t at);

/* A cell of a connection that arrives at a moment. */
typedef struct abt_arrival {
    uint64_t at;
    uint16_t vpi; /* up to 4095 */
    uint16_t vci;
} abt_arrival;

/* The same for a burst of cells of any of the connections: just what as many calls of abt_table_arrive do, in this order. Each outcome below
 * ABT_FAULTS goes to the place of its cell. The first cell for which a single call is refused ends the burst with that fault: judged is its
 * place, the cells before it have their outcomes, and the table is as after these. Otherwise judged is the count. It is 0 after ABT_NO_STATE.
 * Table, cells, outcomes and judged have to be different memory.
 * Answers ABT_OK, or ABT_NULL, ABT_NO_STATE, ABT_VPI_RANGE, ABT_NOT_INGRESS, ABT_CLOCK_BACK, ABT_TIME_RANGE, ABT_DAMAGED. */
ABT_MUST_USE static inline abt_outcome abt_table_arrive_burst(abt_table *table, const abt_arrival *cells, uint8_t *outcomes, size_t count, size_t *judged);

/* ---- names ---- */

/* The name of an outcome or a fault, for messages. */
static inline const char *abt_outcome_name(abt_outcome outcome);

/*
 * The rest is how the calls above are made: each looks whether a pointer is NULL, and calls the library's own function, whose proof is about
 * pointers that aren't. A program in another language may call these, with pointers that aren't NULL.
 */
abt_outcome abt_raw_rate_at_least(uint64_t units, uint16_t *code);
abt_outcome abt_raw_crc10(const uint8_t *payload, size_t length, uint16_t *check);
abt_outcome abt_raw_rm_read(const uint8_t *cell, size_t length, abt_rm *rm);
abt_outcome abt_raw_rm_write(const abt_rm *rm, uint8_t *cell, size_t length);
abt_outcome abt_raw_rm_turn(const abt_rm *rm, abt_rm *yes);
abt_outcome abt_raw_gcra_init(abt_gcra *gcra, uint64_t tau);
abt_outcome abt_raw_gcra_check(abt_gcra *gcra, uint64_t at, uint64_t spacing);
abt_outcome abt_raw_bucket_init(abt_bucket *bucket, uint64_t tau);
abt_outcome abt_raw_bucket_check(abt_bucket *bucket, uint64_t at, uint64_t spacing);
abt_outcome abt_raw_policer_init(abt_policer *policer, uint64_t tau);
abt_outcome abt_raw_policer_arrive(abt_policer *policer, uint64_t at, uint16_t held);
abt_outcome abt_raw_policer_arrive_burst(abt_policer *policer, uint16_t held, const uint64_t *at, size_t count, uint8_t *verdicts, size_t room, size_t *judged);
abt_outcome abt_raw_shaper_init(abt_shaper *shaper, uint64_t not_before);
abt_outcome abt_raw_shaper_emit(abt_shaper *shaper, uint64_t now, uint16_t rate, uint64_t *next);
abt_outcome abt_raw_shaper_next(const abt_shaper *shaper, uint64_t *next);
abt_outcome abt_raw_source_init(abt_source *source, uint16_t vpi, uint16_t vci);
abt_outcome abt_raw_source_start(abt_source *source, const uint8_t *record, size_t length, uint64_t now);
abt_outcome abt_raw_source_ask(abt_source *source, uint16_t rate, uint8_t *record, size_t length, abt_rm *rm);
abt_outcome abt_raw_source_wrote(abt_source *source, uint32_t became, abt_rm *rm);
abt_outcome abt_raw_source_again(const abt_source *source, abt_rm *rm);
abt_outcome abt_raw_source_answer(abt_source *source, const abt_rm *rm);
abt_outcome abt_raw_source_emit(abt_source *source, uint64_t now, uint64_t *next);
abt_outcome abt_raw_source_crash(abt_source *source);
abt_outcome abt_raw_source_rate(const abt_source *source, uint16_t *rate);
abt_outcome abt_raw_source_phase(const abt_source *source, uint32_t *phase);
abt_outcome abt_raw_source_last(const abt_source *source, uint32_t *number);
abt_outcome abt_raw_source_next(const abt_source *source, uint64_t *next);
abt_outcome abt_raw_port_init(abt_port *port, uint64_t capacity);
abt_outcome abt_raw_connection_init(abt_connection *connection, uint16_t vpi, uint16_t vci);
abt_outcome abt_raw_port_request(abt_port *port, abt_connection *connection, const abt_rm *rm, abt_rm *answer);
abt_outcome abt_raw_port_answer(abt_port *port, abt_connection *connection, const abt_rm *rm);
abt_outcome abt_raw_port_set_capacity(abt_port *port, uint64_t capacity);
abt_outcome abt_raw_port_total(const abt_port *port, uint64_t *total);
abt_outcome abt_raw_connection_held(const abt_connection *connection, uint16_t *held);
abt_outcome abt_raw_port_capacity(const abt_port *port, uint64_t *capacity);
abt_outcome abt_raw_connection_reservation(const abt_connection *connection, abt_reservation *reservation);
abt_outcome abt_raw_table_init(abt_table *table, uint64_t capacity);
abt_outcome abt_raw_table_add(abt_table *table, uint16_t vpi, uint16_t vci);
abt_outcome abt_raw_table_add_ingress(abt_table *table, uint16_t vpi, uint16_t vci, uint64_t tau);
abt_outcome abt_raw_table_remove(abt_table *table, uint16_t vpi, uint16_t vci);
abt_outcome abt_raw_table_request(abt_table *table, const abt_rm *rm, abt_rm *answer);
abt_outcome abt_raw_table_answer(abt_table *table, const abt_rm *rm);
abt_outcome abt_raw_table_cell(abt_table *table, const uint8_t *cell, size_t length, uint8_t *sent, size_t room);
abt_outcome abt_raw_table_set_capacity(abt_table *table, uint64_t capacity);
abt_outcome abt_raw_table_total(const abt_table *table, uint64_t *total);
abt_outcome abt_raw_table_held(const abt_table *table, uint16_t vpi, uint16_t vci, uint16_t *held);
abt_outcome abt_raw_table_reservation(const abt_table *table, uint16_t vpi, uint16_t vci, abt_reservation *reservation);
abt_outcome abt_raw_table_capacity(const abt_table *table, uint64_t *capacity);
abt_outcome abt_raw_table_count(const abt_table *table, uint64_t *count);
abt_outcome abt_raw_table_arrive(abt_table *table, uint16_t vpi, uint16_t vci, uint64_t at);
abt_outcome abt_raw_table_arrive_burst(abt_table *table, const abt_arrival *cells, size_t count, uint8_t *outcomes, size_t room, size_t *judged);

static inline abt_outcome abt_rate_at_least(uint64_t units, uint16_t *code)
{
    return code ? abt_raw_rate_at_least(units, code) : (abt_outcome)ABT_NULL;
}

static inline abt_outcome abt_crc10(const uint8_t *payload, size_t length, uint16_t *check)
{
    return payload && check ? abt_raw_crc10(payload, length, check) : (abt_outcome)ABT_NULL;
}

static inline abt_outcome abt_rm_read(const uint8_t *cell, size_t length, abt_rm *rm)
{
    return cell && rm ? abt_raw_rm_read(cell, length, rm) : (abt_outcome)ABT_NULL;
}

static inline abt_outcome abt_rm_write(const abt_rm *rm, uint8_t *cell, size_t length)
{
    return rm && cell ? abt_raw_rm_write(rm, cell, length) : (abt_outcome)ABT_NULL;
}

static inline abt_outcome abt_rm_turn(const abt_rm *rm, abt_rm *yes)
{
    return rm && yes ? abt_raw_rm_turn(rm, yes) : (abt_outcome)ABT_NULL;
}

static inline abt_outcome abt_gcra_init(abt_gcra *gcra, uint64_t tau)
{
    return gcra ? abt_raw_gcra_init(gcra, tau) : (abt_outcome)ABT_NULL;
}

static inline abt_outcome abt_gcra_check(abt_gcra *gcra, uint64_t at, uint64_t spacing)
{
    return gcra ? abt_raw_gcra_check(gcra, at, spacing) : (abt_outcome)ABT_NULL;
}

static inline abt_outcome abt_bucket_init(abt_bucket *bucket, uint64_t tau)
{
    return bucket ? abt_raw_bucket_init(bucket, tau) : (abt_outcome)ABT_NULL;
}

static inline abt_outcome abt_bucket_check(abt_bucket *bucket, uint64_t at, uint64_t spacing)
{
    return bucket ? abt_raw_bucket_check(bucket, at, spacing) : (abt_outcome)ABT_NULL;
}

static inline abt_outcome abt_policer_init(abt_policer *policer, uint64_t tau)
{
    return policer ? abt_raw_policer_init(policer, tau) : (abt_outcome)ABT_NULL;
}

static inline abt_outcome abt_policer_arrive(abt_policer *policer, uint64_t at, uint16_t held)
{
    return policer ? abt_raw_policer_arrive(policer, at, held) : (abt_outcome)ABT_NULL;
}

static inline abt_outcome abt_policer_arrive_burst(abt_policer *policer, uint16_t held, const uint64_t *at, uint8_t *verdicts, size_t count,
                                                   size_t *judged)
{
    return policer && at && verdicts && judged ? abt_raw_policer_arrive_burst(policer, held, at, count, verdicts, count, judged)
                                               : (abt_outcome)ABT_NULL;
}

static inline abt_outcome abt_shaper_init(abt_shaper *shaper, uint64_t not_before)
{
    return shaper ? abt_raw_shaper_init(shaper, not_before) : (abt_outcome)ABT_NULL;
}

static inline abt_outcome abt_shaper_emit(abt_shaper *shaper, uint64_t now, uint16_t rate, uint64_t *next)
{
    return shaper && next ? abt_raw_shaper_emit(shaper, now, rate, next) : (abt_outcome)ABT_NULL;
}

static inline abt_outcome abt_shaper_next(const abt_shaper *shaper, uint64_t *next)
{
    return shaper && next ? abt_raw_shaper_next(shaper, next) : (abt_outcome)ABT_NULL;
}

static inline abt_outcome abt_source_init(abt_source *source, uint16_t vpi, uint16_t vci)
{
    return source ? abt_raw_source_init(source, vpi, vci) : (abt_outcome)ABT_NULL;
}

static inline abt_outcome abt_source_start(abt_source *source, const uint8_t *record, size_t length, uint64_t now)
{
    return source && record ? abt_raw_source_start(source, record, length, now) : (abt_outcome)ABT_NULL;
}

static inline abt_outcome abt_source_ask(abt_source *source, uint16_t rate, uint8_t *record, size_t length, abt_rm *rm)
{
    return source && record && rm ? abt_raw_source_ask(source, rate, record, length, rm) : (abt_outcome)ABT_NULL;
}

static inline abt_outcome abt_source_wrote(abt_source *source, uint32_t became, abt_rm *rm)
{
    return source && rm ? abt_raw_source_wrote(source, became, rm) : (abt_outcome)ABT_NULL;
}

static inline abt_outcome abt_source_again(const abt_source *source, abt_rm *rm)
{
    return source && rm ? abt_raw_source_again(source, rm) : (abt_outcome)ABT_NULL;
}

static inline abt_outcome abt_source_answer(abt_source *source, const abt_rm *rm)
{
    return source && rm ? abt_raw_source_answer(source, rm) : (abt_outcome)ABT_NULL;
}

static inline abt_outcome abt_source_emit(abt_source *source, uint64_t now, uint64_t *next)
{
    return source && next ? abt_raw_source_emit(source, now, next) : (abt_outcome)ABT_NULL;
}

static inline abt_outcome abt_source_crash(abt_source *source)
{
    return source ? abt_raw_source_crash(source) : (abt_outcome)ABT_NULL;
}

static inline abt_outcome abt_source_rate(const abt_source *source, uint16_t *rate)
{
    return source && rate ? abt_raw_source_rate(source, rate) : (abt_outcome)ABT_NULL;
}

static inline abt_outcome abt_source_phase(const abt_source *source, uint32_t *phase)
{
    return source && phase ? abt_raw_source_phase(source, phase) : (abt_outcome)ABT_NULL;
}

static inline abt_outcome abt_source_last(const abt_source *source, uint32_t *number)
{
    return source && number ? abt_raw_source_last(source, number) : (abt_outcome)ABT_NULL;
}

static inline abt_outcome abt_source_next(const abt_source *source, uint64_t *next)
{
    return source && next ? abt_raw_source_next(source, next) : (abt_outcome)ABT_NULL;
}

static inline abt_outcome abt_port_init(abt_port *port, uint64_t capacity)
{
    return port ? abt_raw_port_init(port, capacity) : (abt_outcome)ABT_NULL;
}

static inline abt_outcome abt_connection_init(abt_connection *connection, uint16_t vpi, uint16_t vci)
{
    return connection ? abt_raw_connection_init(connection, vpi, vci) : (abt_outcome)ABT_NULL;
}

static inline abt_outcome abt_port_request(abt_port *port, abt_connection *connection, const abt_rm *rm, abt_rm *answer)
{
    return port && connection && rm && answer ? abt_raw_port_request(port, connection, rm, answer) : (abt_outcome)ABT_NULL;
}

static inline abt_outcome abt_port_answer(abt_port *port, abt_connection *connection, const abt_rm *rm)
{
    return port && connection && rm ? abt_raw_port_answer(port, connection, rm) : (abt_outcome)ABT_NULL;
}

static inline abt_outcome abt_port_set_capacity(abt_port *port, uint64_t capacity)
{
    return port ? abt_raw_port_set_capacity(port, capacity) : (abt_outcome)ABT_NULL;
}

static inline abt_outcome abt_port_total(const abt_port *port, uint64_t *total)
{
    return port && total ? abt_raw_port_total(port, total) : (abt_outcome)ABT_NULL;
}

static inline abt_outcome abt_connection_held(const abt_connection *connection, uint16_t *held)
{
    return connection && held ? abt_raw_connection_held(connection, held) : (abt_outcome)ABT_NULL;
}

static inline abt_outcome abt_port_capacity(const abt_port *port, uint64_t *capacity)
{
    return port && capacity ? abt_raw_port_capacity(port, capacity) : (abt_outcome)ABT_NULL;
}

static inline abt_outcome abt_connection_reservation(const abt_connection *connection, abt_reservation *reservation)
{
    return connection && reservation ? abt_raw_connection_reservation(connection, reservation) : (abt_outcome)ABT_NULL;
}

static inline abt_outcome abt_table_init(abt_table *table, uint64_t capacity)
{
    return table ? abt_raw_table_init(table, capacity) : (abt_outcome)ABT_NULL;
}

static inline abt_outcome abt_table_add(abt_table *table, uint16_t vpi, uint16_t vci)
{
    return table ? abt_raw_table_add(table, vpi, vci) : (abt_outcome)ABT_NULL;
}

static inline abt_outcome abt_table_add_ingress(abt_table *table, uint16_t vpi, uint16_t vci, uint64_t tau)
{
    return table ? abt_raw_table_add_ingress(table, vpi, vci, tau) : (abt_outcome)ABT_NULL;
}

static inline abt_outcome abt_table_remove(abt_table *table, uint16_t vpi, uint16_t vci)
{
    return table ? abt_raw_table_remove(table, vpi, vci) : (abt_outcome)ABT_NULL;
}

static inline abt_outcome abt_table_request(abt_table *table, const abt_rm *rm, abt_rm *answer)
{
    return table && rm && answer ? abt_raw_table_request(table, rm, answer) : (abt_outcome)ABT_NULL;
}

static inline abt_outcome abt_table_answer(abt_table *table, const abt_rm *rm)
{
    return table && rm ? abt_raw_table_answer(table, rm) : (abt_outcome)ABT_NULL;
}

static inline abt_outcome abt_table_cell(abt_table *table, const uint8_t *cell, size_t length, uint8_t *sent, size_t room)
{
    return table && cell && sent ? abt_raw_table_cell(table, cell, length, sent, room) : (abt_outcome)ABT_NULL;
}

static inline abt_outcome abt_table_set_capacity(abt_table *table, uint64_t capacity)
{
    return table ? abt_raw_table_set_capacity(table, capacity) : (abt_outcome)ABT_NULL;
}

static inline abt_outcome abt_table_total(const abt_table *table, uint64_t *total)
{
    return table && total ? abt_raw_table_total(table, total) : (abt_outcome)ABT_NULL;
}

static inline abt_outcome abt_table_held(const abt_table *table, uint16_t vpi, uint16_t vci, uint16_t *held)
{
    return table && held ? abt_raw_table_held(table, vpi, vci, held) : (abt_outcome)ABT_NULL;
}

static inline abt_outcome abt_table_reservation(const abt_table *table, uint16_t vpi, uint16_t vci, abt_reservation *reservation)
{
    return table && reservation ? abt_raw_table_reservation(table, vpi, vci, reservation) : (abt_outcome)ABT_NULL;
}

static inline abt_outcome abt_table_capacity(const abt_table *table, uint64_t *capacity)
{
    return table && capacity ? abt_raw_table_capacity(table, capacity) : (abt_outcome)ABT_NULL;
}

static inline abt_outcome abt_table_count(const abt_table *table, uint64_t *count)
{
    return table && count ? abt_raw_table_count(table, count) : (abt_outcome)ABT_NULL;
}

static inline abt_outcome abt_table_arrive(abt_table *table, uint16_t vpi, uint16_t vci, uint64_t at)
{
    return table ? abt_raw_table_arrive(table, vpi, vci, at) : (abt_outcome)ABT_NULL;
}

static inline abt_outcome abt_table_arrive_burst(abt_table *table, const abt_arrival *cells, uint8_t *outcomes, size_t count, size_t *judged)
{
    return table && cells && outcomes && judged ? abt_raw_table_arrive_burst(table, cells, count, outcomes, count, judged)
                                                : (abt_outcome)ABT_NULL;
}

static inline const char *abt_outcome_name(abt_outcome outcome)
{
    switch (outcome) {
    case ABT_OK: return "OK";
    case ABT_CONFORMING: return "Conforming";
    case ABT_TOO_EARLY: return "TooEarly";
    case ABT_NO_RATE: return "NoRate";
    case ABT_NULL: return "Null";
    case ABT_NO_STATE: return "NoState";
    case ABT_LENGTH: return "Length";
    case ABT_TAU_RANGE: return "TauRange";
    case ABT_SPACING_RANGE: return "SpacingRange";
    case ABT_UNITS_RANGE: return "UnitsRange";
    case ABT_CLOCK_BACK: return "ClockBack";
    case ABT_TIME_RANGE: return "TimeRange";
    case ABT_ZERO: return "Zero";
    case ABT_TOO_SOON: return "TooSoon";
    case ABT_NOT_RM: return "NotRm";
    case ABT_CRC: return "Crc";
    case ABT_PROTOCOL: return "Protocol";
    case ABT_MAINTENANCE: return "Maintenance";
    case ABT_ELASTIC: return "Elastic";
    case ABT_DIRECTION: return "Direction";
    case ABT_SEQ_ZERO: return "SeqZero";
    case ABT_RATE_ORDER: return "RateOrder";
    case ABT_KIND: return "Kind";
    case ABT_VPI_RANGE: return "VpiRange";
    case ABT_WRITE_FIRST: return "WriteFirst";
    case ABT_ASKED: return "Asked";
    case ABT_RAISED: return "Raised";
    case ABT_REFUSED: return "Refused";
    case ABT_IGNORED: return "Ignored";
    case ABT_DOWN: return "Down";
    case ABT_RUNNING: return "Running";
    case ABT_WRITING: return "Writing";
    case ABT_NOT_WRITING: return "NotWriting";
    case ABT_NOT_ASKING: return "NotAsking";
    case ABT_SEQ_EXHAUSTED: return "SeqExhausted";
    case ABT_NOT_KEPT: return "NotKept";
    case ABT_RECORD_SPACING: return "RecordSpacing";
    case ABT_PASS: return "Pass";
    case ABT_REFUSE: return "Refuse";
    case ABT_UNKNOWN_VC: return "UnknownVc";
    case ABT_STALE: return "Stale";
    case ABT_CONFLICT: return "Conflict";
    case ABT_FLOOR_ABOVE: return "FloorAbove";
    case ABT_BELOW_SUM: return "BelowSum";
    case ABT_CAPACITY_RANGE: return "CapacityRange";
    case ABT_KNOWN: return "Known";
    case ABT_FULL: return "Full";
    case ABT_DAMAGED: return "Damaged";
    case ABT_HELD: return "Held";
    case ABT_NOT_INGRESS: return "NotIngress";
    default: return "unknown";
    }
}

#ifdef __cplusplus
}
#endif

#endif
