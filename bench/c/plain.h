/* What the library is measured against: the same work in plain C, in a file of its own, so that each is called. */
#ifndef PLAIN_H
#define PLAIN_H

#include <stdint.h>

struct plain_gcra {
    uint64_t tau, tat;
    int has_tat;
};

/* Virtual scheduling as the standard draws it: 1 if the cell is taken, else 0. */
int plain_check(struct plain_gcra *gcra, uint64_t at, uint64_t spacing);

/* The same with the spacing of the rate of a code, and 2 without a rate. */
int plain_arrive(struct plain_gcra *gcra, uint64_t at, uint16_t code);

/* The same shaper: 1 if the cell leaves, else 0; `next` is when the next one may. */
int plain_emit(uint64_t *next, uint64_t now, uint16_t code);

/* A port of a switch with a hash table of open addresses: twice the places that are taken, searched one by one from the channel's own. */
enum { PLAIN_PLACES = 2048 };

struct plain_rm {
    uint32_t kind, seq;
    uint16_t vpi, vci, floor, ask;
};

struct plain_port {
    uint64_t capacity, total;
    struct plain_row {
        uint32_t newest;
        uint16_t vpi, vci, floor, ask;
        uint8_t is_taken, is_open;
    } rows[PLAIN_PLACES];
};

void plain_add(struct plain_port *port, uint16_t vpi, uint16_t vci);

/* Decides a request: 1 if it passes, 2 if it is refused, with its no in `answer`, else 0. */
int plain_request(struct plain_port *port, const struct plain_rm *rm, struct plain_rm *answer);

/* The CRC-10 of the first 374 bits of 48 octets, by a table for the place of each octet. */
void plain_crc10_tables(void);
uint16_t plain_crc10(const uint8_t payload[48]);

#endif
