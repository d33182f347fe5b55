#include "plain.h"

static uint64_t plain_units(uint16_t code)
{
    return code >> 14 & 1 ? (uint64_t)(512 + code % 512) << (code >> 9) % 32 : 0;
}

static uint64_t plain_spacing(uint16_t code)
{
    uint64_t units = plain_units(code);
    if (!units)
        return 0;
    return (UINT64_C(512000000000000) + units - 1) / units;
}

int plain_check(struct plain_gcra *gcra, uint64_t at, uint64_t spacing)
{
    uint64_t tat = gcra->has_tat ? gcra->tat : at;
    gcra->has_tat = 1;
    if (tat > at + gcra->tau)
        return 0;
    gcra->tat = (tat > at ? tat : at) + spacing;
    return 1;
}

int plain_arrive(struct plain_gcra *gcra, uint64_t at, uint16_t code)
{
    uint64_t spacing = plain_spacing(code);
    return spacing ? plain_check(gcra, at, spacing) : 2;
}

int plain_emit(uint64_t *next, uint64_t now, uint16_t code)
{
    uint64_t spacing = plain_spacing(code);
    if (!spacing || now < *next)
        return 0;
    *next = now + spacing;
    return 1;
}

/* The row of a channel, or the free place where it would be. */
static struct plain_row *plain_find(struct plain_port *port, uint16_t vpi, uint16_t vci)
{
    uint32_t at = (((uint32_t)vpi << 16 | vci) * UINT32_C(2654435769)) >> 21;
    while (port->rows[at].is_taken && (port->rows[at].vci != vci || port->rows[at].vpi != vpi))
        at = (at + 1) % PLAIN_PLACES;
    return &port->rows[at];
}

void plain_add(struct plain_port *port, uint16_t vpi, uint16_t vci)
{
    *plain_find(port, vpi, vci) = (struct plain_row){.vpi = vpi, .vci = vci, .is_taken = 1};
}

int plain_request(struct plain_port *port, const struct plain_rm *rm, struct plain_rm *answer)
{
    struct plain_row *row = plain_find(port, rm->vpi, rm->vci);
    uint64_t floor = plain_units(rm->floor), ask = plain_units(rm->ask), held;
    if (!row->is_taken || rm->seq < row->newest)
        return 0;
    held = plain_units(row->is_open ? row->ask : row->floor);
    if (rm->seq > row->newest) {
        if (floor > held)
            return 0;
        row->is_open = port->total - held + ask <= port->capacity;
        row->newest = rm->seq;
        row->floor = rm->floor;
        row->ask = rm->ask;
        port->total = port->total - held + (row->is_open ? ask : floor);
    } else if (floor != plain_units(row->floor) || ask != plain_units(row->ask))
        return 0;
    if (row->is_open)
        return 1;
    *answer = *rm;
    answer->kind = 3;
    return 2;
}

static uint16_t table[48][256];

/* The check of one octet at a place, bit by bit. */
static uint16_t alone(int place, int octet)
{
    uint16_t rest = 0;
    for (int bit = 0; bit < 374; bit++) {
        int set = bit / 8 == place && octet >> (7 - bit % 8) & 1;
        int top = (rest >> 9 & 1) ^ set;
        rest = (uint16_t)((rest << 1 & 0x3ff) ^ (top ? 0x233 : 0));
    }
    return rest;
}

void plain_crc10_tables(void)
{
    for (int place = 0; place < 48; place++)
        for (int octet = 0; octet < 256; octet++)
            table[place][octet] = alone(place, octet);
}

uint16_t plain_crc10(const uint8_t payload[48])
{
    uint16_t rest = 0;
    for (int place = 0; place < 48; place++)
        rest ^= table[place][payload[place]];
    return rest;
}
