/* RM cells and their check: cells worked out by hand from their layout (docs/FORMATS.md, "The RM cell"). */
#include "check.h"

/* The octets of a cell: header and fields, thirty octets of filler, and the check. */
static void cell_of(uint8_t cell[ABT_CELL_LENGTH], const char *front, const char *check)
{
    char text[2 * ABT_CELL_LENGTH + 1];
    memset(text, 0, sizeof text);
    memcpy(text, front, 40);
    for (int i = 0; i < 30; i++)
        memcpy(text + 40 + 2 * i, "6a", 2);
    memcpy(text + 100, check, 4);
    for (int i = 0; i < ABT_CELL_LENGTH; i++) {
        char pair[3] = {text[2 * i], text[2 * i + 1], 0};
        cell[i] = (uint8_t)strtoul(pair, NULL, 16);
    }
}

static void is_rm(const abt_rm *rm, uint32_t kind, uint16_t vci, uint32_t seq, uint16_t floor, uint16_t ask)
{
    SAME(rm->kind, kind);
    SAME(rm->vpi, 1);
    SAME(rm->vci, vci);
    SAME(rm->seq, seq);
    SAME(rm->floor, floor);
    SAME(rm->ask, ask);
}

static const char a_front[] = "0010064c02045258000000000000000000000001";

/* Each cell is read as it says, and is the one that is written for that. */
static void worked(void)
{
    const struct { const char *front, *check; uint32_t kind; uint16_t vci; uint32_t seq; uint16_t floor, ask; } rows[] = {
        {a_front, "038c", ABT_REQUEST, 100, 1, 0x0000, 0x5258},
        {"0010065c02045258000000000000000000000001", "038c", ABT_REQUEST, 101, 1, 0x0000, 0x5258},
        {"0010065c02045120000000000000000000000002", "0214", ABT_REQUEST, 101, 2, 0x0000, 0x5120},
        {"0010065c02ac5258000000000000000000000001", "008b", ABT_NO, 101, 1, 0x0000, 0x5258},
        {"0010064c028c5258000000000000000000000001", "0165", ABT_YES, 100, 1, 0x0000, 0x5258},
        {"0010064c02045120512000000000000000000002", "0086", ABT_REQUEST, 100, 2, 0x5120, 0x5120},
    };
    for (size_t i = 0; i < sizeof rows / sizeof *rows; i++) {
        uint8_t cell[ABT_CELL_LENGTH], written[ABT_CELL_LENGTH];
        abt_rm rm;
        cell_of(cell, rows[i].front, rows[i].check);
        SAME(abt_rm_read(cell, sizeof cell, &rm), ABT_OK);
        is_rm(&rm, rows[i].kind, rows[i].vci, rows[i].seq, rows[i].floor, rows[i].ask);
        SAME(abt_rm_write(&rm, written, sizeof written), ABT_OK);
        SAME_MEMORY(written, cell, sizeof cell);
    }
}

/* Changes of the first cell: its faults, and what a reader ignores. */
static void changed(void)
{
    const struct { const char *front, *check; abt_outcome outcome; } rows[] = {
        {"0010064a02045258000000000000000000000001", "038c", ABT_NOT_RM},
        {"0010064c02005258000000000000000000000001", "038c", ABT_CRC},
        {"0010064c02005258000000000000000000000001", "023d", ABT_ELASTIC},
        {"0010064c01045258000000000000000000000001", "0085", ABT_PROTOCOL},
        {"0010064c02145258000000000000000000000001", "037b", ABT_MAINTENANCE},
        {"0010064c02845258000000000000000000000001", "0207", ABT_DIRECTION},
        {"0010064c02045258000000000000000000000000", "0138", ABT_SEQ_ZERO},
        {"0010064c02040000525800000000000000000001", "00c7", ABT_RATE_ORDER},
        {"0010064c02245258000000000000000000000001", "0262", ABT_OK},
        {"0010064c02445258000000000000000000000001", "0050", ABT_OK},
        {"0010064c02075258000000000000000000000001", "02b4", ABT_OK},
        {"0010064c0204d258000000000000000000000001", "01e9", ABT_OK},
    };
    uint8_t first[ABT_CELL_LENGTH];
    cell_of(first, a_front, "038c");
    for (size_t i = 0; i < sizeof rows / sizeof *rows; i++) {
        uint8_t cell[ABT_CELL_LENGTH], written[ABT_CELL_LENGTH];
        abt_rm rm = {9, 9, 9, 9, 9, 9}, before = rm;
        cell_of(cell, rows[i].front, rows[i].check);
        SAME(abt_rm_read(cell, sizeof cell, &rm), rows[i].outcome);
        if (rows[i].outcome != ABT_OK) {
            SAME_MEMORY(&rm, &before, sizeof rm);
            continue;
        }
        is_rm(&rm, ABT_REQUEST, 100, 1, 0x0000, 0x5258);
        SAME(abt_rm_write(&rm, written, sizeof written), ABT_OK);
        SAME_MEMORY(written, first, sizeof first);
    }
}

/* Each change of one bit of a cell. */
static void every_bit(void)
{
    uint8_t cell[ABT_CELL_LENGTH];
    cell_of(cell, a_front, "038c");
    for (int bit = 0; bit < 8 * ABT_CELL_LENGTH; bit++) {
        abt_rm rm;
        cell[bit / 8] ^= (uint8_t)(0x80 >> bit % 8);
        abt_outcome outcome = abt_rm_read(cell, sizeof cell, &rm);
        if (bit >= 32)
            SAME(outcome, ABT_CRC);
        else if (bit >= 28 && bit < 31)
            SAME(outcome, ABT_NOT_RM);
        else {
            SAME(outcome, ABT_OK);
            SAME(rm.vpi == 1 && rm.vci == 100, bit == 31);
        }
        cell[bit / 8] ^= (uint8_t)(0x80 >> bit % 8);
    }
}

/* The check, a bit at a time: the remainder by the generator, whose lower bits are 233 hex. */
static uint16_t plain_crc10(const uint8_t payload[ABT_PAYLOAD_LENGTH])
{
    uint16_t rest = 0;
    for (int bit = 0; bit < 374; bit++) {
        int top = (rest >> 9 & 1) ^ (payload[bit / 8] >> (7 - bit % 8) & 1);
        rest = (uint16_t)((rest << 1 & 0x3ff) ^ (top ? 0x233 : 0));
    }
    return rest;
}

static void checks(void)
{
    uint8_t payload[ABT_PAYLOAD_LENGTH] = {0};
    uint16_t check = 77;
    SAME(abt_crc10(payload, sizeof payload, &check), ABT_OK);
    SAME(check, 0);
    payload[46] = 0x04;
    SAME(abt_crc10(payload, sizeof payload, &check), ABT_OK);
    SAME(check, 0x233);
    payload[46] = 0x08;
    SAME(abt_crc10(payload, sizeof payload, &check), ABT_OK);
    SAME(check, 0x255);
    uint64_t seed = 10;
    for (int round = 0; round < 100000; round++) {
        for (int i = 0; i < ABT_PAYLOAD_LENGTH; i++)
            payload[i] = (uint8_t)(draw(&seed) >> 32);
        SAME(abt_crc10(payload, sizeof payload, &check), ABT_OK);
        SAME(check, plain_crc10(payload));
    }
}

/* Random records: what is written is read as the record, and what can't be written is refused by name. */
static void records(void)
{
    uint64_t seed = 11;
    for (int round = 0; round < 100000; round++) {
        abt_rm rm = {(uint32_t)below(&seed, 5), (uint32_t)below(&seed, 4), (uint16_t)below(&seed, 4200),
                     (uint16_t)draw(&seed), (uint16_t)(draw(&seed) >> 32), (uint16_t)(draw(&seed) >> 32)};
        uint8_t cell[ABT_CELL_LENGTH], before[ABT_CELL_LENGTH];
        memset(cell, 0x55, sizeof cell);
        memcpy(before, cell, sizeof cell);
        abt_outcome wanted = rm.kind == 0 || rm.kind == 4                              ? ABT_KIND
                             : rm.vpi > 4095                                           ? ABT_VPI_RANGE
                             : rm.seq == 0                                             ? ABT_SEQ_ZERO
                             : abt_rate_units(rm.ask) < abt_rate_units(rm.floor) ? ABT_RATE_ORDER
                                                                                       : ABT_OK;
        SAME(abt_rm_write(&rm, cell, sizeof cell), wanted);
        if (wanted != ABT_OK) {
            SAME_MEMORY(cell, before, sizeof cell);
            continue;
        }
        abt_rm back;
        SAME(abt_rm_read(cell, sizeof cell, &back), ABT_OK);
        rm.floor = abt_rate_canonical(rm.floor);
        rm.ask = abt_rate_canonical(rm.ask);
        SAME_MEMORY(&back, &rm, sizeof rm);
    }
}

static void misuse(void)
{
    uint8_t *cell = calloc(65536, 1);
    uint16_t check = 77;
    abt_rm rm = {ABT_REQUEST, 1, 1, 100, 0, 0x5258}, before = rm;
    for (size_t length = 0; length < 65536; length += length < 60 ? 1 : 5000) {
        SAME(abt_crc10(cell, length, &check), length == 48 ? ABT_OK : ABT_LENGTH);
        SAME(check, length >= 48 ? 0 : 77);
        SAME(abt_rm_read(cell, length, &rm), length == 52 ? ABT_NOT_RM : ABT_LENGTH);
        SAME_MEMORY(&rm, &before, sizeof rm);
        SAME(abt_rm_write(&rm, cell, length), length == 52 ? ABT_OK : ABT_LENGTH);
        memset(cell, 0, 65536);
    }
    SAME(abt_crc10(NULL, 48, &check), ABT_NULL);
    SAME(abt_crc10(cell, 48, NULL), ABT_NULL);
    SAME(abt_rm_read(NULL, 52, &rm), ABT_NULL);
    SAME(abt_rm_read(cell, 52, NULL), ABT_NULL);
    SAME(abt_rm_write(NULL, cell, 52), ABT_NULL);
    SAME(abt_rm_write(&rm, NULL, 52), ABT_NULL);
    free(cell);
}

int main(void)
{
    worked();
    changed();
    every_bit();
    checks();
    records();
    misuse();
    return 0;
}
