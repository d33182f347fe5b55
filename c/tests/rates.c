/* Rates: codes, units, rounding and spacings, worked out by hand from the rule of the rate code (docs/RULES.md, "Rates"). */
#include "check.h"

static void codes(void)
{
    const uint16_t zero[] = {0x0000, 0x3fff, 0x8000, 0xbfff};
    for (size_t i = 0; i < sizeof zero / sizeof *zero; i++) {
        SAME(abt_rate_units(zero[i]), 0);
        SAME(abt_rate_canonical(zero[i]), 0);
        SAME(abt_rate_spacing(zero[i]), 0);
    }
    const struct { uint16_t code; uint64_t units, spacing; } rows[] = {
        {0x4000, 512, UINT64_C(1000000000000)},
        {0x5120, 204800, UINT64_C(2500000000)},
        {0x5258, 307200, UINT64_C(1666666667)},
        {0x53e8, 512000, UINT64_C(1000000000)},
        {0x64b1, 180617216, 2834725},
        {0x7fff, UINT64_C(2196875771904), 234},
    };
    for (size_t i = 0; i < sizeof rows / sizeof *rows; i++) {
        SAME(abt_rate_units(rows[i].code), rows[i].units);
        SAME(abt_rate_spacing(rows[i].code), rows[i].spacing);
        SAME(abt_rate_canonical(rows[i].code), rows[i].code);
        SAME(abt_rate_units(rows[i].code | 0x8000), rows[i].units);
        SAME(abt_rate_canonical(rows[i].code | 0x8000), rows[i].code);
    }
}

/* All codes, against the rule as plain C. */
static void every_code(void)
{
    for (uint32_t code = 0; code < 65536; code++) {
        uint64_t units = code >> 14 & 1 ? (uint64_t)(512 + code % 512) << (code >> 9) % 32 : 0;
        SAME(abt_rate_units((uint16_t)code), units);
        uint16_t canonical = abt_rate_canonical((uint16_t)code);
        SAME(canonical, units ? code & 0x7fff : 0);
        SAME(abt_rate_spacing((uint16_t)code), units ? (UINT64_C(512000000000000) + units - 1) / units : 0);
        SAME(abt_rate_at_most(units), canonical);
        uint16_t least = 1;
        SAME(abt_rate_at_least(units, &least), ABT_OK);
        SAME(least, canonical);
    }
}

static void rounding(void)
{
    const struct { uint64_t units; uint16_t most, least; } rows[] = {
        {0, 0x0000, 0x0000},       {1, 0x0000, 0x4000},
        {511, 0x0000, 0x4000},     {512, 0x4000, 0x4000},
        {1023, 0x41ff, 0x41ff},    {1025, 0x4200, 0x4201},
        {180841984, 0x64b1, 0x64b2},
        {UINT64_C(2196875771903), 0x7ffe, 0x7fff},
        {ABT_UNITS_MAX, 0x7fff, 0x7fff},
    };
    for (size_t i = 0; i < sizeof rows / sizeof *rows; i++) {
        uint16_t least = 1;
        SAME(abt_rate_at_most(rows[i].units), rows[i].most);
        SAME(abt_rate_at_least(rows[i].units, &least), ABT_OK);
        SAME(least, rows[i].least);
    }
    uint16_t least = 77;
    SAME(abt_rate_at_most(UINT64_MAX), 0x7fff);
    SAME(abt_rate_at_least(ABT_UNITS_MAX + 1, &least), ABT_UNITS_RANGE);
    SAME(abt_rate_at_least(UINT64_MAX, &least), ABT_UNITS_RANGE);
    SAME(least, 77);
    SAME(abt_rate_at_least(512, NULL), ABT_NULL);
}

int main(void)
{
    codes();
    every_code();
    rounding();
    return 0;
}
