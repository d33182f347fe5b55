/* Connections come and go at a port with a table: worked rows, and random calls against plain C that searches all connections. */
#include "check.h"

static void worked(void)
{
    static abt_table table, before;
    uint64_t total = 7, count = 7;
    uint16_t held = 7;
    abt_rm answer, rm = {ABT_REQUEST, 5, 0, 100, 0, 0x5120};
    memset(&table, 0xa5, sizeof table);
    SAME(abt_table_remove(&table, 0, 100), ABT_NO_STATE);
    SAME(abt_table_remove(NULL, 0, 100), ABT_NULL);
    abt_table_init(&table, 512000);
    SAME(abt_table_remove(&table, 0, 100), ABT_UNKNOWN_VC);
    SAME(abt_table_remove(&table, 4096, 100), ABT_VPI_RANGE);
    /* 0/100 and 0/1087 are in one chain. */
    SAME(abt_table_add_ingress(&table, 0, 100, 200), ABT_OK);
    SAME(abt_table_add(&table, 0, 1087), ABT_OK);
    SAME(abt_table_add_ingress(&table, 1, 7, 0), ABT_OK);
    SAME(abt_table_request(&table, &rm, &answer), ABT_PASS);
    SAME(abt_table_arrive(&table, 0, 100, 1000), ABT_CONFORMING);
    before = table;
    SAME(abt_table_remove(&table, 0, 100), ABT_HELD);
    SAME_MEMORY(&table, &before, sizeof table);
    SAME(abt_table_remove(&table, 0, 1087), ABT_OK);
    SAME(abt_table_total(&table, &total), ABT_OK);
    SAME(total, 204800);
    SAME(abt_table_held(&table, 0, 1087, &held), ABT_UNKNOWN_VC);
    SAME(abt_table_held(&table, 0, 100, &held), ABT_OK);
    SAME(held, 0x5120);
    /* The policers went with their connections. */
    SAME(abt_table_arrive(&table, 1, 7, 10), ABT_NO_RATE);
    SAME(abt_table_arrive(&table, 0, 100, 1001), ABT_TOO_EARLY);
    rm.seq = 6;
    rm.ask = 0;
    SAME(abt_table_request(&table, &rm, &answer), ABT_PASS);
    SAME(abt_table_remove(&table, 0, 100), ABT_OK);
    SAME(abt_table_remove(&table, 1, 7), ABT_OK);
    SAME(abt_table_count(&table, &count), ABT_OK);
    SAME(count, 0);
    /* What comes in anew has no number and no policer of the one before. */
    SAME(abt_table_add(&table, 0, 100), ABT_OK);
    SAME(abt_table_arrive(&table, 0, 100, 1002), ABT_NOT_INGRESS);
    rm.seq = 1;
    SAME(abt_table_request(&table, &rm, &answer), ABT_PASS);
}

/* What plain C keeps of the connections. */
enum { CHANNELS = 1500 };
static struct plain {
    int is_there, is_open, is_policed;
    uint32_t newest;
    uint16_t ask;
    abt_policer policer;
} kept[CHANNELS];

static uint64_t sum_of_all(uint64_t *count)
{
    uint64_t sum = 0;
    *count = 0;
    for (int i = 0; i < CHANNELS; i++) {
        *count += kept[i].is_there != 0;
        sum += kept[i].is_there && kept[i].is_open ? abt_rate_units(kept[i].ask) : 0;
    }
    return sum;
}

/* Channels of two VPIs, more of them than the table has places. */
static void random_calls(void)
{
    static abt_table table;
    const uint64_t capacity = UINT64_C(1) << 30;
    uint64_t seed = 9, total, count;
    int removed = 0, refused = 0, held_by_some = 0, full = 0;
    abt_table_init(&table, capacity);
    for (uint32_t call = 1; call < 200000; call++) {
        int which = (int)below(&seed, CHANNELS);
        uint16_t vpi = (uint16_t)(which % 2), vci = (uint16_t)(which / 2);
        struct plain *it = &kept[which];
        uint64_t sum = sum_of_all(&count);
        abt_rm answer, rm = {ABT_REQUEST, call, vpi, vci, 0, below(&seed, 3) ? 0 : (uint16_t)(0x5800 | below(&seed, 1024))};
        int fits = sum - (it->is_open ? abt_rate_units(it->ask) : 0) + abt_rate_units(rm.ask) <= capacity, is_policed = below(&seed, 2) != 0;
        uint16_t held;
        switch (below(&seed, 3)) {
        case 0:
            SAME(is_policed ? abt_table_add_ingress(&table, vpi, vci, 100) : abt_table_add(&table, vpi, vci),
                 it->is_there ? ABT_KNOWN : count == ABT_TABLE_PLACES ? ABT_FULL : ABT_OK);
            full += !it->is_there && count == ABT_TABLE_PLACES;
            if (!it->is_there && count < ABT_TABLE_PLACES) {
                *it = (struct plain){.is_there = 1, .is_policed = is_policed};
                abt_policer_init(&it->policer, 100);
            }
            break;
        case 1:
            SAME(abt_table_request(&table, &rm, &answer), !it->is_there ? ABT_UNKNOWN_VC : fits ? ABT_PASS : ABT_REFUSE);
            refused += it->is_there && !fits;
            if (it->is_there)
                *it = (struct plain){1, fits, it->is_policed, call, rm.ask, it->policer};
            break;
        default:
            if (below(&seed, 3))
                break;
            SAME(abt_table_remove(&table, vpi, vci), !it->is_there ? ABT_UNKNOWN_VC : it->is_open && it->ask ? ABT_HELD : ABT_OK);
            held_by_some += it->is_there && it->is_open && it->ask;
            removed += it->is_there && !(it->is_open && it->ask);
            if (it->is_there && !(it->is_open && it->ask))
                it->is_there = it->is_open = 0;
        }
        SAME(abt_table_held(&table, vpi, vci, &held), it->is_there ? ABT_OK : ABT_UNKNOWN_VC);
        if (it->is_there) {
            abt_reservation told;
            SAME(held, it->is_open ? it->ask : 0);
            SAME(abt_table_reservation(&table, vpi, vci, &told), ABT_OK);
            SAME(told.newest == it->newest && told.is_open == (uint32_t)it->is_open && told.floor == 0 && told.ask == it->ask, 1);
            SAME(abt_table_arrive(&table, vpi, vci, call), it->is_policed ? abt_policer_arrive(&it->policer, call, held) : (abt_outcome)ABT_NOT_INGRESS);
        }
        sum = sum_of_all(&count);
        SAME(abt_table_total(&table, &total), ABT_OK);
        SAME(total, sum);
        SAME(abt_table_count(&table, &total), ABT_OK);
        SAME(total, count);
    }
    SAME(removed > 1000 && refused > 1000 && held_by_some > 100 && full > 10, 1);
}

int main(void)
{
    worked();
    random_calls();
    return 0;
}
