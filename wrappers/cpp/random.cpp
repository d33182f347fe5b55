/* Random calls of abt.hpp, each beside the call of abt.h over a state of C: both give the same, whether a value or a fault. What connections
 * hold is also added up here, by a model that keeps nothing but what it was answered. */
#include <abt.hpp>
#include <cstdio>
#include <cstdlib>
#include <cstring>
#include <map>
#include <vector>

#define SAME(found, wanted)                                                                                                            \
    do {                                                                                                                               \
        if (!((found) == (wanted))) {                                                                                                  \
            std::fprintf(stderr, "%s:%d: %s differs\n", __FILE__, __LINE__, #found);                                                   \
            std::exit(1);                                                                                                              \
        }                                                                                                                              \
    } while (false)

using abt::code;
using abt::picoseconds;
using abt::units;

/* Random numbers (xorshift64*), the same each time. */
struct source_of_numbers {
    std::uint64_t seed;
    std::uint64_t draw()
    {
        seed ^= seed >> 12;
        seed ^= seed << 25;
        seed ^= seed >> 27;
        return seed * UINT64_C(2685821657736338717);
    }
    std::uint64_t below(std::uint64_t bound) { return draw() % bound; }
    std::uint64_t number()
    {
        const std::uint64_t some[] = {0, 1, 2, 100, 0x5120, 0x5258, UINT64_C(1000000000000), UINT64_C(1) << 61, UINT64_MAX};
        std::uint64_t which = below(10);
        return which < 9 ? some[which] : draw();
    }
    std::uint16_t half() { return static_cast<std::uint16_t>(number()); }
    abt::request request()
    {
        std::uint16_t vpi = below(8) ? 1 : half(), vci = below(3) ? static_cast<std::uint16_t>(100 + below(4)) : half();
        return {vpi, vci, static_cast<std::uint32_t>(below(4) ? below(40) : number()), code(below(4) ? 0 : half()), code(half())};
    }
};

/* What C answers of a value that C++ gives, or of its fault. */
template <class T> static void same(abt_outcome outcome, const abt::result<T> &found, const T &wanted)
{
    SAME(found.has_value(), outcome < ABT_FAULTS);
    if (found.has_value())
        SAME(found, wanted);
    else
        SAME(found.is(static_cast<abt::fault>(outcome)), true);
}

static void same(abt_outcome outcome, std::size_t judged, const abt::burst &found)
{
    SAME(found.judged, judged);
    SAME(found.why, outcome < ABT_FAULTS ? std::nullopt : std::optional<abt::fault>(static_cast<abt::fault>(outcome)));
}

static void same(abt_outcome outcome, std::uint64_t next, const abt::emission &found)
{
    SAME(found.why, outcome < ABT_FAULTS ? std::nullopt : std::optional<abt::fault>(static_cast<abt::fault>(outcome)));
    SAME(found.next.count(), next);
}

static void policers(source_of_numbers &numbers)
{
    const std::uint64_t tau = numbers.number();
    abt_gcra raw_gcra{};
    abt_bucket raw_bucket{};
    abt_policer raw_policer{};
    abt_shaper raw_shaper{};
    auto gcra = abt::gcra::with(picoseconds(tau));
    auto bucket = abt::bucket::with(picoseconds(tau));
    auto policer = abt::policer::with(picoseconds(tau));
    auto shaper = abt::shaper::not_before(picoseconds(tau));
    SAME(bool(gcra), abt_gcra_init(&raw_gcra, tau) == ABT_OK);
    SAME(bool(bucket), abt_bucket_init(&raw_bucket, tau) == ABT_OK);
    SAME(bool(policer), abt_policer_init(&raw_policer, tau) == ABT_OK);
    SAME(bool(shaper), abt_shaper_init(&raw_shaper, tau) == ABT_OK);
    std::uint64_t clock = 0;
    for (int i = 0; i < 40 && gcra; i++) {
        std::uint64_t at = numbers.below(4) ? clock + numbers.below(3000000) : numbers.number(), spacing = numbers.number(), next = 0;
        code held = code(numbers.below(4) ? 0x7000 | numbers.below(512) : numbers.half());
        clock = at < ABT_ARRIVE_MAX && at > clock ? at : clock;
        abt_outcome outcome = abt_gcra_check(&raw_gcra, at, spacing);
        same(outcome, gcra->check(picoseconds(at), picoseconds(spacing)), static_cast<abt::verdict>(outcome));
        SAME(abt_bucket_check(&raw_bucket, at, spacing), outcome);
        same(outcome, bucket->check(picoseconds(at), picoseconds(spacing)), static_cast<abt::verdict>(outcome));
        outcome = abt_policer_arrive(&raw_policer, at, static_cast<std::uint16_t>(held));
        same(outcome, policer->arrive(picoseconds(at), held), static_cast<abt::verdict>(outcome));
        std::uint64_t moments[8];
        std::uint8_t found[8] = {}, wanted[8] = {};
        std::size_t judged = 0, count = numbers.below(8);
        for (std::size_t k = 0; k < count; k++)
            moments[k] = clock = numbers.below(50) ? clock + numbers.below(3000000) : clock / 2;
        outcome = abt_policer_arrive_burst(&raw_policer, static_cast<std::uint16_t>(held), moments, wanted, count, &judged);
        same(outcome, judged, policer->arrive(moments, found, count, held));
        SAME(std::memcmp(found, wanted, sizeof found), 0);
        if (!shaper)
            continue;
        outcome = abt_shaper_emit(&raw_shaper, at, static_cast<std::uint16_t>(held), &next);
        same(outcome, next, shaper->emit(picoseconds(at), held));
        outcome = abt_shaper_next(&raw_shaper, &next);
        same(outcome, shaper->next(), picoseconds(next));
    }
}

/* The sum of what a table's connections hold, by what became of their requests and answers. */
class holds {
public:
    void took(const abt::request &it, abt_outcome outcome)
    {
        if (outcome == ABT_PASS || outcome == ABT_REFUSE) newest_[{it.vpi, it.vci}] = {it.seq, abt::units_of(outcome == ABT_PASS ? it.ask : it.floor)};
    }
    void took(const abt::answer &it, abt_outcome outcome)
    {
        if (outcome == ABT_PASS && !it.granted) newest_[{it.to.vpi, it.to.vci}] = {it.to.seq, abt::units_of(it.to.floor)};
    }
    void removed(std::uint16_t vpi, std::uint16_t vci) { newest_.erase({vpi, vci}); }
    std::uint64_t sum() const
    {
        std::uint64_t sum = 0;
        for (const auto &it : newest_) sum += static_cast<std::uint64_t>(it.second.held);
        return sum;
    }

private:
    struct kept {
        std::uint32_t seq;
        units held;
    };
    std::map<std::pair<std::uint16_t, std::uint16_t>, kept> newest_;
};

static abt_rm raw_of(const abt::request &it)
{
    return {ABT_REQUEST, it.seq, it.vpi, it.vci, static_cast<std::uint16_t>(it.floor), static_cast<std::uint16_t>(it.ask)};
}

static void same(abt_outcome outcome, const abt_rm &back, const abt::result<abt::decided> &found)
{
    SAME(found.has_value(), outcome < ABT_FAULTS);
    if (!found.has_value()) {
        SAME(found.is(static_cast<abt::fault>(outcome)), true);
        return;
    }
    const abt::decided &it = *found;
    SAME(it.what, static_cast<abt::decision>(outcome));
    SAME(it.back.has_value(), outcome == ABT_REFUSE);
    if (it.back) {
        abt_rm no = raw_of(it.back->to);
        no.kind = ABT_NO;
        SAME(std::memcmp(&no, &back, sizeof no), 0);
    }
}

static void messages(source_of_numbers &numbers, abt::table &table, abt_table &raw, holds &model)
{
    abt::request request = numbers.request();
    abt::answer answer{request, numbers.below(2) == 0};
    abt_rm rm = raw_of(request), back{};
    abt_outcome outcome = abt_table_request(&raw, &rm, &back);
    same(outcome, back, table.take(request));
    model.took(request, outcome);
    abt_rm yes{};
    outcome = abt_rm_turn(&rm, &yes);
    same(outcome, abt::turn(request), abt::answer{{yes.vpi, yes.vci, yes.seq, code(yes.floor), code(yes.ask)}, true});
    rm.kind = answer.granted ? ABT_YES : ABT_NO;
    outcome = abt_table_answer(&raw, &rm);
    same(outcome, table.take(answer), static_cast<abt::decision>(outcome));
    model.took(answer, outcome);
    abt::cell cell{}, sent{};
    request = numbers.request();
    if (auto written = abt::write(request)) cell = *written;
    cell[numbers.below(cell.size())] ^= static_cast<std::uint8_t>(numbers.below(2));
    outcome = abt_table_cell(&raw, cell.data(), cell.size(), sent.data(), sent.size());
    auto served = table.take(cell);
    SAME(served.has_value(), outcome < ABT_FAULTS);
    if (served.has_value()) {
        SAME(served->what, static_cast<abt::decision>(outcome));
        SAME(served->sent, outcome == ABT_PASS || outcome == ABT_REFUSE ? std::optional<abt::cell>(sent) : std::nullopt);
        model.took(std::get<abt::request>(*abt::read(cell)), outcome);
    }
}

static void ports(source_of_numbers &numbers)
{
    static abt::table table;
    static abt_table raw;
    const std::uint64_t capacity = numbers.below(2) ? 512000 : UINT64_C(1) << 40;
    holds model;
    SAME(bool(table.begin(units(capacity))), abt_table_init(&raw, capacity) == ABT_OK);
    for (int i = 0; i < 400; i++) {
        std::uint16_t vpi = numbers.below(20) ? 1 : numbers.half(), vci = static_cast<std::uint16_t>(100 + numbers.below(5));
        std::uint64_t tau = numbers.number(), at = 1000 * static_cast<std::uint64_t>(i) + numbers.below(1000), word = 0;
        abt_outcome outcome = abt_table_add(&raw, vpi, static_cast<std::uint16_t>(vci + 2));
        same(outcome, table.add(vpi, static_cast<std::uint16_t>(vci + 2)), abt::done{});
        outcome = abt_table_add_ingress(&raw, vpi, vci, tau);
        same(outcome, table.add(vpi, vci, picoseconds(tau)), abt::done{});
        messages(numbers, table, raw, model);
        outcome = abt_table_arrive(&raw, vpi, vci, at);
        same(outcome, table.arrive(vpi, vci, picoseconds(at)), static_cast<abt::policed>(outcome));
        abt_arrival cells[6];
        std::uint8_t found[6] = {}, wanted[6] = {};
        std::size_t judged = 0, count = numbers.below(6);
        for (std::size_t k = 0; k < count; k++)
            cells[k] = {at + k, 1, static_cast<std::uint16_t>(100 + numbers.below(8))};
        outcome = abt_table_arrive_burst(&raw, cells, wanted, count, &judged);
        same(outcome, judged, table.arrive(cells, found, count));
        SAME(std::memcmp(found, wanted, sizeof found), 0);
        outcome = abt_table_remove(&raw, vpi, vci);
        same(outcome, table.remove(vpi, vci), outcome == ABT_OK);
        if (outcome == ABT_OK) model.removed(vpi, vci);
        const std::uint64_t other = numbers.below(9) ? capacity : tau;
        outcome = abt_table_set_capacity(&raw, other);
        same(outcome, table.set_capacity(units(other)), abt::done{});
        outcome = abt_table_capacity(&raw, &word);
        same(outcome, table.capacity(), units(word));
        std::uint16_t half = 0;
        abt_reservation kept{};
        outcome = abt_table_held(&raw, vpi, vci, &half);
        same(outcome, table.held(vpi, vci), outcome == ABT_OK ? std::optional<code>(code(half)) : std::nullopt);
        outcome = abt_table_reservation(&raw, vpi, vci, &kept);
        abt::reservation told{kept.newest, kept.is_open != 0, code(kept.floor), code(kept.ask)};
        same(outcome, table.reservation(vpi, vci), outcome == ABT_OK ? std::optional<abt::reservation>(told) : std::nullopt);
        outcome = abt_table_count(&raw, &word);
        same(outcome, table.count(), word);
        outcome = abt_table_total(&raw, &word);
        same(outcome, table.total(), units(word));
        SAME(word, model.sum());
    }
}

/* A source over writes that fail now and then, and over restarts, beside one in C: its numbers rise. */
static void a_source(source_of_numbers &numbers)
{
    std::vector<std::uint8_t> store(4);
    std::uint32_t newest = 0;
    for (int life = 0; life < 60; life++) {
        abt_source raw;
        abt_rm rm{};
        std::uint64_t now = 0, moment = 0;
        std::uint32_t word = 0;
        SAME(abt_source_init(&raw, 1, 100), ABT_OK);
        SAME(abt_source_start(&raw, store.data(), store.size(), now), ABT_OK);
        auto started = abt::down::of(1, 100).value();
        abt::idle idle = std::move(std::get<abt::idle>(std::move(started).start(store.data(), store.size(), picoseconds(now))));
        for (std::uint64_t asks = numbers.below(5); asks > 0; asks--) {
            code rate = code(numbers.half());
            abt::record octets{};
            abt_outcome outcome = abt_source_ask(&raw, static_cast<std::uint16_t>(rate), octets.data(), octets.size(), &rm);
            auto asked = std::move(idle).ask(rate);
            if (auto *writing = std::get_if<abt::writing<abt::idle>>(&asked)) {
                SAME(outcome, ABT_WRITE_FIRST);
                SAME(writing->to_write(), octets);
                SAME(writing->phase(), abt::phase::writing);
                auto became = numbers.below(3) ? abt::became::written : abt::became::failed_before;
                outcome = abt_source_wrote(&raw, static_cast<std::uint32_t>(became), &rm);
                auto wrote = std::move(*writing).wrote(became);
                if (auto *refused = std::get_if<abt::refused<abt::idle>>(&wrote)) {
                    SAME(outcome, static_cast<abt_outcome>(refused->why));
                    idle = std::move(refused->source);
                    continue;
                }
                store.assign(octets.begin(), octets.end());
                asked = std::move(std::get<abt::asked>(wrote));
            }
            SAME(outcome, ABT_ASKED);
            auto out = std::move(std::get<abt::asked>(asked));
            abt_rm again = raw_of(out.out);
            SAME(std::memcmp(&again, &rm, sizeof rm), 0);
            SAME(out.out.seq > newest, true);
            newest = out.out.seq;
            SAME(abt_source_last(&raw, &word), ABT_OK);
            SAME(out.source.last(), word);
            SAME(word, newest);
            bool granted = numbers.below(2) == 0;
            rm.kind = granted ? ABT_YES : ABT_NO;
            outcome = abt_source_answer(&raw, &rm);
            auto heard = std::move(out.source).hear(abt::answer{out.out, granted});
            SAME(outcome, granted ? ABT_RAISED : ABT_REFUSED);
            idle = granted ? std::move(std::get<abt::raised>(heard).source) : std::move(std::get<abt::lowered>(heard).source);
            outcome = abt_source_next(&raw, &moment);
            same(outcome, idle.next(), picoseconds(moment));
            now = numbers.below(4) ? moment : numbers.number();
            std::uint64_t next = 0;
            outcome = abt_source_emit(&raw, now, &next);
            same(outcome, next, idle.emit(picoseconds(now)));
        }
    }
}

int main()
{
    source_of_numbers numbers{17};
    for (int i = 0; i < 1000; i++)
        policers(numbers);
    for (int i = 0; i < 40; i++)
        ports(numbers);
    for (int i = 0; i < 40; i++)
        a_source(numbers);
    std::puts("random: passed");
}
