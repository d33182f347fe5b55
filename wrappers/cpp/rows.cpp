/* Worked rows of abt.hpp: each call once as it is meant, and misuse that no type refuses. */
#include <abt.hpp>
#include <cstdio>
#include <cstdlib>
#include <string_view>

#define HOLDS(what)                                                                                                                    \
    do {                                                                                                                               \
        if (!(what)) {                                                                                                                 \
            std::fprintf(stderr, "%s:%d: not so: %s\n", __FILE__, __LINE__, #what);                                                    \
            std::exit(1);                                                                                                              \
        }                                                                                                                              \
    } while (false)

using abt::code;
using abt::fault;
using abt::picoseconds;
using abt::units;

static const abt::request ASK{1, 100, 1, code(0), code(0x5258)};

static void rates()
{
    HOLDS(abt::units_of(code(0x53e8)) == units(512000));
    HOLDS(abt::canonical(code(0xd3e8)) == code(0x53e8));
    HOLDS(abt::spacing(code(0x53e8)) == std::chrono::milliseconds(1));
    HOLDS(abt::at_most(units(512001)) == code(0x53e8));
    HOLDS(abt::at_least(units(512000)) == code(0x53e8));
    HOLDS(abt::at_least(units(UINT64_MAX)).is(fault::units_range));
}

static void cells()
{
    HOLDS(abt::crc10(abt::payload{}) == std::uint16_t(0));
    abt::cell octets = abt::write(ASK).value();
    HOLDS(octets[4] == 0x02 && octets[5] == 0x04);
    const auto written = abt::write(ASK);
    HOLDS(written.value() == octets && *written == octets && written->size() == ABT_CELL_LENGTH);
    HOLDS(abt::read(octets) == abt::rm(ASK));
    HOLDS(abt::read(abt::write(abt::answer{ASK, true}).value()) == abt::rm(abt::answer{ASK, true}));
    HOLDS(abt::read(abt::cell{}).is(fault::not_rm));
    HOLDS(abt::write(abt::request{4096, 0, 1, code(0), code(0)}).is(fault::vpi_range));
    HOLDS(abt::turn(ASK) == (abt::answer{ASK, true}));
    HOLDS(abt::turn(abt::request{1, 100, 0, code(0), code(0)}).is(fault::seq_zero));
#if defined(__cpp_lib_span)
    HOLDS(abt::read(std::span(octets).first(51)).is(fault::length));
#endif
}

static void policers()
{
    auto gcra = abt::gcra::with(picoseconds(0)).value();
    auto bucket = abt::bucket::with(picoseconds(0)).value();
    for (std::uint64_t at : {10, 14, 15}) {
        abt::verdict wanted = at == 14 ? abt::verdict::too_early : abt::verdict::conforming;
        HOLDS(gcra.check(picoseconds(at), picoseconds(5)) == wanted);
        HOLDS(bucket.check(picoseconds(at), picoseconds(5)) == wanted);
    }
    HOLDS(gcra.check(picoseconds(14), picoseconds(5)).is(fault::clock_back));
    HOLDS(bucket.check(picoseconds(15), picoseconds(0)).is(fault::spacing_range));
    HOLDS(abt::bucket::with(picoseconds(UINT64_MAX)).is(fault::tau_range) && abt::gcra::with(picoseconds(UINT64_MAX)).is(fault::tau_range));
    auto policer = abt::policer::with(picoseconds(200)).value();
    HOLDS(policer.arrive(picoseconds(5), code(0)) == abt::verdict::no_rate);
    HOLDS(policer.arrive(picoseconds(5), code(0x5120)) == abt::verdict::conforming);
    HOLDS(policer.arrive(picoseconds(6), code(0x5120)) == abt::verdict::too_early);
    HOLDS(abt::policer::with(picoseconds(UINT64_MAX)).is(fault::tau_range));
    const std::array<std::uint64_t, 3> at{7, 8, 6};
    std::array<std::uint8_t, 3> verdicts{};
    abt::burst stopped = policer.arrive(at.data(), verdicts.data(), at.size(), code(0x5120));
    HOLDS(stopped.why == fault::clock_back && stopped.judged == 2 && verdicts[1] == ABT_TOO_EARLY && verdicts[2] == 0);
#if defined(__cpp_lib_span)
    HOLDS(policer.arrive(std::span(at).first(2), verdicts, code(0)).why == fault::length);
    HOLDS(!policer.arrive(std::span(at).last(1), std::span(verdicts).last(1), code(0)));
#endif
}

static void shapers()
{
    auto shaper = abt::shaper::not_before(picoseconds(7)).value();
    abt::emission first = shaper.emit(picoseconds(7), code(0x53e8)), second = shaper.emit(picoseconds(8), code(0x53e8));
    HOLDS(first && first.next == picoseconds(1000000007));
    HOLDS(second.why == fault::too_soon && second.next == first.next && shaper.next() == first.next);
    HOLDS(abt::shaper::not_before(picoseconds(UINT64_MAX)).is(fault::time_range));
}

static void sources()
{
    const std::array<std::uint8_t, 4> empty{};
    abt::down fresh = abt::down::of(1, 100).value();
    auto started = std::move(fresh).start(empty.data(), empty.size(), picoseconds(0));
    abt::idle idle = std::move(std::get<abt::idle>(started));
    auto first = std::move(idle).ask(code(0x5120));
    auto &writing = std::get<abt::writing<abt::idle>>(first);
    HOLDS(writing.to_write() != abt::record{});
    auto failed = std::move(writing).wrote(abt::became::failed_before);
    auto &back = std::get<abt::refused<abt::idle>>(failed);
    HOLDS(back.why == fault::not_kept);
    HOLDS(back.source.emit(picoseconds(1)).why == fault::zero);
    auto again = std::move(back.source).ask(code(0x5120));
    auto wrote = std::move(std::get<abt::writing<abt::idle>>(again)).wrote(abt::became::written);
    abt::asked asked = std::move(std::get<abt::asked>(wrote));
    HOLDS(asked.source.again() == asked.out && asked.out.seq == 1 && asked.out.ask == code(0x5120));
    abt::request other = asked.out;
    other.seq = 2;
    auto heard = std::move(asked.source).hear(abt::answer{other, true});
    abt::asking asking = std::move(std::get<abt::ignored>(heard).source);
    heard = std::move(asking).hear(abt::answer{asked.out, true});
    abt::idle raised = std::move(std::get<abt::raised>(heard).source);
    HOLDS(raised.rate() == code(0x5120));
    HOLDS(raised.phase() == abt::phase::idle && raised.last() == std::uint32_t(1) && raised.next() == std::chrono::seconds(1));
    HOLDS(raised.emit(picoseconds(2)).why == fault::too_soon); /* a store without a spacing holds off for the longest one */
    HOLDS(raised.emit(std::chrono::seconds(1)).next == picoseconds(1002500000000));
    HOLDS(asking.rate().is(fault::no_state)); /* it was given away */
    auto second = std::move(raised).ask(code(0));
    auto no = std::move(std::get<abt::asked>(second).source).hear(abt::answer{std::get<abt::asked>(second).out, false});
    auto crashed = std::move(std::get<abt::lowered>(no).source).crash();
    auto refused = std::move(std::get<abt::down>(crashed)).start(empty.data(), 3, picoseconds(0));
    HOLDS(std::get<abt::refused<abt::down>>(refused).why == fault::length);
    HOLDS(abt::down::of(4096, 0).is(fault::vpi_range));
}

static void ports()
{
    auto port = abt::port::of(units(512000)).value();
    auto one = abt::connection::of(1, 100).value(), two = abt::connection::of(1, 101).value();
    HOLDS(port.take(one, ASK)->what == abt::decision::pass);
    abt::request more = ASK;
    more.vci = 101;
    auto no = port.take(two, more).value();
    HOLDS(no.what == abt::decision::refuse && *no.back == (abt::answer{more, false}));
    HOLDS(port.take(two, ASK)->what == abt::decision::unknown_vc);
    HOLDS(port.take(one, abt::answer{ASK, true}) == abt::decision::pass);
    HOLDS(port.total() == units(307200) && one.held() == code(0x5258) && port.capacity() == units(512000));
    HOLDS(one.reservation() == (abt::reservation{1, true, code(0), code(0x5258)}));
    HOLDS(port.set_capacity(units(1)).is(fault::below_sum) && port.set_capacity(units(307200)));
    HOLDS(abt::port::of(units(UINT64_MAX)).is(fault::capacity_range));
    auto moved = std::move(port);
    HOLDS(port.total().is(fault::no_state) && moved.total() == units(307200));
}

static void tables()
{
    static abt::table table;
    HOLDS(table.add(1, 100).is(fault::no_state));
    HOLDS(table.begin(units(512000)) && table.add(1, 100) && table.add(1, 101));
    HOLDS(table.add(1, 100).is(fault::known));
    abt::cell octets = abt::write(ASK).value();
    auto sent = table.take(octets).value();
    HOLDS(sent.what == abt::decision::pass && sent.sent == octets);
    abt::request more = ASK;
    more.vci = 101;
    HOLDS(table.take(more)->what == abt::decision::refuse);
    more.vci = 102;
    auto dropped = table.take(abt::write(more).value()).value();
    HOLDS(dropped.what == abt::decision::unknown_vc && !dropped.sent);
    HOLDS(table.take(abt::answer{ASK, false}) == abt::decision::pass);
    HOLDS(table.held(1, 100) == std::optional<code>(code(0)) && table.held(1, 102) == std::optional<code>());
    HOLDS(table.total() == units(0) && table.set_capacity(units(0)));
    HOLDS(table.take(abt::cell{}).is(fault::not_rm));
    HOLDS(table.capacity() == units(0) && table.count() == std::uint64_t(2));
    HOLDS(table.reservation(1, 100) == std::optional(abt::reservation{1, false, code(0), code(0x5258)}));
    HOLDS(table.remove(1, 100) == true && table.remove(1, 100) == false);
    HOLDS(table.add(1, 100, picoseconds(200)) && table.arrive(1, 100, picoseconds(5)) == abt::policed::no_rate);
    HOLDS(table.arrive(1, 101, picoseconds(5)).is(fault::not_ingress));
    HOLDS(table.set_capacity(units(512000)) && table.take(ASK)->what == abt::decision::pass && table.remove(1, 100).is(fault::held));
    const std::array<abt_arrival, 3> arrivals{abt_arrival{6, 1, 100}, {6, 1, 7}, {5, 1, 100}};
    std::array<std::uint8_t, 3> outcomes{};
    abt::burst burst = table.arrive(arrivals.data(), outcomes.data(), arrivals.size());
    HOLDS(burst.why == fault::clock_back && burst.judged == 2 && outcomes[0] == ABT_CONFORMING && outcomes[1] == ABT_UNKNOWN_VC);
#if defined(__cpp_lib_span)
    HOLDS(table.arrive(arrivals, std::span(outcomes).first(1)).why == fault::length);
#endif
}

int main()
{
    rates();
    cells();
    policers();
    shapers();
    sources();
    ports();
    tables();
#if defined(__cpp_exceptions)
    try {
        abt::at_least(units(UINT64_MAX)).value();
        HOLDS(false);
    } catch (const abt::error &why) {
        HOLDS(why.why() == fault::units_range && std::string_view(why.what()) == "UnitsRange");
    }
    try {
        const auto none = abt::at_least(units(UINT64_MAX));
        HOLDS(*none == code(0));
        HOLDS(false);
    } catch (const abt::error &why) {
        HOLDS(why.why() == fault::units_range);
    }
#endif
    std::puts("rows: passed");
}
