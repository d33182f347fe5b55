/*
 * abt.hpp: the calls of abt.h for C++17 and later, header only. Each call makes the one call of abt.h that its comment names, and nothing
 * else; the rules stand there. What differs:
 *
 * - Moments and durations are abt::picoseconds of std::chrono. Rates are abt::code or abt::units, which aren't taken for one another.
 * - Verdicts and decisions are enums of their own; a call that can be refused gives an abt::result with a value or a fault, by its name in C.
 * - A source's state is a type: what its state doesn't allow doesn't compile. A source, a port, a connection and a table can be moved and not
 *   copied. What was moved from is no state of any kind, so its calls give fault::no_state.
 * - Nothing is allocated and nothing is thrown, but by result::value of a fault, where exceptions are compiled.
 */
#ifndef ABT_HPP
#define ABT_HPP

#include <abt.h>
#include <abt_result.hpp>

#include <array>
#include <chrono>
#include <cstddef>
#include <cstdint>
#include <optional>
#include <ratio>
#include <utility>
#include <variant>
#if defined(__has_include)
#if __has_include(<version>)
#include <version>
#endif
#endif
#if defined(__cpp_lib_span)
#include <span>
#endif

namespace abt {

/* ---- moments and rates ---- */

using picoseconds = std::chrono::duration<std::uint64_t, std::pico>;

/* A rate, in units of 1/512 cell per second. */
enum class units : std::uint64_t {};

/* A rate as RM cells carry it. */
enum class code : std::uint16_t {};

/* ABT_UNITS_PER_CELL_PER_SECOND: 400 cells per second are units(400 * units_per_cell_per_second) */
inline constexpr std::uint64_t units_per_cell_per_second = ABT_UNITS_PER_CELL_PER_SECOND;
/* ABT_PICOSECONDS_PER_SECOND */
inline constexpr std::uint64_t picoseconds_per_second = ABT_PICOSECONDS_PER_SECOND;

/* abt_rate_units */
inline units units_of(code it) noexcept { return static_cast<units>(abt_rate_units(static_cast<std::uint16_t>(it))); }
/* abt_rate_canonical */
inline code canonical(code it) noexcept { return static_cast<code>(abt_rate_canonical(static_cast<std::uint16_t>(it))); }
/* abt_rate_spacing: 0 for the rate 0 */
inline picoseconds spacing(code it) noexcept { return picoseconds(abt_rate_spacing(static_cast<std::uint16_t>(it))); }
/* abt_rate_at_most */
inline code at_most(units it) noexcept { return static_cast<code>(abt_rate_at_most(static_cast<std::uint64_t>(it))); }
/* abt_rate_at_least */
inline result<code> at_least(units it) noexcept
{
    std::uint16_t found = 0;
    abt_outcome outcome = abt_rate_at_least(static_cast<std::uint64_t>(it), &found);
    return detail::checked(outcome, static_cast<code>(found));
}

/* ---- RM cells ---- */

using cell = std::array<std::uint8_t, ABT_CELL_LENGTH>;
using payload = std::array<std::uint8_t, ABT_PAYLOAD_LENGTH>;

struct request {
    std::uint16_t vpi, vci;
    std::uint32_t seq;
    code floor, ask;
    bool operator==(const request &o) const noexcept
    {
        return vpi == o.vpi && vci == o.vci && seq == o.seq && floor == o.floor && ask == o.ask;
    }
};

/* An answer to a request, which repeats it. */
struct answer {
    request to;
    bool granted;
    bool operator==(const answer &o) const noexcept { return to == o.to && granted == o.granted; }
};

using rm = std::variant<request, answer>;

namespace detail {
inline abt_rm raw_of(const request &it) noexcept
{
    return {ABT_REQUEST, it.seq, it.vpi, it.vci, static_cast<std::uint16_t>(it.floor), static_cast<std::uint16_t>(it.ask)};
}
inline abt_rm raw_of(const answer &it) noexcept
{
    abt_rm raw = raw_of(it.to);
    raw.kind = it.granted ? ABT_YES : ABT_NO;
    return raw;
}
inline request request_of(const abt_rm &raw) noexcept
{
    return {raw.vpi, raw.vci, raw.seq, static_cast<code>(raw.floor), static_cast<code>(raw.ask)};
}
inline result<rm> read(const std::uint8_t *octets, std::size_t length) noexcept
{
    abt_rm raw{};
    abt_outcome outcome = abt_rm_read(octets, length, &raw);
    if (refused(outcome)) return why(outcome);
    return raw.kind == ABT_REQUEST ? rm(request_of(raw)) : rm(answer{request_of(raw), raw.kind == ABT_YES});
}
inline result<cell> write(const abt_rm &raw) noexcept
{
    cell octets{};
    abt_outcome outcome = abt_rm_write(&raw, octets.data(), octets.size());
    return checked(outcome, octets);
}
} // namespace detail

/* abt_crc10 */
inline result<std::uint16_t> crc10(const payload &octets) noexcept
{
    std::uint16_t check = 0;
    abt_outcome outcome = abt_crc10(octets.data(), octets.size(), &check);
    return detail::checked(outcome, check);
}
/* abt_rm_read */
inline result<rm> read(const cell &octets) noexcept { return detail::read(octets.data(), octets.size()); }
#if defined(__cpp_lib_span)
inline result<rm> read(std::span<const std::uint8_t> octets) noexcept { return detail::read(octets.data(), octets.size()); }
#endif
/* abt_rm_write */
inline result<cell> write(const request &it) noexcept { return detail::write(detail::raw_of(it)); }
inline result<cell> write(const answer &it) noexcept { return detail::write(detail::raw_of(it)); }

/* abt_rm_turn: the yes to a request that the last port of its path passed */
inline result<answer> turn(const request &it) noexcept
{
    abt_rm raw = detail::raw_of(it), yes{};
    abt_outcome outcome = abt_rm_turn(&raw, &yes);
    return detail::checked(outcome, answer{detail::request_of(yes), true});
}

/* ---- GCRA, policer, shaper ---- */

enum class [[nodiscard]] verdict : abt_outcome { conforming = ABT_CONFORMING, too_early = ABT_TOO_EARLY, no_rate = ABT_NO_RATE };
template <> inline constexpr bool is_compared<verdict> = true;

/* A burst: how many cells got a verdict, and why the one after them got none, if there is one. */
struct burst {
    std::size_t judged;
    std::optional<fault> why;
    explicit operator bool() const noexcept { return !why; }
};

namespace detail {
inline burst burst_of(abt_outcome outcome, std::size_t judged) noexcept
{
    return {judged, refused(outcome) ? std::optional<fault>(why(outcome)) : std::nullopt};
}
} // namespace detail

/* The algorithm by virtual scheduling. */
class gcra {
public:
    /* abt_gcra_init */
    static result<gcra> with(picoseconds tau) noexcept
    {
        gcra it;
        abt_outcome outcome = abt_gcra_init(&it.raw_, tau.count());
        return detail::checked(outcome, it);
    }
    /* abt_gcra_check */
    result<verdict> check(picoseconds at, picoseconds spacing) noexcept
    {
        abt_outcome outcome = abt_gcra_check(&raw_, at.count(), spacing.count());
        return detail::checked(outcome, static_cast<verdict>(outcome));
    }

private:
    gcra() noexcept = default;
    abt_gcra raw_{};
};

/* The algorithm as a leaky bucket. */
class bucket {
public:
    /* abt_bucket_init */
    static result<bucket> with(picoseconds tau) noexcept
    {
        bucket it;
        abt_outcome outcome = abt_bucket_init(&it.raw_, tau.count());
        return detail::checked(outcome, it);
    }
    /* abt_bucket_check */
    result<verdict> check(picoseconds at, picoseconds spacing) noexcept
    {
        abt_outcome outcome = abt_bucket_check(&raw_, at.count(), spacing.count());
        return detail::checked(outcome, static_cast<verdict>(outcome));
    }

private:
    bucket() noexcept = default;
    abt_bucket raw_{};
};

class policer {
public:
    /* abt_policer_init */
    static result<policer> with(picoseconds tau) noexcept
    {
        policer it;
        abt_outcome outcome = abt_policer_init(&it.raw_, tau.count());
        return detail::checked(outcome, it);
    }
    /* abt_policer_arrive */
    result<verdict> arrive(picoseconds at, code held) noexcept
    {
        abt_outcome outcome = abt_policer_arrive(&raw_, at.count(), static_cast<std::uint16_t>(held));
        return detail::checked(outcome, static_cast<verdict>(outcome));
    }
    /* abt_policer_arrive_burst: of `count` moments in picoseconds, a verdict's number for each */
    [[nodiscard]] burst arrive(const std::uint64_t *at, std::uint8_t *verdicts, std::size_t count, code held) noexcept
    {
        std::size_t judged = 0;
        abt_outcome outcome = abt_policer_arrive_burst(&raw_, static_cast<std::uint16_t>(held), at, verdicts, count, &judged);
        return detail::burst_of(outcome, judged);
    }
#if defined(__cpp_lib_span)
    /* The same; fault::length if there isn't a place for each verdict. */
    [[nodiscard]] burst arrive(std::span<const std::uint64_t> at, std::span<std::uint8_t> verdicts, code held) noexcept
    {
        if (at.size() != verdicts.size()) return {0, fault::length};
        return arrive(at.data(), verdicts.data(), at.size(), held);
    }
#endif

private:
    policer() noexcept = default;
    abt_policer raw_{};
};

/* What an emission gives: the earliest moment of the next cell, also if this one comes too soon. */
struct emission {
    std::optional<fault> why;
    picoseconds next;
    explicit operator bool() const noexcept { return !why; }
};

namespace detail {
inline emission emitted(abt_outcome outcome, std::uint64_t next) noexcept
{
    return {refused(outcome) ? std::optional<fault>(detail::why(outcome)) : std::nullopt, picoseconds(next)};
}
} // namespace detail

class shaper {
public:
    /* abt_shaper_init */
    static result<shaper> not_before(picoseconds moment) noexcept
    {
        shaper it;
        abt_outcome outcome = abt_shaper_init(&it.raw_, moment.count());
        return detail::checked(outcome, it);
    }
    /* abt_shaper_emit */
    [[nodiscard]] emission emit(picoseconds now, code rate) noexcept
    {
        std::uint64_t next = 0;
        abt_outcome outcome = abt_shaper_emit(&raw_, now.count(), static_cast<std::uint16_t>(rate), &next);
        return detail::emitted(outcome, next);
    }
    /* abt_shaper_next */
    result<picoseconds> next() const noexcept
    {
        std::uint64_t next = 0;
        abt_outcome outcome = abt_shaper_next(&raw_, &next);
        return detail::checked(outcome, picoseconds(next));
    }

private:
    shaper() noexcept = default;
    abt_shaper raw_{};
};

} // namespace abt

#include <abt_source.hpp>
#include <abt_port.hpp>

#endif
