/* abt_port.hpp: ports and their tables for C++. Include abt.hpp. */
#ifndef ABT_PORT_HPP
#define ABT_PORT_HPP

#include <abt.hpp>

namespace abt {

/* What becomes of a message at a port: it goes on, it is refused (of a request alone), or it is dropped. */
enum class [[nodiscard]] decision : abt_outcome {
    pass = ABT_PASS,
    refuse = ABT_REFUSE,
    unknown_vc = ABT_UNKNOWN_VC,
    stale = ABT_STALE,
    conflict = ABT_CONFLICT,
    floor_above = ABT_FLOOR_ABOVE
};
template <> inline constexpr bool is_compared<decision> = true;

/* What becomes of a request: with the no that goes back, if it is refused. */
struct [[nodiscard]] decided {
    decision what;
    std::optional<answer> back;
};
template <> inline constexpr bool is_compared<decided> = true;

/* What becomes of a cell: with the octets that go on or back. */
struct [[nodiscard]] served {
    decision what;
    std::optional<cell> sent;
};
template <> inline constexpr bool is_compared<served> = true;

/* What a port keeps of a connection: the newest request that it decided. While it is open, the connection holds ask, and else floor. */
struct reservation {
    std::uint32_t newest;
    bool is_open;
    code floor, ask;
    bool operator==(const reservation &o) const noexcept
    {
        return newest == o.newest && is_open == o.is_open && floor == o.floor && ask == o.ask;
    }
};

/* What becomes of a cell at its ingress. */
enum class [[nodiscard]] policed : abt_outcome {
    conforming = ABT_CONFORMING,
    too_early = ABT_TOO_EARLY,
    no_rate = ABT_NO_RATE,
    unknown_vc = ABT_UNKNOWN_VC
};
template <> inline constexpr bool is_compared<policed> = true;

namespace detail {
inline reservation reservation_of(const abt_reservation &raw) noexcept
{
    return {raw.newest, raw.is_open != 0, static_cast<code>(raw.floor), static_cast<code>(raw.ask)};
}
inline result<decided> decided_by(abt_outcome outcome, const abt_rm &back) noexcept
{
    if (refused(outcome)) return why(outcome);
    decided it{static_cast<decision>(outcome), std::nullopt};
    if (it.what == decision::refuse) it.back = answer{request_of(back), false};
    return it;
}
inline result<decision> replied_by(abt_outcome outcome) noexcept { return checked(outcome, static_cast<decision>(outcome)); }
} // namespace detail

/* What a connection holds at one port, which counts it once: so it isn't copied. */
class connection {
public:
    /* abt_connection_init */
    static result<connection> of(std::uint16_t vpi, std::uint16_t vci) noexcept
    {
        connection it;
        abt_outcome outcome = abt_connection_init(&it.state_.raw, vpi, vci);
        return detail::checked(outcome, std::move(it));
    }
    /* abt_connection_held */
    result<code> held() const noexcept
    {
        std::uint16_t held = 0;
        abt_outcome outcome = abt_connection_held(&state_.raw, &held);
        return detail::checked(outcome, static_cast<code>(held));
    }
    /* abt_connection_reservation */
    result<abt::reservation> reservation() const noexcept
    {
        abt_reservation raw{};
        abt_outcome outcome = abt_connection_reservation(&state_.raw, &raw);
        return detail::checked(outcome, detail::reservation_of(raw));
    }

private:
    friend class port;
    connection() noexcept = default;
    detail::owned<abt_connection> state_;
};

/* A port. Its sum is that of its connections while each is used at it alone. */
class port {
public:
    /* abt_port_init */
    static result<port> of(units capacity) noexcept
    {
        port it;
        abt_outcome outcome = abt_port_init(&it.state_.raw, static_cast<std::uint64_t>(capacity));
        return detail::checked(outcome, std::move(it));
    }
    /* abt_port_request */
    result<decided> take(connection &by, const request &it) noexcept
    {
        abt_rm raw = detail::raw_of(it), back{};
        abt_outcome outcome = abt_port_request(&state_.raw, &by.state_.raw, &raw, &back);
        return detail::decided_by(outcome, back);
    }
    /* abt_port_answer */
    result<decision> take(connection &by, const answer &it) noexcept
    {
        abt_rm raw = detail::raw_of(it);
        return detail::replied_by(abt_port_answer(&state_.raw, &by.state_.raw, &raw));
    }
    /* abt_port_set_capacity */
    result<done> set_capacity(units capacity) noexcept
    {
        return detail::checked(abt_port_set_capacity(&state_.raw, static_cast<std::uint64_t>(capacity)));
    }
    /* abt_port_total */
    result<units> total() const noexcept
    {
        std::uint64_t total = 0;
        abt_outcome outcome = abt_port_total(&state_.raw, &total);
        return detail::checked(outcome, static_cast<units>(total));
    }
    /* abt_port_capacity */
    result<units> capacity() const noexcept
    {
        std::uint64_t capacity = 0;
        abt_outcome outcome = abt_port_capacity(&state_.raw, &capacity);
        return detail::checked(outcome, static_cast<units>(capacity));
    }

private:
    port() noexcept = default;
    detail::owned<abt_port> state_;
};

/* A port with a table of up to ABT_TABLE_PLACES connections. It has 61,480 octets and stays where it is: it is neither copied nor moved.
 * Until begin() it is no table, and its calls give fault::no_state. */
class table {
public:
    table() noexcept = default;
    table(const table &) = delete;
    table &operator=(const table &) = delete;

    /* abt_table_init */
    result<done> begin(units capacity) noexcept { return detail::checked(abt_table_init(&raw_, static_cast<std::uint64_t>(capacity))); }
    /* abt_table_add */
    result<done> add(std::uint16_t vpi, std::uint16_t vci) noexcept { return detail::checked(abt_table_add(&raw_, vpi, vci)); }
    /* abt_table_add_ingress */
    result<done> add(std::uint16_t vpi, std::uint16_t vci, picoseconds tau) noexcept
    {
        return detail::checked(abt_table_add_ingress(&raw_, vpi, vci, tau.count()));
    }
    /* abt_table_remove: false if the connection isn't in the table */
    result<bool> remove(std::uint16_t vpi, std::uint16_t vci) noexcept
    {
        abt_outcome outcome = abt_table_remove(&raw_, vpi, vci);
        return detail::checked(outcome, outcome == ABT_OK);
    }
    /* abt_table_arrive */
    result<policed> arrive(std::uint16_t vpi, std::uint16_t vci, picoseconds at) noexcept
    {
        abt_outcome outcome = abt_table_arrive(&raw_, vpi, vci, at.count());
        return detail::checked(outcome, static_cast<policed>(outcome));
    }
    /* abt_table_arrive_burst: the number of what becomes of each of `count` cells */
    [[nodiscard]] burst arrive(const abt_arrival *cells, std::uint8_t *outcomes, std::size_t count) noexcept
    {
        std::size_t judged = 0;
        abt_outcome outcome = abt_table_arrive_burst(&raw_, cells, outcomes, count, &judged);
        return detail::burst_of(outcome, judged);
    }
#if defined(__cpp_lib_span)
    /* The same; fault::length if there isn't a place for each outcome. */
    [[nodiscard]] burst arrive(std::span<const abt_arrival> cells, std::span<std::uint8_t> outcomes) noexcept
    {
        if (cells.size() != outcomes.size()) return {0, fault::length};
        return arrive(cells.data(), outcomes.data(), cells.size());
    }
#endif
    /* abt_table_request */
    result<decided> take(const request &it) noexcept
    {
        abt_rm raw = detail::raw_of(it), back{};
        abt_outcome outcome = abt_table_request(&raw_, &raw, &back);
        return detail::decided_by(outcome, back);
    }
    /* abt_table_answer */
    result<decision> take(const answer &it) noexcept
    {
        abt_rm raw = detail::raw_of(it);
        return detail::replied_by(abt_table_answer(&raw_, &raw));
    }
    /* abt_table_cell */
    result<served> take(const cell &octets) noexcept { return take(octets.data(), octets.size()); }
#if defined(__cpp_lib_span)
    result<served> take(std::span<const std::uint8_t> octets) noexcept { return take(octets.data(), octets.size()); }
#endif
    /* abt_table_set_capacity */
    result<done> set_capacity(units capacity) noexcept
    {
        return detail::checked(abt_table_set_capacity(&raw_, static_cast<std::uint64_t>(capacity)));
    }
    /* abt_table_total */
    result<units> total() const noexcept
    {
        std::uint64_t total = 0;
        abt_outcome outcome = abt_table_total(&raw_, &total);
        return detail::checked(outcome, static_cast<units>(total));
    }
    /* abt_table_held: none if the connection isn't in the table */
    result<std::optional<code>> held(std::uint16_t vpi, std::uint16_t vci) const noexcept
    {
        std::uint16_t held = 0;
        abt_outcome outcome = abt_table_held(&raw_, vpi, vci, &held);
        return detail::checked(outcome, outcome == ABT_OK ? std::optional<code>(static_cast<code>(held)) : std::nullopt);
    }
    /* abt_table_reservation: none if the connection isn't in the table */
    result<std::optional<abt::reservation>> reservation(std::uint16_t vpi, std::uint16_t vci) const noexcept
    {
        abt_reservation raw{};
        abt_outcome outcome = abt_table_reservation(&raw_, vpi, vci, &raw);
        return detail::checked(outcome, outcome == ABT_OK ? std::optional<abt::reservation>(detail::reservation_of(raw)) : std::nullopt);
    }
    /* abt_table_capacity */
    result<units> capacity() const noexcept
    {
        std::uint64_t capacity = 0;
        abt_outcome outcome = abt_table_capacity(&raw_, &capacity);
        return detail::checked(outcome, static_cast<units>(capacity));
    }
    /* abt_table_count */
    result<std::uint64_t> count() const noexcept
    {
        std::uint64_t count = 0;
        abt_outcome outcome = abt_table_count(&raw_, &count);
        return detail::checked(outcome, count);
    }

private:
    result<served> take(const std::uint8_t *octets, std::size_t length) noexcept
    {
        cell sent{};
        abt_outcome outcome = abt_table_cell(&raw_, octets, length, sent.data(), sent.size());
        if (detail::refused(outcome)) return detail::why(outcome);
        served it{static_cast<decision>(outcome), std::nullopt};
        if (it.what == decision::pass || it.what == decision::refuse) it.sent = sent;
        return it;
    }
    abt_table raw_{};
};

} // namespace abt

#endif
