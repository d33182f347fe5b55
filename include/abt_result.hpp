/* abt_result.hpp: faults, results and who has a state, for C++. Include abt.hpp. */
#ifndef ABT_RESULT_HPP
#define ABT_RESULT_HPP

#include <abt.h>

#include <cstdlib>
#include <optional>
#include <stdexcept>
#include <utility>
#include <variant>

namespace abt {

/* Why a call was refused. */
enum class fault : abt_outcome {
    null = ABT_NULL,
    no_state = ABT_NO_STATE,
    length = ABT_LENGTH,
    tau_range = ABT_TAU_RANGE,
    spacing_range = ABT_SPACING_RANGE,
    units_range = ABT_UNITS_RANGE,
    clock_back = ABT_CLOCK_BACK,
    time_range = ABT_TIME_RANGE,
    zero = ABT_ZERO,
    too_soon = ABT_TOO_SOON,
    not_rm = ABT_NOT_RM,
    crc = ABT_CRC,
    protocol = ABT_PROTOCOL,
    maintenance = ABT_MAINTENANCE,
    elastic = ABT_ELASTIC,
    direction = ABT_DIRECTION,
    seq_zero = ABT_SEQ_ZERO,
    rate_order = ABT_RATE_ORDER,
    kind = ABT_KIND,
    vpi_range = ABT_VPI_RANGE,
    down = ABT_DOWN,
    running = ABT_RUNNING,
    writing = ABT_WRITING,
    not_writing = ABT_NOT_WRITING,
    not_asking = ABT_NOT_ASKING,
    seq_exhausted = ABT_SEQ_EXHAUSTED,
    not_kept = ABT_NOT_KEPT,
    record_spacing = ABT_RECORD_SPACING,
    below_sum = ABT_BELOW_SUM,
    capacity_range = ABT_CAPACITY_RANGE,
    known = ABT_KNOWN,
    full = ABT_FULL,
    damaged = ABT_DAMAGED,
    held = ABT_HELD,
    not_ingress = ABT_NOT_INGRESS
};

/* abt_outcome_name */
inline const char *name(fault why) noexcept { return abt_outcome_name(static_cast<abt_outcome>(why)); }

#if defined(__cpp_exceptions)
/* A fault, as an exception. */
class error : public std::runtime_error {
public:
    explicit error(fault why) : std::runtime_error(name(why)), why_(why) {}
    fault why() const noexcept { return why_; }

private:
    fault why_;
};
#endif

/* What is to be compared: `if (policer.arrive(at, held))` would be true of a cell that comes too early, and `if (table.remove(vpi, vci))`
   of a connection that isn't there, so they don't compile. */
template <class T> inline constexpr bool is_compared = false;
template <> inline constexpr bool is_compared<bool> = true;
template <class T> inline constexpr bool is_compared<std::optional<T>> = true;

/* A value, or why there is none. */
template <class T> class [[nodiscard]] result {
public:
    result(T value) noexcept : it_(std::in_place_index<0>, std::move(value)) {}
    result(fault why) noexcept : it_(std::in_place_index<1>, why) {}

    bool has_value() const noexcept { return it_.index() == 0; }
    /* The same, but of what is to be compared. */
    explicit operator bool() const noexcept
    {
        static_assert(!is_compared<T>, "compare what it has, don't test it; has_value() says whether there is a value");
        return has_value();
    }
    /* Whether it is this value, or this fault. */
    bool operator==(const T &value) const { return has_value() && *std::get_if<0>(&it_) == value; }
    bool operator!=(const T &value) const { return !(*this == value); }
    bool is(fault why) const noexcept { return !has_value() && *std::get_if<1>(&it_) == why; }
    /* The value; of a fault its exception, or the end of the program where none are compiled. */
    T &value() &
    {
        if (!has_value()) refuse();
        return *std::get_if<0>(&it_);
    }
    const T &value() const &
    {
        if (!has_value()) refuse();
        return *std::get_if<0>(&it_);
    }
    T &&value() && { return std::move(value()); }
    T &operator*() & { return value(); }
    const T &operator*() const & { return value(); }
    T &&operator*() && { return std::move(value()); }
    T *operator->() { return &value(); }
    const T *operator->() const { return &value(); }
    /* Why there is no value, if there is none. */
    std::optional<fault> why() const noexcept { return has_value() ? std::nullopt : std::optional<fault>(*std::get_if<1>(&it_)); }

private:
    [[noreturn]] void refuse() const
    {
#if defined(__cpp_exceptions)
        throw error(*std::get_if<1>(&it_));
#else
        std::abort();
#endif
    }
    std::variant<T, fault> it_;
};

struct done {
    bool operator==(const done &) const noexcept { return true; }
};

namespace detail {
inline bool refused(abt_outcome outcome) noexcept { return outcome >= ABT_FAULTS; }
inline fault why(abt_outcome outcome) noexcept { return static_cast<fault>(outcome); }
inline result<done> checked(abt_outcome outcome) noexcept { return refused(outcome) ? result<done>(why(outcome)) : result<done>(done{}); }
template <class T> result<T> checked(abt_outcome outcome, T value) noexcept
{
    return refused(outcome) ? result<T>(why(outcome)) : result<T>(std::move(value));
}

/* A state of C that one object has: a move leaves zeros, the state of no kind. */
template <class Raw> class owned {
public:
    owned() noexcept = default;
    owned(owned &&other) noexcept : raw(std::exchange(other.raw, Raw{})) {}
    owned &operator=(owned &&other) noexcept
    {
        raw = std::exchange(other.raw, Raw{});
        return *this;
    }
    Raw raw{};
};
} // namespace detail

} // namespace abt

#endif
