/* abt_source.hpp: a source for C++, whose state is a type. Include abt.hpp.
 *
 *     down --start--> idle --ask--> asking (the request goes out) --answer--> idle
 *                                   writing (the record is to be written first) --wrote--> asking
 *
 * A call that changes the state is made of a source that is given away (std::move), and gives the next one. If it is refused, it gives the
 * source back as the call leaves it. So a result that is left alone loses the source, and compilers warn of that. A source that was given
 * away can still be called, but it is no state of any kind: its calls give fault::no_state. */
#ifndef ABT_SOURCE_HPP
#define ABT_SOURCE_HPP

#include <abt.hpp>

namespace abt {

using record = std::array<std::uint8_t, ABT_RECORD_LENGTH>;

/* What became of a write. */
enum class became : std::uint32_t { written = ABT_WRITTEN, failed_before = ABT_FAILED_BEFORE, failed_after = ABT_FAILED_AFTER };

/* A source that a call refused, and why. */
template <class Source> struct refused {
    Source source;
    fault why;
};

class down;
class idle;
class asking;
template <class Before> class writing;

/* A source whose request goes out. */
struct asked;

template <class Before> using ask_outcome = std::variant<asked, writing<Before>, refused<Before>>;

/* What a source does. */
enum class phase : std::uint32_t { down = ABT_PHASE_DOWN, idle = ABT_PHASE_IDLE, asking = ABT_PHASE_ASKING, writing = ABT_PHASE_WRITING };

/* What all states have. */
class source_state {
public:
    /* abt_source_rate */
    result<code> rate() const noexcept
    {
        std::uint16_t rate = 0;
        abt_outcome outcome = abt_source_rate(&state_.raw, &rate);
        return detail::checked(outcome, static_cast<code>(rate));
    }
    /* abt_source_phase */
    result<abt::phase> phase() const noexcept
    {
        std::uint32_t phase = 0;
        abt_outcome outcome = abt_source_phase(&state_.raw, &phase);
        return detail::checked(outcome, static_cast<abt::phase>(phase));
    }
    /* abt_source_last */
    result<std::uint32_t> last() const noexcept
    {
        std::uint32_t number = 0;
        abt_outcome outcome = abt_source_last(&state_.raw, &number);
        return detail::checked(outcome, number);
    }

protected:
    source_state() noexcept = default;
    explicit source_state(detail::owned<abt_source> &&state) noexcept : state_(std::move(state)) {}
    detail::owned<abt_source> state_;
};

/* A source that isn't started. */
class down : public source_state {
public:
    /* abt_source_init */
    static result<down> of(std::uint16_t vpi, std::uint16_t vci) noexcept
    {
        down it;
        abt_outcome outcome = abt_source_init(&it.state_.raw, vpi, vci);
        return detail::checked(outcome, std::move(it));
    }
    /* abt_source_start, from the twelve octets, or the four, that the store holds */
    [[nodiscard]] std::variant<idle, refused<down>> start(const std::uint8_t *record, std::size_t length, picoseconds now) && noexcept;
#if defined(__cpp_lib_span)
    [[nodiscard]] std::variant<idle, refused<down>> start(std::span<const std::uint8_t> record, picoseconds now) && noexcept;
#endif

private:
    template <class> friend class running;
    friend class idle;
    friend class asking;
    template <class> friend class writing;
    down() noexcept = default;
    explicit down(detail::owned<abt_source> &&state) noexcept : source_state(std::move(state)) {}
};

/* What a source that is up may do: `Self` is idle or asking. */
template <class Self> class running : public source_state {
public:
    /* abt_source_ask */
    [[nodiscard]] ask_outcome<Self> ask(code rate) && noexcept;
    /* abt_source_emit */
    [[nodiscard]] emission emit(picoseconds now) noexcept
    {
        std::uint64_t next = 0;
        abt_outcome outcome = abt_source_emit(&this->state_.raw, now.count(), &next);
        return detail::emitted(outcome, next);
    }
    /* abt_source_next */
    result<picoseconds> next() const noexcept
    {
        std::uint64_t next = 0;
        abt_outcome outcome = abt_source_next(&this->state_.raw, &next);
        return detail::checked(outcome, picoseconds(next));
    }
    /* abt_source_crash */
    [[nodiscard]] std::variant<down, refused<Self>> crash() && noexcept
    {
        abt_outcome outcome = abt_source_crash(&this->state_.raw);
        if (detail::refused(outcome)) return refused<Self>{Self(std::move(this->state_)), detail::why(outcome)};
        return down(std::move(this->state_));
    }

protected:
    explicit running(detail::owned<abt_source> &&state) noexcept : source_state(std::move(state)) {}
};

/* A source that waits for no answer. */
class idle : public running<idle> {
private:
    friend class down;
    friend class asking;
    friend class running<idle>;
    template <class> friend class writing;
    explicit idle(detail::owned<abt_source> &&state) noexcept : running(std::move(state)) {}
};

/* A yes to the newest request, a no to it, or the answer to something else. */
struct raised {
    idle source;
};
struct lowered {
    idle source;
};
struct ignored;

/* A source that waits for the answer to its newest request. */
class asking : public running<asking> {
public:
    /* abt_source_again */
    result<request> again() const noexcept
    {
        abt_rm raw{};
        abt_outcome outcome = abt_source_again(&this->state_.raw, &raw);
        return detail::checked(outcome, detail::request_of(raw));
    }
    /* abt_source_answer */
    [[nodiscard]] std::variant<raised, lowered, ignored, refused<asking>> hear(const answer &it) && noexcept;

private:
    template <class> friend class running;
    template <class> friend class writing;
    explicit asking(detail::owned<abt_source> &&state) noexcept : running(std::move(state)) {}
};

struct ignored {
    asking source;
};
struct asked {
    asking source;
    request out;
};

/* A source that waits for a write of its record. Before it asked, it was a `Before`. */
template <class Before> class writing : public source_state {
public:
    /* The octets that the program has to write. */
    const record &to_write() const noexcept { return record_; }
    /* abt_source_wrote: after fault::not_kept the source is as before the ask */
    [[nodiscard]] std::variant<asked, refused<Before>> wrote(became what) && noexcept
    {
        abt_rm raw{};
        abt_outcome outcome = abt_source_wrote(&this->state_.raw, static_cast<std::uint32_t>(what), &raw);
        if (detail::refused(outcome)) return refused<Before>{Before(std::move(this->state_)), detail::why(outcome)};
        return asked{asking(std::move(this->state_)), detail::request_of(raw)};
    }
    /* abt_source_crash */
    [[nodiscard]] std::variant<down, refused<writing>> crash() && noexcept
    {
        abt_outcome outcome = abt_source_crash(&this->state_.raw);
        if (detail::refused(outcome)) return refused<writing>{writing(std::move(this->state_), record_), detail::why(outcome)};
        return down(std::move(this->state_));
    }

private:
    friend class running<Before>;
    writing(detail::owned<abt_source> &&state, const record &octets) noexcept : source_state(std::move(state)), record_(octets) {}
    record record_;
};

inline std::variant<idle, refused<down>> down::start(const std::uint8_t *octets, std::size_t length, picoseconds now) && noexcept
{
    abt_outcome outcome = abt_source_start(&this->state_.raw, octets, length, now.count());
    if (detail::refused(outcome)) return refused<down>{down(std::move(this->state_)), detail::why(outcome)};
    return idle(std::move(this->state_));
}

#if defined(__cpp_lib_span)
inline std::variant<idle, refused<down>> down::start(std::span<const std::uint8_t> octets, picoseconds now) && noexcept
{
    return std::move(*this).start(octets.data(), octets.size(), now);
}
#endif

template <class Self> ask_outcome<Self> running<Self>::ask(code rate) && noexcept
{
    record octets{};
    abt_rm raw{};
    abt_outcome outcome = abt_source_ask(&this->state_.raw, static_cast<std::uint16_t>(rate), octets.data(), octets.size(), &raw);
    if (detail::refused(outcome)) return refused<Self>{Self(std::move(this->state_)), detail::why(outcome)};
    if (outcome == ABT_WRITE_FIRST) return writing<Self>(std::move(this->state_), octets);
    return asked{asking(std::move(this->state_)), detail::request_of(raw)};
}

inline std::variant<raised, lowered, ignored, refused<asking>> asking::hear(const answer &it) && noexcept
{
    abt_rm raw = detail::raw_of(it);
    abt_outcome outcome = abt_source_answer(&this->state_.raw, &raw);
    if (detail::refused(outcome)) return refused<asking>{asking(std::move(this->state_)), detail::why(outcome)};
    if (outcome == ABT_RAISED) return raised{idle(std::move(this->state_))};
    if (outcome == ABT_REFUSED) return lowered{idle(std::move(this->state_))};
    return ignored{asking(std::move(this->state_))};
}

} // namespace abt

#endif
