// A hall of tasks and gates, moved by calls, and which of its tasks will never go on: libmollavisce.a for C++17 and
// later.
//
//     mollavisce::Hall hall;                                                // fresh: no task, no gate
//     const mollavisce::Task seat = hall.open_task().task();
//     const mollavisce::Phaser frames = hall.open_phaser(seat).phaser();
//     const mollavisce::Called waited = hall.wait_at(seat, frames, mollavisce::Phase{1});
//     waited.words();                                                       // "now blocked"
//     const mollavisce::Verdict verdict = mollavisce::judge(hall);
//     if (verdict.accepted() && verdict.names(seat)) ...                    // no series of calls will release the seat
//
// No heap, no exceptions, no state beside the values that you hold. What is proved is proved of the two entries in
// mollavisce.h, which also lists what they leave to you; this header hands them buffers of its own, so that there is
// nothing to overlap and nothing too short. What stays on your side is said at `Bytes` and at `Hall`.
#ifndef MOLLAVISCE_HPP
#define MOLLAVISCE_HPP

#if __cplusplus < 201703L
#error "mollavisce.hpp needs C++17 or later (-std=c++17)"
#endif

#include "mollavisce.h"

#include <array>
#include <cstddef>
#include <cstdint>
#include <cstring>
#include <iterator>
#include <type_traits>
#include <utility>
#if __cplusplus >= 202002L
#include <span>
#endif

namespace mollavisce {

// Numbers. Task, gate and phase are not exchangeable, and no plain number slips in: it is Task{3}, not 3 or {3}.
template <class Sort>
struct Number {
    std::uint64_t number;

    constexpr explicit Number(std::uint64_t plain) noexcept : number(plain) {}
    [[nodiscard]] friend constexpr bool operator==(Sort one, Sort other) noexcept { return one.number == other.number; }
    [[nodiscard]] friend constexpr bool operator!=(Sort one, Sort other) noexcept { return one.number != other.number; }
};
struct Task : Number<Task> { // 0 to 31
    using Number::Number;
};
struct Phaser : Number<Phaser> { // a gate, 0 to 15
    using Number::Number;
};
struct Phase : Number<Phase> { // 0 to 65,535
    using Number::Number;
};

// No task, no gate and no phase has it: any call that looks at it is refused.
constexpr std::uint64_t nobodys_number = ~std::uint64_t{0};

enum class Kind : std::uint64_t {
    open_task = 0,
    end_task = 1,
    open_phaser = 2,
    close_phaser = 3,
    admit = 4,
    leave = 5,
    arrive = 6,
    wait = 7,
    wait_at = 8,
    release = 9,
};

// All routes name the same tasks and give the same ring, whatever the sheet.
enum class Route : std::uint64_t {
    tasks = 0,  // from task to task
    events = 1, // from event to event
    fewer = 2,  // events where they are fewer than blocked tasks, otherwise tasks
};

enum class Answer : std::uint32_t {
    done = 0,
    wait_passed = 1,
    now_blocked = 2,
    no_such_task = 10, // from here on, refusals
    no_such_phaser = 11,
    caller_blocked = 12,
    not_member = 13,
    already_member = 14,
    phase_too_large = 15,
    none_free = 16,
    not_blocked = 17,
    not_reached = 18,
    in_use = 19,
    target_blocked = 20,
    no_named_task_to_step_to = 22, // never comes
    sheet_ends = 30,
    needless_group = 31,
    number_too_large = 32,
    list_not_rising = 33,
    unknown_version_or_state = 34,
    bytes_after_sheet = 35,
    phaser_not_open = 36,
    strip_too_short = 40, // not here: `judge` has a strip of its own
    no_such_route = 41,
    no_such_kind = 42,
    buffer_too_short = 43, // not here: a `Hall` has room for any table
    not_sound = 44,        // never comes: a sheet that is read is a sound table
    not_asked = 0xffffffff // no answer of the library's: of a value that was not handed back by it
};

[[nodiscard]] constexpr const char *words(Answer answer) noexcept {
    // clang-format off
    switch (answer) {
    case Answer::done: return "done";
    case Answer::wait_passed: return "wait passed";
    case Answer::now_blocked: return "now blocked";
    case Answer::no_such_task: return "no such live task";
    case Answer::no_such_phaser: return "no such open phaser";
    case Answer::caller_blocked: return "caller is blocked";
    case Answer::not_member: return "caller not a member";
    case Answer::already_member: return "target already a member";
    case Answer::phase_too_large: return "phase would exceed, or exceeds, 65,535";
    case Answer::none_free: return "no free number of that sort";
    case Answer::not_blocked: return "task to release is not blocked";
    case Answer::not_reached: return "some member has not reached the awaited phase";
    case Answer::in_use: return "phaser has a member, or a task is blocked on it";
    case Answer::target_blocked: return "target is blocked";
    case Answer::no_named_task_to_step_to: return "the ring walk finds no named task to step to";
    case Answer::sheet_ends: return "sheet ends inside a number, or before one";
    case Answer::needless_group: return "number with a needless last group";
    case Answer::number_too_large: return "number too large";
    case Answer::list_not_rising: return "list not rising (a repeat doesn't rise)";
    case Answer::unknown_version_or_state: return "version not 1, or task state not 0 or 1";
    case Answer::bytes_after_sheet: return "bytes after the sheet";
    case Answer::phaser_not_open: return "sheet speaks of a phaser that isn't open";
    case Answer::strip_too_short: return "answer strip under 38 bytes";
    case Answer::no_such_route: return "route over 2";
    case Answer::no_such_kind: return "no such kind of call";
    case Answer::buffer_too_short: return "buffer shorter than the sheet";
    case Answer::not_sound: return "table not sound";
    case Answer::not_asked: return "nothing was asked";
    }
    // clang-format on
    return "no such answer";
}

[[nodiscard]] constexpr std::uint32_t number(Answer answer) noexcept { return static_cast<std::uint32_t>(answer); }
[[nodiscard]] constexpr bool accepted(Answer answer) noexcept { return number(answer) < 10; }

// No accepted sheet is longer than the one, and the other settles any input.
constexpr std::size_t longest_sheet = MOLLAVISCE_LONGEST_SHEET, settling_bytes = 2292;

// No task, no gate.
constexpr std::array<std::uint8_t, MOLLAVISCE_FRESH_LENGTH> fresh_sheet = MOLLAVISCE_FRESH_SHEET;

// A sheet that you lend for one call: a pointer and a length, or what has both (array, vector, span, string_view), of
// std::uint8_t, std::byte or char. A null pointer, with whatever length, is no bytes at all; at most settling_bytes are
// handed on, so no length is too large. On your side: a pointer that is not null leads to as many readable bytes as the
// length says (or to settling_bytes), and no other thread writes them during the call.
struct Bytes {
    const std::uint8_t *first;
    std::size_t count;

    constexpr Bytes(const std::uint8_t *bytes, std::size_t length) noexcept
        : first(bytes), count(bytes == nullptr          ? 0
                              : length < settling_bytes ? length
                                                        : settling_bytes) {}
    template <class Byte, class = std::enable_if_t<std::is_same_v<Byte, std::byte> || std::is_same_v<Byte, char>>>
    Bytes(const Byte *bytes, std::size_t length) noexcept
        : Bytes(reinterpret_cast<const std::uint8_t *>(bytes), length) {}
    template <class Sheet, class = decltype(Bytes(std::data(std::declval<const Sheet &>()), std::size_t{}))>
    constexpr Bytes(const Sheet &sheet) noexcept : Bytes(std::data(sheet), std::size(sheet)) {}
};

// Mask (4 bytes, low first), count, the ring's length, the ring filled up to 32 places with 255.
constexpr std::size_t strip_bytes = 38;
using Strip = std::array<std::uint8_t, strip_bytes>;

// The strip of a sheet in which nobody is named.
[[nodiscard]] constexpr Strip nobody() noexcept {
    Strip strip{};
    for (std::size_t place = 6; place < strip.size(); ++place)
        strip[place] = 255;
    return strip;
}

// Ask `accepted` first: after a refusal, and where nothing was asked, the strip is `nobody()` and says nothing of a
// hall.
struct Verdict {
    Answer answer = Answer::not_asked;
    Strip strip = nobody();

    [[nodiscard]] constexpr bool accepted() const noexcept { return mollavisce::accepted(answer); }
    [[nodiscard]] constexpr const char *words() const noexcept { return mollavisce::words(answer); }

    // Bit k: no series of calls, however long, will release task k. A blocked task whose bit is not set has a way on.
    [[nodiscard]] constexpr std::uint32_t named() const noexcept {
        return strip[0] | std::uint32_t{strip[1]} << 8 | std::uint32_t{strip[2]} << 16 | std::uint32_t{strip[3]} << 24;
    }
    [[nodiscard]] constexpr bool names(Task task) const noexcept {
        return task.number < 32 && (named() >> task.number & 1) == 1;
    }
    [[nodiscard]] constexpr unsigned count() const noexcept { return strip[4]; }

    // Named tasks, each impeded by the next and the last by the first; its lowest number stands first. Nobody's number
    // from the ring's end on.
    [[nodiscard]] constexpr unsigned ring_length() const noexcept { return strip[5]; }
    [[nodiscard]] constexpr Task ring(std::size_t place) const noexcept {
        return Task{place < ring_length() && place < 32 ? strip[6 + place] : nobodys_number};
    }
};

// A sheet, or a hall: it has `data` and `size`.
[[nodiscard]] inline Verdict judge(Bytes sheet, Route route = Route::tasks) noexcept {
    Verdict verdict;
    verdict.answer = static_cast<Answer>(sheet_verdict(sheet.first, sheet.count, static_cast<std::uint64_t>(route),
                                                       verdict.strip.data(), verdict.strip.size()));
    return verdict;
}
template <class Pointer, class = decltype(Bytes(std::declval<Pointer>(), std::size_t{}))>
[[nodiscard]] Verdict judge(Pointer sheet, std::size_t length, Route route = Route::tasks) noexcept {
    return judge(Bytes(sheet, length), route);
}

struct Called {
    Answer answer = Answer::not_asked;
    std::uint64_t value = 0; // 0 after a refusal, and where the call has none

    [[nodiscard]] constexpr bool accepted() const noexcept { return mollavisce::accepted(answer); }
    [[nodiscard]] constexpr const char *words() const noexcept { return mollavisce::words(answer); }

    // The number that was opened, or the phase joined at or arrived at. After a refusal nobody's number, so that an
    // opening that was refused is not taken for task 0 or gate 0: the calls that use it are refused in turn.
    [[nodiscard]] constexpr Task task() const noexcept { return Task{number()}; }
    [[nodiscard]] constexpr Phaser phaser() const noexcept { return Phaser{number()}; }
    [[nodiscard]] constexpr Phase phase() const noexcept { return Phase{number()}; }

  private:
    [[nodiscard]] constexpr std::uint64_t number() const noexcept { return accepted() ? value : nobodys_number; }
};

// A table of tasks, gates and waits, as a value: the bytes of its sheet. It always holds an accepted sheet, and a
// refusal leaves it as it was. A copy is another table. Halls share nothing: threads may use different ones at the same
// time, and read one together; a call or `load` changes its hall as an assignment does, so nobody else may use it
// meanwhile.
class Hall {
  public:
    constexpr Hall() noexcept = default; // fresh

    // Takes over a stored sheet if it is accepted (`done`), and else stays as it was.
    [[nodiscard]] Answer load(Bytes sheet) noexcept {
        const Answer answer = judge(sheet).answer;
        if (answer != Answer::done)
            return answer;
        if (sheet.count > bytes.size()) // of an archive that is newer than this header
            return Answer::buffer_too_short;
        length = sheet.count;
        std::memmove(bytes.data(), sheet.first, length); // it may be this hall's own
        return answer;
    }
    template <class Pointer>
    [[nodiscard]] Answer load(Pointer sheet, std::size_t count) noexcept {
        return load(Bytes(sheet, count));
    }

    [[nodiscard]] Called open_task() noexcept { return call(Kind::open_task); }
    [[nodiscard]] Called end_task(Task caller) noexcept { return call(Kind::end_task, caller.number); }
    [[nodiscard]] Called open_phaser(Task caller) noexcept { return call(Kind::open_phaser, caller.number); }
    [[nodiscard]] Called close_phaser(Phaser phaser) noexcept { return call(Kind::close_phaser, 0, phaser.number); }
    [[nodiscard]] Called admit(Task caller, Phaser phaser, Task target) noexcept {
        return call(Kind::admit, caller.number, phaser.number, target.number);
    }
    [[nodiscard]] Called leave(Task caller, Phaser phaser) noexcept {
        return call(Kind::leave, caller.number, phaser.number);
    }
    [[nodiscard]] Called arrive(Task caller, Phaser phaser) noexcept {
        return call(Kind::arrive, caller.number, phaser.number);
    }
    [[nodiscard]] Called wait(Task caller, Phaser phaser) noexcept {
        return call(Kind::wait, caller.number, phaser.number);
    }
    [[nodiscard]] Called wait_at(Task caller, Phaser phaser, Phase phase) noexcept {
        return call(Kind::wait_at, caller.number, phaser.number, phase.number);
    }
    [[nodiscard]] Called release(Task task) noexcept { return call(Kind::release, task.number); }

    // Any of them over plain numbers, for a host that forwards messages: numbers of any size are answered, and those
    // that a kind does not use are not looked at. `other` is an admit's target or the phase of a wait_at.
    [[nodiscard]] Called call(Kind kind, std::uint64_t task = 0, std::uint64_t phaser = 0,
                              std::uint64_t other = 0) noexcept {
        std::array<std::uint8_t, longest_sheet> next;
        std::uint64_t next_length = 0;
        Called called;
        called.answer =
            static_cast<Answer>(sheet_call(bytes.data(), length, static_cast<std::uint64_t>(kind), task, phaser, other,
                                           0, next.data(), next.size(), &called.value, &next_length));
        if (called.accepted()) {
            length = static_cast<std::size_t>(next_length);
            std::memcpy(bytes.data(), next.data(), length);
        }
        return called;
    }

    // The sheet: to store, to send, to load again.
    [[nodiscard]] constexpr const std::uint8_t *data() const noexcept { return bytes.data(); }
    [[nodiscard]] constexpr std::size_t size() const noexcept { return length; }
#if __cplusplus >= 202002L
    [[nodiscard]] constexpr std::span<const std::uint8_t> sheet() const noexcept { return {data(), size()}; }
#endif

    // The same table: one table has one sheet.
    [[nodiscard]] friend constexpr bool operator==(const Hall &one, const Hall &other) noexcept {
        bool same = one.length == other.length;
        for (std::size_t at = 0; same && at < one.length; ++at)
            same = one.bytes[at] == other.bytes[at];
        return same;
    }
    [[nodiscard]] friend constexpr bool operator!=(const Hall &one, const Hall &other) noexcept {
        return !(one == other);
    }

  private:
    std::array<std::uint8_t, longest_sheet> bytes = MOLLAVISCE_FRESH_SHEET;
    std::size_t length = fresh_sheet.size();
};

} // namespace mollavisce

#endif
