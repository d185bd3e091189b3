// What sheet_call is tried with: every call on small tables, odd numbers and bytes, buffers of every length, long
// series.
#include "check.hpp"
#include "drawn_call.hpp"
#include "held_call.hpp"
#include "sheets.hpp"

#include <mollavisce.hpp>

#include <algorithm>

namespace {

using mollavisce::longest_sheet;
using reference::State, reference::Table;

Table table_of(const Bytes &sheet) {
    Table table;
    ask(reference::read(sheet.data(), sheet.size(), table) == 0, "a sheet is refused that should be read");
    return table;
}

// Trials

// Document 01's own figures, by hand and not by the reference: a series from the fresh sheet to P4's; P10 and P11.
void stated() {
    Bytes sheet = {1, 0, 0};
    const auto gives = [&](const Call &call, std::uint32_t answer, std::uint64_t value) {
        const Bytes next = hold(sheet, call);
        ask(given().answer == answer && given().value == value, "not what document 01 states");
        if (answer < 10)
            sheet = next;
    };
    gives({0, 9, 9, 9, 9}, 0, 0);
    gives({0, 9, 9, 9, 9}, 0, 1);
    gives({2, 0, 9, 9, 9}, 0, 0);
    gives({2, 0, 9, 9, 9}, 0, 1);
    gives({4, 0, 0, 1, 9}, 0, 0);
    gives({4, 0, 1, 1, 9}, 0, 0);
    gives({6, 0, 0, 9, 9}, 0, 1);
    gives({6, 1, 1, 9, 9}, 0, 1);
    gives({7, 0, 0, 9, 9}, 2, 0);
    gives({8, 1, 1, 1, 9}, 2, 0);
    ask(sheet == from_hex(bench[3].sheet), "P4's series of calls ends in another sheet");
    gives({9, 0, 9, 9, 9}, 18, 0);
    gives({9, 1, 9, 9, 9}, 18, 0);
    sheet = {1, 1, 0, 1, 0, 0, 1, 0, 0xfe, 0xff, 3};
    gives({6, 0, 0, 9, 9}, 0, 65535);
    gives({6, 0, 0, 9, 9}, 15, 0);
    gives({8, 0, 0, 65536, 9}, 15, 0);
    sheet = {1, 0, 0};
    for (unsigned task = 0; task < 32; ++task)
        gives({0, 9, 9, 9, 9}, 0, task);
    gives({0, 9, 9, 9, 9}, 16, 0);
    gives({1, 4, 9, 9, 9}, 0, 0);
    gives({0, 9, 9, 9, 9}, 0, 4);
}

// Every table of two tasks at two phasers with phases up to 1 and waits up to 2, and every call on it, each number up
// to one too many. Numbers that a kind does not use are odd ones.
bool lay_task(Table &table, unsigned task, unsigned code) {
    if (code == 0)
        return true;
    const unsigned joined[] = {(code - 1) % 3, (code - 1) / 3 % 3}, wait = (code - 1) / 9;
    table.task[task].state = State::running;
    if (wait > 0)
        table.task[task] = {State::blocked, (wait - 1) / 3, (wait - 1) % 3};
    for (unsigned p = 0; p < 2; ++p)
        if (joined[p] > 0) {
            table.member[task][p] = true;
            table.phase[task][p] = joined[p] - 1;
            if (!table.open[p])
                return false;
        }
    return wait == 0 || table.open[(wait - 1) / 3];
}

void every_call(const Bytes &sheet) {
    static const struct {
        unsigned tasks, phasers, others;
    } bounds[10] = {{0, 0, 0}, {3, 0, 0}, {3, 0, 0}, {0, 3, 0}, {3, 3, 3},
                    {3, 3, 0}, {3, 3, 0}, {3, 3, 0}, {3, 3, 4}, {3, 0, 0}};
    for (std::uint64_t kind = 0; kind < 10; ++kind) {
        const auto &[tasks, phasers, others] = bounds[kind];
        for (unsigned task = 0; task < std::max(tasks, 1u); ++task)
            for (unsigned phaser = 0; phaser < std::max(phasers, 1u); ++phaser)
                for (unsigned other = 0; other < std::max(others, 1u); ++other)
                    hold(sheet, {kind, tasks ? task : one_of(odd_numbers), phasers ? phaser : one_of(odd_numbers),
                                 others ? other : one_of(odd_numbers), one_of(odd_numbers)});
    }
}

void small_tables() {
    for (unsigned open = 0; open < 4; ++open)
        for (unsigned codes = 0; codes < 64 * 64; ++codes) {
            Table table;
            table.open[0] = open % 2;
            table.open[1] = open / 2;
            if (lay_task(table, 0, codes % 64) && lay_task(table, 1, codes / 64))
                every_call(written(table));
        }
}

// The same call into buffers of lengths about that of the next sheet.
void each_room(const Bytes &sheet, const Call &call) {
    std::uint8_t scratch[longest_sheet];
    const Outcome right = referred(sheet, call, scratch, longest_sheet);
    const std::size_t length = right.answer < 10 ? right.length : sheet.size();
    for (std::size_t room : {std::size_t{0}, std::size_t{1}, length - 1, length, length + 1, longest_sheet - 1,
                             longest_sheet, longest_sheet + 1, std::size_t{4096}})
        hold(sheet, call, room);
    hold(sheet, call, 0, true);
}

// Small buffers of every length, and no bytes by null.
void every_room() {
    for (const Bench &row : bench) {
        const Bytes sheet = from_hex(row.sheet);
        for (std::uint64_t kind = 0; kind < 11; ++kind) {
            const Call call = likely_call(table_of(sheet), kind);
            for (std::size_t room = 0; room < sheet.size() + 8; ++room)
                hold(sheet, call, room);
            hold(sheet, call, 0, true);
            hold({}, call, 0, true);
            hold({}, call, longest_sheet, true);
        }
    }
}

// One odd number in each place, and in two of them.
void odd(const Bytes &sheet) {
    const Table table = table_of(sheet);
    const auto each_place = [&](std::uint64_t kind) {
        for (std::uint64_t Call::*place : {&Call::task, &Call::phaser, &Call::other, &Call::sort})
            for (std::uint64_t number : odd_numbers) {
                Call call = likely_call(table, kind);
                call.*place = number;
                hold(sheet, call);
                call.other = one_of(odd_numbers);
                hold(sheet, call);
            }
    };
    for (std::uint64_t kind = 0; kind < 10; ++kind)
        each_place(kind);
    for (std::uint64_t kind : odd_kinds)
        each_place(kind);
}

// Any bytes, which most often are no sheet.
void any(const Bytes &sheet) {
    static const std::size_t rooms[] = {0, 1, 22, 23, 24, 300, longest_sheet, longest_sheet, longest_sheet, 4096};
    hold(sheet, any_call(), one_of(rooms), below(2));
}

void random_sheets(unsigned count) {
    for (; count > 0; --count) {
        const Table table = random_table();
        Bytes sheet = written(table);
        hold(sheet, likely_call(table, below(10)));
        any(sheet);
        for (int damages = 0; damages < 2 && !sheet.empty(); ++damages) {
            damage(sheet);
            any(sheet);
        }
    }
}

// The longest sheet: a call that leaves it, one that comes to it, and all its damages.
void longest() {
    for (unsigned task = 0; task < 32; ++task) {
        Table table = longest_table();
        if (task % 2)
            for (auto &phases : table.phase)
                std::fill(std::begin(phases), std::end(phases), 65535);
        each_room(written(table), {9, task, 0, 0, 0});
        table.task[task].state = State::running;
        for (std::uint64_t kind = 0; kind < 10; ++kind)
            each_room(written(table), likely_call(table, kind));
        each_room(written(table), {8, task, task % 16, 65535, 0});
        each_room(written(table), {8, task, task % 16, 65536, 0});
    }
    const Bytes sheet = written(longest_table());
    odd(sheet);
    for (std::size_t at = 0; at < sheet.size(); ++at) {
        any({sheet.begin(), sheet.begin() + static_cast<long>(at)});
        for (unsigned value : {0, 1, 127, 128, 255}) {
            Bytes damaged = sheet;
            damaged[at] = static_cast<std::uint8_t>(value);
            any(damaged);
        }
    }
    static const std::size_t lengths[] = {longest_sheet + 1, longest_sheet + 2, 4096, 12288, 16384};
    for (std::size_t length : lengths) {
        Bytes longer = sheet;
        longer.resize(length, 1);
        any(longer);
        any(Bytes(length, 1));
        any(Bytes(length, 255));
    }
}

// From phase 0 to the last, over every length of a phase in a sheet, and no further.
void arrivals() {
    Bytes sheet = hold(hold({1, 0, 0}, {0, 0, 0, 0, 0}), {2, 0, 0, 0, 0});
    const Call arrive = {6, 0, 0, 0, 0};
    for (std::uint64_t phase = 1; phase <= 65535; ++phase) {
        const Bytes next = hold(sheet, arrive);
        ask(given().answer == 0 && given().value == phase, "not the phase after");
        if (next.size() != sheet.size())
            each_room(sheet, arrive);
        sheet = next;
    }
    each_room(sheet, arrive);
    ask(given().answer == 15, "arriving at 65,535 is not 15");
}

// Calls from a sheet on: each next sheet, as the library wrote it, goes into the next call. A series ends early where
// hardly anything is accepted any more, as when all wait for each other.
void series(Bytes sheet, unsigned length, const std::function<void(const Call &, const Bytes &)> &beside) {
    const unsigned most = 2 + below(below(3) ? 6 : 31);
    for (unsigned mood = 0, refused = 0; length > 0 && refused < 15; --length) {
        if (below(60) == 0)
            mood = below(moods);
        const Call call = drawn_call(table_of(sheet), mood, most);
        if (below(60) == 0)
            each_room(sheet, call);
        const Bytes next = hold(sheet, call);
        refused = next.empty() ? refused + 1 : 0;
        if (!next.empty())
            sheet = next;
        beside(call, sheet);
    }
}

void many_series(unsigned long count, Bytes (*first)()) {
    for (const unsigned long end = calls + count; calls < end;)
        series(first(), 1000, [](const Call &, const Bytes &) {});
}

// The header's Hall

Bytes bytes(const mollavisce::Hall &hall) { return {hall.data(), hall.data() + hall.size()}; }

mollavisce::Called by_name(mollavisce::Hall &hall, const Call &call) {
    const mollavisce::Task task{call.task}, target{call.other};
    const mollavisce::Phaser phaser{call.phaser};
    switch (call.kind) {
    case 0:
        return hall.open_task();
    case 1:
        return hall.end_task(task);
    case 2:
        return hall.open_phaser(task);
    case 3:
        return hall.close_phaser(phaser);
    case 4:
        return hall.admit(task, phaser, target);
    case 5:
        return hall.leave(task, phaser);
    case 6:
        return hall.arrive(task, phaser);
    case 7:
        return hall.wait(task, phaser);
    case 8:
        return hall.wait_at(task, phaser, mollavisce::Phase{call.other});
    case 9:
        return hall.release(task);
    default:
        return hall.call(mollavisce::Kind{call.kind}, call.task, call.phaser, call.other);
    }
}

// A series by a Hall's methods beside the same by the entry, and sheets that a Hall takes over or does not.
void halls(unsigned long count) {
    for (const unsigned long end = calls + count; calls < end;) {
        mollavisce::Hall hall;
        series({1, 0, 0}, 300, [&](const Call &call, const Bytes &sheet) {
            const mollavisce::Called called = by_name(hall, call);
            ++calls;
            ask(number(called.answer) == given().answer && called.value == given().value, "a Hall answers otherwise");
            ask(bytes(hall) == sheet, "a Hall has another sheet");
        });
        const Bytes before = bytes(hall);
        Bytes sheet = written(random_table());
        if (below(2))
            damage(sheet);
        const mollavisce::Answer answer = hall.load(sheet);
        Table table;
        ask(number(answer) == reference::read(sheet.data(), sheet.size(), table), "a Hall's load answers otherwise");
        ask(bytes(hall) == (accepted(answer) ? sheet : before), "a Hall loads another sheet");
        ask(judge(hall).strip == mollavisce::judge(bytes(hall)).strip, "a Hall's verdict is not its sheet's");
    }
}

} // namespace

void check_calls() {
    tell("document 01's figures", stated);
    tell("every call on every table of two tasks and two phasers, phases 0 and 1", small_tables);
    tell("buffers of every length about the next sheet's, and null", every_room);
    tell("odd numbers in each place, and kinds that there are not", [] {
        for (int times = 0; times < 3; ++times) {
            for (const Bench &row : bench)
                odd(from_hex(row.sheet));
            odd(written(random_table()));
        }
    });
    damaged_bench(any);
    tell("random tables up to 32 tasks and 16 phasers, and damaged ones", [] { random_sheets(50000); });
    tell("random bytes", [] {
        for (unsigned count = 100000; count > 0; --count)
            any(random_bytes());
    });
    tell("the longest sheet, calls that come to it, and its damages", longest);
    tell("65,535 arrivals in a row", arrivals);
    tell("series of calls from the fresh sheet", [] { many_series(1000000, [] { return Bytes{1, 0, 0}; }); });
    tell("series of calls from random tables", [] { many_series(300000, [] { return written(random_table()); }); });
    tell("series by the header's Hall beside the same by the entry", [] { halls(100000); });
}
