// Beside plain C++ (reference.cpp) in the same run: time of a whole verdict by each route, on nine sheets and on random
// ones, and of a call, where they are accepted and where they are refused; and their stack. Fails where a limit below
// is passed.
//
//     bench            holds stack and times to their limits
//     bench untimed    holds the stack alone, as under an emulator, where times mean nothing
#include "reference.hpp"

#include <mollavisce.hpp>

#include <algorithm>
#include <array>
#include <chrono>
#include <cstdio>
#include <cstdlib>
#include <cstring>
#include <pthread.h>
#include <random>
#include <string>
#include <sys/mman.h>
#include <vector>

namespace reference_o3 { // the same file once more, compiled at -O3
std::uint32_t verdict(const std::uint8_t *sheet, std::size_t length, std::uint64_t route, std::uint8_t *strip,
                      std::size_t strip_length);
std::uint32_t call(const std::uint8_t *sheet, std::size_t sheet_length, std::uint64_t kind, std::uint64_t task,
                   std::uint64_t phaser, std::uint64_t other, std::uint64_t sort, std::uint8_t *next,
                   std::size_t next_length, std::uint64_t *value, std::uint64_t *length);
} // namespace reference_o3

namespace {

using Bytes = std::vector<std::uint8_t>;
using mollavisce::Strip;

// The first is for each of the nine sheets by each route, in times of plain C++ at -O2.
constexpr double time_limit = 1.2;
constexpr std::size_t verdict_stack_limit = 8192, call_stack_limit = 16000;

// What is over its limit.
struct Over {
    std::string what;
    double measured, limit;
    const char *unit;
};
using Overs = std::vector<Over>;

// Nanoseconds of a call by each of several ways: the least of all rounds, in which the ways take turns.
struct Rounds {
    int count, calls;
};
constexpr Rounds usual = {400, 50}, few = {40, 20};

template <std::size_t count>
struct Times {
    std::array<double, count> least;

    Times() { least.fill(1e18); }
    template <class Work>
    void take(Rounds rounds, Work work) {
        using Clock = std::chrono::steady_clock;
        for (int round = 0; round < rounds.count; ++round)
            for (std::size_t way = 0; way < count; ++way) {
                const auto start = Clock::now();
                for (int call = 0; call < rounds.calls; ++call)
                    work(way);
                const std::chrono::duration<double, std::nano> taken = Clock::now() - start;
                least[way] = std::min(least[way], taken.count() / rounds.calls);
            }
    }
};

// Bytes of stack below the caller of a call, on a thread whose stack was filled with a pattern.
constexpr std::size_t stack_size = 1 << 20;
constexpr std::uint8_t pattern = 0xA5;

template <class Work>
struct Painted {
    Work work;
    std::uint8_t *stack;
    std::size_t used;
};

template <class Work>
void *use_stack(void *argument) {
    auto &painted = *static_cast<Painted<Work> *>(argument);
    const auto *here = static_cast<std::uint8_t *>(__builtin_frame_address(0));
    std::memset(painted.stack, pattern, static_cast<std::size_t>(here - painted.stack) - 1024);
    painted.work();
    const std::uint8_t *touched = painted.stack;
    while (touched < here && *touched == pattern)
        ++touched;
    painted.used = static_cast<std::size_t>(here - touched);
    return nullptr;
}

template <class Work>
std::size_t stack_of(Work work) {
    void *stack = mmap(nullptr, stack_size, PROT_READ | PROT_WRITE, MAP_PRIVATE | MAP_ANONYMOUS, -1, 0);
    Painted<Work> painted{work, static_cast<std::uint8_t *>(stack), 0};
    pthread_attr_t attributes;
    pthread_t thread;
    if (stack == MAP_FAILED || pthread_attr_init(&attributes) != 0 ||
        pthread_attr_setstack(&attributes, stack, stack_size) != 0 ||
        pthread_create(&thread, &attributes, use_stack<Work>, &painted) != 0 || pthread_join(thread, nullptr) != 0)
        std::abort();
    pthread_attr_destroy(&attributes);
    munmap(stack, stack_size);
    return painted.used;
}

// The sheets

Bytes written(const reference::Table &table) {
    Bytes sheet(mollavisce::longest_sheet);
    sheet.resize(reference::write(table, sheet.data(), sheet.size()));
    return sheet;
}

// Tasks at the first so many phasers, a member of each at 40000; with `blocked`, each of the first so many waits at
// 65535.
Bytes crowd(unsigned tasks, unsigned phasers, unsigned blocked) {
    reference::Table table;
    for (unsigned k = 0; k < tasks; ++k) {
        table.task[k].state = reference::State::running;
        if (k < blocked)
            table.task[k] = {reference::State::blocked, k % phasers, 65535};
        for (unsigned p = 0; p < phasers; ++p) {
            table.open[p] = table.member[k][p] = true;
            table.phase[k][p] = 40000;
        }
    }
    return written(table);
}

// Task k waits for task k + 1; the last for the first, or it runs.
Bytes row(bool ring) {
    reference::Table table;
    for (unsigned k = 0; k < 32; ++k) {
        const unsigned next = (k + 1) % 32;
        table.open[k / 2] = table.member[k][k / 2] = true;
        table.phase[k][k / 2] = 1 - k % 2;
        table.task[k].state = reference::State::running;
        if (ring || k < 31)
            table.task[k] = {reference::State::blocked, next / 2, 2 - next % 2};
    }
    return written(table);
}

// Tasks at the first so many phasers, at a phase. All but three wait for a phase that nobody has reached; task 2's wait
// is met. Tasks 0 and 1 run, and 1 is no member of phaser 0. So each kind of call can be accepted.
Bytes hall(unsigned tasks, unsigned phasers, unsigned phase) {
    reference::Table table;
    for (unsigned k = 0; k < tasks; ++k) {
        table.task[k] = {reference::State::blocked, k % phasers, k == 2 ? phase : phase + 1};
        for (unsigned p = k == 1; p < phasers; ++p) {
            table.open[p] = table.member[k][p] = true;
            table.phase[k][p] = phase;
        }
    }
    table.task[0].state = table.task[1].state = reference::State::running;
    return written(table);
}

// Random sheets, the same on every machine. Of those that check draws too few have anybody blocked.

unsigned below(unsigned bound) {
    static std::mt19937_64 source(20261116);
    return static_cast<unsigned>(source() % bound);
}

// So many of the numbers below a bound, rising.
std::vector<unsigned> some(unsigned count, unsigned bound) {
    std::vector<unsigned> chosen;
    for (unsigned number = 0; number < bound; ++number)
        if (below(bound - number) < count - chosen.size())
            chosen.push_back(number);
    return chosen;
}

struct Drawn {
    Bytes sheet;
    std::size_t tasks, phasers, blocked;
};

// Sizes go round, from no task to 32 and from one phaser to 16, so that no two sheets have both in common. Phases are
// close together, so that waits hold each other up. In about half of the sheets who waits has arrived there himself:
// else the rings would mostly be of one task.
constexpr unsigned drawn_count = 400;

Drawn drawn(unsigned number) {
    static const unsigned firsts[] = {0, 126, 16382, 65530}, memberships[] = {5, 10, 25, 50, 75, 100};
    const std::vector<unsigned> tasks = some(number % 33, 32), phasers = some(1 + number % 16, 16);
    const unsigned first = firsts[below(4)], reach = 1 + below(4), joined = memberships[below(6)],
                   waiting = 25 + below(76);
    const bool arrived = below(2) == 0;
    reference::Table table;
    std::size_t blocked = 0;
    for (unsigned p : phasers)
        table.open[p] = true;
    for (unsigned k : tasks) {
        reference::Task &task = table.task[k];
        task.state = reference::State::running;
        for (unsigned p : phasers)
            if (below(100) < joined) {
                table.member[k][p] = true;
                table.phase[k][p] = first + below(reach);
            }
        if (below(100) < waiting) {
            const unsigned p = phasers[below(static_cast<unsigned>(phasers.size()))];
            task = {reference::State::blocked, p, first + below(reach + 1)};
            ++blocked;
            if (arrived && table.member[k][p])
                table.phase[k][p] = std::max(table.phase[k][p], task.phase);
        }
    }
    return {written(table), tasks.size(), phasers.size(), blocked};
}

// Verdicts

struct Way {
    decltype(&sheet_verdict) entry;
    std::uint64_t route;

    std::uint32_t operator()(const Bytes &sheet, Strip &strip) const {
        return entry(sheet.data(), sheet.size(), route, strip.data(), strip.size());
    }
};

// Plain C++ has one way for all routes.
constexpr std::size_t route_count = 3, way_count = route_count + 2;
const Way ways[way_count] = {
    {sheet_verdict, 0}, {sheet_verdict, 1}, {sheet_verdict, 2}, {reference::verdict, 0}, {reference_o3::verdict, 0}};

using VerdictTimes = Times<way_count>;

// How many times the time of plain C++ a route takes.
double ratio(const VerdictTimes &times, std::size_t route, std::size_t plain) {
    return times.least[route] / times.least[plain];
}

struct Row {
    const char *what;
    Bytes sheet;
};

// Adds to the times of a sheet whose answer is known, and hands back its strip. All ways must agree on both.
Strip measure(const Bytes &sheet, std::uint32_t answer, Rounds rounds, VerdictTimes &times) {
    Strip strips[way_count];
    for (std::size_t k = 0; k < way_count; ++k) {
        strips[k] = mollavisce::nobody();
        if (ways[k](sheet, strips[k]) != answer || strips[k] != strips[0])
            std::abort();
    }
    times.take(rounds, [&](std::size_t k) { ways[k](sheet, strips[k]); });
    return strips[0];
}

const char *const verdict_columns = "bytes | route 0 route 1 route 2     -O2     -O3 |"
                                    "   0/-O2   1/-O2   2/-O2   0/-O3   1/-O3   2/-O3";

void print(const Row &row, const VerdictTimes &times) {
    std::printf("%-39s%5zu |", row.what, row.sheet.size());
    for (double of_way : times.least)
        std::printf("%8.0f", of_way);
    std::printf(" |");
    for (std::size_t plain = route_count; plain < way_count; ++plain)
        for (std::size_t route = 0; route < route_count; ++route)
            std::printf("%8.2f", ratio(times, route, plain));
    std::printf("\n");
}

// While one is over its limit all are timed again, up to three times in all, since the machine may have been busy. The
// least that is kept is the least of plain C++ too.
void accepted_verdicts(const std::vector<Row> &rows, bool timed, Overs &overs) {
    std::vector<VerdictTimes> times(rows.size());
    Overs over;
    for (int turn = 0; turn == 0 || (turn < 3 && !over.empty()); ++turn) {
        over.clear();
        for (std::size_t n = 0; n < rows.size(); ++n) {
            measure(rows[n].sheet, 0, usual, times[n]);
            for (std::size_t route = 0; timed && route < route_count; ++route)
                if (const double taken = ratio(times[n], route, route_count); taken > time_limit)
                    over.push_back({std::string(rows[n].what) + ", route " + std::to_string(route), taken, time_limit,
                                    "times -O2"});
        }
    }
    std::printf("%-39s%s\n", "Accepted", verdict_columns);
    for (std::size_t n = 0; n < rows.size(); ++n)
        print(rows[n], times[n]);
    overs.insert(overs.end(), over.begin(), over.end());
}

void refused_verdicts(std::vector<Row> rows) {
    std::printf("%-39s%s\n", "Refused with 35: a byte added", verdict_columns);
    for (Row &row : rows) {
        row.sheet.push_back(0);
        VerdictTimes times;
        measure(row.sheet, 35, usual, times);
        print(row, times);
    }
}

void random_verdicts(const std::vector<Drawn> &sheets) {
    std::vector<VerdictTimes> times(sheets.size());
    std::vector<unsigned> named;
    for (std::size_t n = 0; n < sheets.size(); ++n)
        named.push_back(
            mollavisce::Verdict{mollavisce::Answer::done, measure(sheets[n].sheet, 0, few, times[n])}.count());
    const auto nobody = std::count(named.begin(), named.end(), 0u);
    std::printf("%zu random sheets, all accepted; %zu of them have somebody named\n", sheets.size(),
                sheets.size() - static_cast<std::size_t>(nobody));
    std::printf("%-15s%8s%9s%3.1f%8s |%8s%9s%9s%7s%7s%9s%9s\n", "", "mean", "over ", time_limit, "worst", "tasks",
                "phasers", "blocked", "named", "bytes", "route", "plain");
    for (std::size_t plain = route_count; plain < way_count; ++plain)
        for (std::size_t route = 0; route < route_count; ++route) {
            double sum = 0;
            std::size_t over = 0, worst = 0;
            for (std::size_t n = 0; n < sheets.size(); ++n) {
                const double taken = ratio(times[n], route, plain);
                sum += taken;
                over += taken > time_limit;
                if (taken > ratio(times[worst], route, plain))
                    worst = n;
            }
            const Drawn &sheet = sheets[worst];
            std::printf("%zu/%-13s%8.2f%12s%8.2f |%8zu%9zu%9zu%7u%7zu%9.0f%9.0f\n", route,
                        plain == route_count ? "-O2" : "-O3", sum / static_cast<double>(sheets.size()),
                        plain == route_count ? std::to_string(over).c_str() : "", ratio(times[worst], route, plain),
                        sheet.tasks, sheet.phasers, sheet.blocked, named[worst], sheet.sheet.size(),
                        times[worst].least[route], times[worst].least[plain]);
        }
}

// Calls

constexpr std::size_t caller_count = 3;
const decltype(&sheet_call) callers[caller_count] = {sheet_call, reference::call, reference_o3::call};

struct CallRow {
    std::string what;
    Bytes sheet;
    std::uint64_t kind, task, phaser, other;
    std::uint32_t answer;
};

struct Outcome {
    std::uint64_t value = 1, length = 1;
    Bytes next = Bytes(mollavisce::longest_sheet, 255);
};

std::uint32_t call(std::size_t caller, const CallRow &row, std::size_t room, Outcome &outcome) {
    return callers[caller](row.sheet.data(), row.sheet.size(), row.kind, row.task, row.phaser, row.other, 0,
                           outcome.next.data(), room, &outcome.value, &outcome.length);
}

// Into the bytes of the longest sheet, or into as many as the next sheet has. All must agree, and the answer is known.
void measure(const CallRow &row, bool exact) {
    Outcome outcomes[caller_count];
    std::size_t room = mollavisce::longest_sheet;
    for (Outcome &outcome : outcomes) {
        if (call(static_cast<std::size_t>(&outcome - outcomes), row, room, outcome) != row.answer ||
            outcome.value != outcomes[0].value || outcome.length != outcomes[0].length ||
            outcome.next != outcomes[0].next)
            std::abort();
    }
    const std::size_t length = outcomes[0].length;
    if (exact)
        room = length;
    Times<caller_count> times;
    times.take(usual, [&](std::size_t k) { call(k, row, room, outcomes[k]); });
    const auto &ns = times.least;
    std::printf("%-39s%5zu%6zu |%8.0f%8.0f%8.0f |%8.2f%8.2f\n", row.what.c_str(), row.sheet.size(), length, ns[0],
                ns[1], ns[2], ns[0] / ns[1], ns[0] / ns[2]);
}

std::vector<CallRow> accepted_calls() {
    std::vector<CallRow> rows;
    const auto add = [&](const char *where, const Bytes &sheet, std::uint64_t late) {
        const std::string at = std::string(", ") + where;
        rows.push_back({"arrive" + at, sheet, 6, 0, 0, 0, 0});
        rows.push_back({"open_task" + at, sheet, 0, 0, 0, 0, 0});
        rows.push_back({"admit" + at, sheet, 4, 0, 0, 1, 0});
        rows.push_back({"wait_at that blocks" + at, sheet, 8, 0, 0, late, 2});
        rows.push_back({"wait that passes" + at, sheet, 7, 0, 0, 0, 1});
        rows.push_back({"release" + at, sheet, 9, 2, 0, 0, 0});
    };
    add("3 tasks at 2", hall(3, 2, 1), 2);
    add("10 tasks at 4", hall(10, 4, 300), 301);
    add("31 tasks at 16", hall(31, 16, 40000), 40001);
    reference::Table longest; // as above, but that all 32 wait, and that every wait is met
    for (unsigned k = 0; k < 32; ++k) {
        longest.task[k] = {reference::State::blocked, k % 16, 40000};
        for (unsigned p = 0; p < 16; ++p) {
            longest.open[p] = longest.member[k][p] = true;
            longest.phase[k][p] = 40000;
        }
    }
    rows.push_back({"release, the longest", written(longest), 9, 31, 0, 0, 0});
    return rows;
}

std::vector<CallRow> refused_calls() {
    std::vector<CallRow> rows;
    const auto add = [&](const char *where, Bytes sheet) {
        const std::string at = std::string(", ") + where;
        rows.push_back({"18: release" + at, sheet, 9, 3, 0, 0, 18});
        rows.push_back({"42: kind 10" + at, sheet, 10, 0, 0, 0, 42});
        sheet.push_back(0);
        rows.push_back({"35: a byte added" + at, sheet, 6, 0, 0, 0, 35});
    };
    add("4 tasks at 2", hall(4, 2, 1));
    add("10 tasks at 4", hall(10, 4, 300));
    add("31 tasks at 16", hall(31, 16, 40000));
    return rows;
}

void calls(const std::vector<CallRow> &accepted) {
    std::printf("\nCalls\n");
    const char *const columns = "bytes  next | archive     -O2     -O3 |    /-O2    /-O3";
    std::printf("%-39s%s\n", "Into the bytes of the longest sheet", columns);
    for (const CallRow &row : accepted)
        measure(row, false);
    std::printf("%-39s%s\n", "Into as many bytes as the next has", columns);
    for (const CallRow &row : accepted)
        measure(row, true);
    std::printf("%-39s%s\n", "Refused", columns);
    for (const CallRow &row : refused_calls())
        measure(row, false);
}

// After all times are taken: what the linker does at a first call is then not counted, and an emulator may be slower
// from the first thread on.
void stacks(const std::vector<Bytes> &sheets, const std::vector<CallRow> &accepted, Overs &overs) {
    std::size_t verdict[way_count] = {}, call_stack[caller_count] = {};
    for (const Bytes &sheet : sheets)
        for (std::size_t k = 0; k < way_count; ++k)
            verdict[k] = std::max(verdict[k], stack_of([&sheet, k] {
                                      Strip strip;
                                      ways[k](sheet, strip);
                                  }));
    Outcome outcome;
    for (const CallRow &row : accepted)
        for (std::size_t k = 0; k < caller_count; ++k)
            for (std::size_t room : {row.sheet.size() + 8, mollavisce::longest_sheet})
                call_stack[k] = std::max(call_stack[k], stack_of([&row, &outcome, k, room] {
                                             call(k, row, std::min(room, outcome.next.size()), outcome);
                                         }));
    std::printf("\nBytes of stack, the most over all that are accepted\n"
                "of a verdict: route 0 %zu, route 1 %zu, route 2 %zu, -O2 %zu, -O3 %zu\n"
                "of a call: archive %zu, -O2 %zu, -O3 %zu\n",
                verdict[0], verdict[1], verdict[2], verdict[3], verdict[4], call_stack[0], call_stack[1],
                call_stack[2]);
    const auto hold = [&](const std::string &what, std::size_t used, std::size_t limit) {
        if (used > limit)
            overs.push_back({what, static_cast<double>(used), static_cast<double>(limit), "bytes of stack"});
    };
    for (std::size_t route = 0; route < route_count; ++route)
        hold("a verdict, route " + std::to_string(route), verdict[route], verdict_stack_limit);
    hold("a call", call_stack[0], call_stack_limit);
}

void legend(bool timed) {
    std::printf(
        "Time and stack of the archive's two entries beside plain C++ that answers the same (reference.cpp).\n"
        "  bytes, next    length of the sheet, and of the sheet that a call writes\n"
        "  route 0, 1, 2  nanoseconds of a whole verdict, reading and judging, by sheet_verdict: from task to\n"
        "                 task, from event to event, by the fewer\n"
        "  archive        nanoseconds of a whole call, reading, testing and writing, by sheet_call\n"
        "  -O2, -O3       nanoseconds of plain C++, compiled so; it has no routes\n"
        "  0/-O2, /-O2    how many times the time of plain C++ route 0, or the archive, takes; under 1 is faster\n"
        "  mean, worst    of these ratios over the random sheets; to the right of the line, what the worst is\n"
        "                 made of: how many tasks, open phasers, blocked and named tasks, bytes, and both times\n"
        "  over %.1f       how many of the random sheets have a ratio to -O2 over that\n"
        "A time is the least of %d rounds of %d calls in which the ways take turns; of a random sheet, of %d of %d "
        "calls.\n"
        "Limits. What is over one is said in the last lines, and the run fails (exit 1):\n"
        "  %.1f times -O2 for each of the nine accepted sheets by each route%s\n"
        "  %zu bytes of stack for a verdict by each route\n"
        "  %zu bytes of stack for a call\n"
        "The nine are timed up to three times before they fail. Nothing else that is timed has a limit.\n",
        time_limit, usual.count, usual.calls, few.count, few.calls, time_limit,
        timed ? "" : " (not held to: this run is untimed)", verdict_stack_limit, call_stack_limit);
}

} // namespace

int main(int count, char **words) {
    const bool timed = count == 1;
    if (!timed && (count > 2 || std::strcmp(words[1], "untimed") != 0)) {
        std::fprintf(stderr, "usage: bench [untimed]\n");
        return 2;
    }
    const std::vector<Row> nine = {
        {"no task, no phaser", {1, 0, 0}},
        {"document 01's P4", {1, 2, 0, 1, 2, 0, 1, 0, 1, 2, 0, 1, 1, 0, 1, 1, 1, 1, 2, 0, 0, 1, 1}},
        {"5 tasks at 4 phasers, 4 blocked", crowd(5, 4, 4)},
        {"30 tasks at 2 phasers, all blocked", crowd(30, 2, 30)},
        {"30 tasks at 2 phasers, nobody blocked", crowd(30, 2, 0)},
        {"a ring of 32 over 16 phasers", row(true)},
        {"a row of 31 behind one that runs", row(false)},
        {"the longest: 32 at 16, all blocked", crowd(32, 16, 32)},
        {"32 tasks at 16 phasers, nobody blocked", crowd(32, 16, 0)},
    };
    std::vector<Drawn> draws;
    std::vector<Bytes> sheets;
    for (const Row &row : nine)
        sheets.push_back(row.sheet);
    for (unsigned number = 0; number < drawn_count; ++number) {
        draws.push_back(drawn(number));
        sheets.push_back(draws.back().sheet);
    }
    const std::vector<CallRow> accepted = accepted_calls();
    Overs overs;
    legend(timed);
    std::printf("\nVerdicts\n");
    accepted_verdicts(nine, timed, overs);
    refused_verdicts(nine);
    random_verdicts(draws);
    calls(accepted);
    stacks(sheets, accepted, overs);
    for (const Over &over : overs)
        std::printf("Over its limit of %.5g %s: %s, %.5g\n", over.limit, over.unit, over.what.c_str(), over.measured);
    return overs.empty() ? 0 : 1;
}
