#include "drawn_call.hpp"

#include <algorithm>

using reference::State, reference::Table;

namespace {

// One of the wanted numbers below a bound, or the bound if there is none.
template <class Wanted>
unsigned wanted_one(unsigned bound, Wanted wanted) {
    unsigned found = 0, chosen = bound;
    for (unsigned number = 0; number < bound; ++number)
        if (wanted(number) && below(++found) == 0)
            chosen = number;
    return chosen;
}

// How often each kind is drawn.
const unsigned weights[moods][10] = {{8, 0, 4, 0, 16, 1, 6, 1, 2, 1},
                                     {1, 1, 1, 1, 4, 2, 16, 6, 8, 12},
                                     {0, 6, 0, 4, 0, 10, 4, 1, 1, 8},
                                     {1, 1, 1, 1, 1, 1, 1, 1, 1, 1}};

std::uint64_t drawn_kind(unsigned mood) {
    unsigned all = 0, kind = 0;
    for (unsigned weight : weights[mood])
        all += weight;
    for (unsigned left = below(all); left >= weights[mood][kind]; ++kind)
        left -= weights[mood][kind];
    return kind;
}

} // namespace

Call any_call() {
    const auto number = [](unsigned bound) { return below(6) ? below(bound) : one_of(odd_numbers); };
    return {below(20) ? below(10) : one_of(odd_kinds), number(32), number(16), number(33), one_of(odd_numbers)};
}

Call likely_call(const Table &table, std::uint64_t kind) {
    const auto runs = [&](unsigned k) { return table.task[k].state == State::running; };
    const auto waits = [&](unsigned k) { return table.task[k].state == State::blocked; };
    const auto impedes = [&](unsigned k, unsigned p, unsigned n) {
        return table.member[k][p] && table.phase[k][p] < n;
    };
    const auto nobody = [&](auto which) { return wanted_one(32, which) == 32; };
    Call call = {kind, wanted_one(32, runs), wanted_one(16, [&](unsigned p) { return table.open[p]; }),
                 wanted_one(32, [&](unsigned k) { return table.task[k].state != State::free; }), one_of(odd_numbers)};
    if (kind == 3 && below(4))
        call.phaser = wanted_one(16, [&](unsigned p) {
            return table.open[p] &&
                   nobody([&](unsigned k) { return table.member[k][p] || (waits(k) && table.task[k].phaser == p); });
        });
    if (kind >= 4 && kind <= 7 && call.task < 32)
        call.phaser = wanted_one(16, [&](unsigned p) { return table.member[call.task][p]; });
    if (const unsigned k = wanted_one(32, waits); kind == 6 && k < 32 && below(2)) { // let on whom a task waits for
        const reference::Task &task = table.task[k];
        const unsigned late =
            wanted_one(32, [&](unsigned u) { return runs(u) && impedes(u, task.phaser, task.phase); });
        if (late < 32) {
            call.task = late;
            call.phaser = task.phaser;
        }
    }
    if (kind == 4 && call.phaser < 16 && below(8))
        call.other = wanted_one(32, [&](unsigned k) { return runs(k) && !table.member[k][call.phaser]; });
    if (kind == 8 && call.phaser < 16) {
        const unsigned k = wanted_one(32, [&](unsigned u) { return table.member[u][call.phaser]; });
        call.other = (k < 32 ? table.phase[k][call.phaser] : 0) + below(3);
    }
    if (kind == 9) {
        call.task = wanted_one(32, [&](unsigned k) {
            const reference::Task &task = table.task[k];
            return waits(k) && nobody([&](unsigned u) { return impedes(u, task.phaser, task.phase); });
        });
        if (call.task == 32)
            call.task = wanted_one(32, waits);
    }
    return call;
}

Call drawn_call(const Table &table, unsigned mood, unsigned most) {
    const auto live = std::count_if(std::begin(table.task), std::end(table.task),
                                    [](const reference::Task &task) { return task.state != State::free; });
    Call call = any_call();
    for (int tries = below(10) ? 3 : 0; tries > 0; --tries) {
        const std::uint64_t kind = drawn_kind(mood);
        call = likely_call(table, kind == 0 && live >= most && below(20) ? 6 : kind);
        Table next = table;
        if (reference::make(next, call.kind, call.task, call.phaser, call.other).answer < 10)
            break;
    }
    return call;
}
