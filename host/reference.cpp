#include "reference.hpp"

#include <cstring>
#include <utility>

namespace reference {
namespace {

constexpr std::uint32_t largest_phase = 65535, unlimited = UINT32_MAX;
constexpr std::size_t longest_sheet = 2291;
constexpr std::uint64_t largest_route = 2, most_sheets = 1000;
constexpr std::uint32_t largest_length = 4096;

struct Reader {
    const std::uint8_t *at, *end;
    std::uint32_t refusal = 0;

    bool refuse(std::uint32_t answer) {
        refusal = answer;
        return false;
    }

    bool number(std::uint32_t largest, std::uint32_t &value) {
        value = 0;
        for (int group = 0; group < 3; ++group) {
            if (at == end)
                return refuse(30);
            const std::uint8_t byte = *at++;
            value |= std::uint32_t{byte} % 128 << 7 * group;
            if (byte < 128) {
                if (group > 0 && byte == 0)
                    return refuse(31);
                return value <= largest || refuse(32);
            }
        }
        return refuse(32);
    }

    // `least` is one more than the number before it in its list, or 0.
    bool rising(std::uint32_t largest, std::uint32_t &least, std::uint32_t &value) {
        if (!number(largest, value))
            return false;
        if (value < least)
            return refuse(33);
        least = value + 1;
        return true;
    }

    bool task(Table &table, std::uint32_t &least) {
        std::uint32_t k, state, memberships, p, next = 0;
        if (!rising(31, least, k) || !number(unlimited, state))
            return false;
        if (state > 1)
            return refuse(34);
        Task &task = table.task[k];
        task.state = state == 1 ? State::blocked : State::running;
        if (state == 1) {
            if (!number(15, task.phaser))
                return false;
            if (!table.open[task.phaser])
                return refuse(36);
            if (!number(largest_phase, task.phase))
                return false;
        }
        if (!number(16, memberships))
            return false;
        for (; memberships > 0; --memberships) {
            if (!rising(15, next, p))
                return false;
            if (!table.open[p])
                return refuse(36);
            if (!number(largest_phase, table.phase[k][p]))
                return false;
            table.member[k][p] = true;
        }
        return true;
    }

    bool sheet(Table &table) {
        std::uint32_t version, phasers, tasks, p, next_phaser = 0, next_task = 0;
        if (!number(unlimited, version))
            return false;
        if (version != 1)
            return refuse(34);
        if (!number(16, phasers))
            return false;
        for (; phasers > 0; --phasers) {
            if (!rising(15, next_phaser, p))
                return false;
            table.open[p] = true;
        }
        if (!number(32, tasks))
            return false;
        for (; tasks > 0; --tasks)
            if (!task(table, next_task))
                return false;
        return at == end || refuse(35);
    }
};

std::uint8_t *put(std::uint8_t *at, std::uint32_t value) {
    for (; value >= 128; value /= 128)
        *at++ = static_cast<std::uint8_t>(128 + value % 128);
    *at++ = static_cast<std::uint8_t>(value);
    return at;
}

// Into at least longest_sheet bytes; the sheet's length.
std::size_t put_sheet(const Table &table, std::uint8_t *sheet) {
    std::uint32_t phasers = 0, tasks = 0;
    for (bool open : table.open)
        phasers += open;
    for (const Task &task : table.task)
        tasks += task.state != State::free;
    std::uint8_t *at = put(put(sheet, 1), phasers);
    for (std::uint32_t p = 0; p < 16; ++p)
        if (table.open[p])
            at = put(at, p);
    at = put(at, tasks);
    for (std::uint32_t k = 0; k < 32; ++k) {
        const Task &task = table.task[k];
        if (task.state == State::free)
            continue;
        at = put(put(at, k), task.state == State::blocked);
        if (task.state == State::blocked)
            at = put(put(at, task.phaser), task.phase);
        std::uint32_t memberships = 0;
        for (bool member : table.member[k])
            memberships += member;
        at = put(at, memberships);
        for (std::uint32_t p = 0; p < 16; ++p)
            if (table.member[k][p])
                at = put(put(at, p), table.phase[k][p]);
    }
    return static_cast<std::size_t>(at - sheet);
}

// Tests that several rows begin with: a refusal, or 0 where all are passed.

std::uint32_t running(const Table &table, std::uint64_t task) {
    if (task > 31 || table.task[task].state == State::free)
        return 10;
    return table.task[task].state == State::blocked ? 12 : 0;
}

std::uint32_t opened(const Table &table, std::uint64_t phaser) { return phaser > 15 || !table.open[phaser] ? 11 : 0; }

std::uint32_t running_at(const Table &table, std::uint64_t task, std::uint64_t phaser) {
    const std::uint32_t refusal = running(table, task);
    return refusal != 0 ? refusal : opened(table, phaser);
}

std::uint32_t member(const Table &table, std::uint64_t task, std::uint64_t phaser) {
    if (const std::uint32_t refusal = running_at(table, task, phaser))
        return refusal;
    return table.member[task][phaser] ? 0 : 13;
}

bool impedes(const Table &table, std::uint32_t k, std::uint64_t phaser, std::uint64_t phase) {
    return table.member[k][phaser] && table.phase[k][phaser] < phase;
}

bool reached(const Table &table, std::uint64_t phaser, std::uint64_t phase) {
    for (std::uint32_t k = 0; k < 32; ++k)
        if (impedes(table, k, phaser, phase))
            return false;
    return true;
}

// The rows, in document 01's order

Called open_task(Table &table) {
    for (std::uint32_t k = 0; k < 32; ++k)
        if (table.task[k].state == State::free) {
            table.task[k].state = State::running;
            return {0, k};
        }
    return {16, 0};
}

Called end_task(Table &table, std::uint64_t task) {
    if (const std::uint32_t refusal = running(table, task))
        return {refusal, 0};
    table.task[task].state = State::free;
    for (std::uint32_t p = 0; p < 16; ++p) {
        table.member[task][p] = false;
        table.phase[task][p] = 0;
    }
    return {0, 0};
}

Called open_phaser(Table &table, std::uint64_t task) {
    if (const std::uint32_t refusal = running(table, task))
        return {refusal, 0};
    for (std::uint32_t p = 0; p < 16; ++p)
        if (!table.open[p]) {
            table.open[p] = table.member[task][p] = true;
            table.phase[task][p] = 0;
            return {0, p};
        }
    return {16, 0};
}

Called close_phaser(Table &table, std::uint64_t phaser) {
    if (const std::uint32_t refusal = opened(table, phaser))
        return {refusal, 0};
    for (std::uint32_t k = 0; k < 32; ++k)
        if (table.member[k][phaser] || (table.task[k].state == State::blocked && table.task[k].phaser == phaser))
            return {19, 0};
    table.open[phaser] = false;
    return {0, 0};
}

Called admit(Table &table, std::uint64_t task, std::uint64_t phaser, std::uint64_t target) {
    if (const std::uint32_t refusal = member(table, task, phaser))
        return {refusal, 0};
    if (target > 31 || table.task[target].state == State::free)
        return {10, 0};
    if (table.task[target].state == State::blocked)
        return {20, 0};
    if (table.member[target][phaser])
        return {14, 0};
    table.member[target][phaser] = true;
    return {0, table.phase[target][phaser] = table.phase[task][phaser]};
}

Called leave(Table &table, std::uint64_t task, std::uint64_t phaser) {
    if (const std::uint32_t refusal = member(table, task, phaser))
        return {refusal, 0};
    table.member[task][phaser] = false;
    table.phase[task][phaser] = 0;
    return {0, 0};
}

Called arrive(Table &table, std::uint64_t task, std::uint64_t phaser) {
    if (const std::uint32_t refusal = member(table, task, phaser))
        return {refusal, 0};
    if (table.phase[task][phaser] == largest_phase)
        return {15, 0};
    return {0, ++table.phase[task][phaser]};
}

// A wait whose tests are passed.
Called wait_for(Table &table, std::uint64_t task, std::uint64_t phaser, std::uint64_t phase) {
    if (reached(table, phaser, phase))
        return {1, 0};
    table.task[task] = {State::blocked, static_cast<std::uint32_t>(phaser), static_cast<std::uint32_t>(phase)};
    return {2, 0};
}

Called wait(Table &table, std::uint64_t task, std::uint64_t phaser) {
    if (const std::uint32_t refusal = member(table, task, phaser))
        return {refusal, 0};
    return wait_for(table, task, phaser, table.phase[task][phaser]);
}

Called wait_at(Table &table, std::uint64_t task, std::uint64_t phaser, std::uint64_t phase) {
    if (const std::uint32_t refusal = running_at(table, task, phaser))
        return {refusal, 0};
    if (phase > largest_phase)
        return {15, 0};
    return wait_for(table, task, phaser, phase);
}

Called release(Table &table, std::uint64_t number) {
    if (number > 31 || table.task[number].state == State::free)
        return {10, 0};
    Task &task = table.task[number];
    if (task.state != State::blocked)
        return {17, 0};
    if (!reached(table, task.phaser, task.phase))
        return {18, 0};
    task.state = State::running;
    return {0, 0};
}

std::uint32_t lowest(std::uint32_t set) { return static_cast<std::uint32_t>(__builtin_ctz(set)); }

std::uint32_t size(std::uint32_t set) { return static_cast<std::uint32_t>(__builtin_popcount(set)); }

// An awaited event, and the blocked tasks about it, bit k for task k.
struct Awaited {
    std::uint32_t phaser, phase;
    std::uint32_t waiters = 0, impeders = 0;
};

struct AwaitedEvents {
    Awaited event[32];
    std::size_t count = 0;

    const Awaited *begin() const { return event; }
    const Awaited *end() const { return event + count; }
    Awaited &of(const Task &task) {
        for (std::size_t e = 0; e < count; ++e)
            if (event[e].phaser == task.phaser && event[e].phase == task.phase)
                return event[e];
        event[count] = {task.phaser, task.phase};
        return event[count++];
    }
};

AwaitedEvents awaited_events(const Table &table) {
    AwaitedEvents events;
    std::uint32_t blocked = 0;
    for (std::uint32_t k = 0; k < 32; ++k)
        if (table.task[k].state == State::blocked) {
            blocked |= 1u << k;
            events.of(table.task[k]).waiters |= 1u << k;
        }
    for (std::size_t e = 0; e < events.count; ++e)
        for (std::uint32_t left = blocked; left != 0; left &= left - 1)
            if (impedes(table, lowest(left), events.event[e].phaser, events.event[e].phase))
                events.event[e].impeders |= 1u << lowest(left);
    return events;
}

// A run over a file: the lines so far, and what is added up.
struct Run {
    std::string lines;
    std::uint64_t sheets = 0, refused = 0;
    Density total;

    Run &say(const char *word, std::uint64_t number) {
        lines.append(word).append(" ").append(std::to_string(number));
        return *this;
    }
    Run &say(const Density &counts) {
        return say(" blocked", counts.blocked)
            .say(" events", counts.events)
            .say(" task", counts.task)
            .say(" event", counts.event)
            .say(" task-event", counts.task_event);
    }
    void end_line() { lines.push_back('\n'); }

    void add(const Density &counts) {
        total.blocked += counts.blocked;
        total.events += counts.events;
        total.task += counts.task;
        total.event += counts.event;
        total.task_event += counts.task_event;
    }

    void sheet(const std::uint8_t *bytes, std::size_t length) {
        say("sheet", sheets + refused + 1);
        Table table;
        if (const std::uint32_t refusal = read(bytes, length, table)) {
            ++refused;
            say(" refused", refusal);
        } else {
            ++sheets;
            const Density counts = density(table);
            add(counts);
            say(counts);
        }
        end_line();
    }

    // 0 at the file's end, or what stopped the run.
    std::uint32_t file(Reader reader) {
        for (std::uint32_t length; reader.at != reader.end; reader.at += length) {
            if (sheets + refused == most_sheets)
                return 35;
            if (!reader.number(largest_length, length))
                return reader.refusal;
            if (length > reader.end - reader.at)
                return 30;
            sheet(reader.at, length);
        }
        return 0;
    }
};

} // namespace

std::uint32_t read(const std::uint8_t *sheet, std::size_t length, Table &table) {
    Reader reader{sheet, sheet + length};
    return reader.sheet(table) ? 0 : reader.refusal;
}

std::size_t write(const Table &table, std::uint8_t *buffer, std::size_t length) {
    if (length >= longest_sheet)
        return put_sheet(table, buffer);
    std::uint8_t sheet[longest_sheet]; // only a sheet's end tells whether it fits
    const std::size_t written = put_sheet(table, sheet);
    if (length < written)
        return 0;
    std::memcpy(buffer, sheet, written);
    return written;
}

Called make(Table &table, std::uint64_t kind, std::uint64_t task, std::uint64_t phaser, std::uint64_t other) {
    switch (kind) {
    case 0:
        return open_task(table);
    case 1:
        return end_task(table, task);
    case 2:
        return open_phaser(table, task);
    case 3:
        return close_phaser(table, phaser);
    case 4:
        return admit(table, task, phaser, other);
    case 5:
        return leave(table, task, phaser);
    case 6:
        return arrive(table, task, phaser);
    case 7:
        return wait(table, task, phaser);
    case 8:
        return wait_at(table, task, phaser, other);
    case 9:
        return release(table, task);
    default:
        return {42, 0};
    }
}

std::uint32_t call(const std::uint8_t *sheet, std::size_t sheet_length, std::uint64_t kind, std::uint64_t task,
                   std::uint64_t phaser, std::uint64_t other, std::uint64_t, std::uint8_t *next,
                   std::size_t next_length, std::uint64_t *value, std::uint64_t *length) {
    *value = *length = 0;
    if (kind > 9)
        return 42;
    Table table;
    if (const std::uint32_t refusal = read(sheet, sheet_length, table))
        return refusal;
    const Called called = make(table, kind, task, phaser, other);
    if (called.answer >= 10)
        return called.answer;
    const std::size_t written = write(table, next, next_length);
    if (written == 0)
        return 43;
    *value = called.value;
    *length = written;
    return called.answer;
}

Verdict judge(const Table &table) {
    Verdict verdict;
    std::uint32_t impeders[32]; // of each blocked task's event
    for (std::uint32_t t = 0; t < 32; ++t) {
        const Task &task = table.task[t];
        if (task.state != State::blocked)
            continue;
        verdict.named |= 1u << t;
        impeders[t] = 0;
        for (std::uint32_t u = 0; u < 32; ++u)
            if (impedes(table, u, task.phaser, task.phase))
                impeders[t] |= 1u << u;
    }
    // The greatest set in which each is blocked and impeded by one of the set holds every totally deadlocked set, and
    // is one itself unless it is empty. So it is their union.
    for (std::uint32_t before = 0; before != verdict.named;) {
        before = verdict.named;
        for (std::uint32_t left = before; left != 0; left &= left - 1)
            if ((impeders[lowest(left)] & verdict.named) == 0)
                verdict.named &= ~(1u << lowest(left));
    }
    if (verdict.named == 0)
        return verdict;
    // After 32 steps the walk is on the part that repeats: go round it once to find its lowest, once more to write it.
    std::uint32_t present = lowest(verdict.named);
    const auto step = [&] { return present = lowest(impeders[present] & verdict.named); };
    for (int steps = 0; steps < 32; ++steps)
        step();
    const std::uint32_t start = present;
    std::uint32_t least = start;
    while (step() != start)
        least = present < least ? present : least;
    while (present != least)
        step();
    do
        verdict.ring[verdict.ring_length++] = static_cast<std::uint8_t>(present);
    while (step() != least);
    return verdict;
}

std::uint32_t verdict(const std::uint8_t *sheet, std::size_t length, std::uint64_t route, std::uint8_t *strip,
                      std::size_t strip_length) {
    if (route > largest_route)
        return 41;
    if (strip_length < 38)
        return 40;
    Table table;
    if (const std::uint32_t refusal = read(sheet, length, table))
        return refusal;
    const Verdict found = judge(table);
    for (int byte = 0; byte < 4; ++byte)
        strip[byte] = static_cast<std::uint8_t>(found.named >> 8 * byte);
    strip[4] = static_cast<std::uint8_t>(size(found.named));
    strip[5] = found.ring_length;
    std::memset(strip + 6, 255, 32);
    std::memcpy(strip + 6, found.ring, found.ring_length);
    return 0;
}

Density density(const Table &table) {
    const AwaitedEvents events = awaited_events(table);
    Density counts;
    counts.events = events.count;
    for (const Awaited &e : events) {
        counts.blocked += size(e.waiters);
        counts.task += size(e.waiters) * size(e.impeders);
        for (const Awaited &f : events)
            counts.event += (e.impeders & f.waiters) != 0;
        counts.task_event += size(e.waiters) + size(e.impeders);
    }
    return counts;
}

std::string densities(const std::uint8_t *file, std::size_t length) {
    Run run;
    if (const std::uint32_t stop = run.file({file, file + length}))
        run.say("stopped", stop);
    else
        run.say("total sheets", run.sheets).say(" refused", run.refused).say(run.total);
    run.end_line();
    return std::move(run.lines);
}

} // namespace reference
