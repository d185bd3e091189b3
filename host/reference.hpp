// Document 01 read a second time, with document 02's sheet of a table and its counts of the graphs, in plain C++ that
// shares nothing with the library: to compare answers, bytes, lines and times with.
#pragma once

#include <cstddef>
#include <cstdint>
#include <string>

namespace reference {

enum class State : std::uint8_t { free, running, blocked };

struct Task {
    State state = State::free;
    std::uint32_t phaser = 0, phase = 0; // the awaited event of a blocked task
};

// A fresh table has no task and no open phaser.
struct Table {
    bool open[16] = {};
    Task task[32];
    bool member[32][16] = {};
    std::uint32_t phase[32][16] = {};
};

struct Verdict {
    std::uint32_t named = 0; // bit k for task k
    std::uint8_t ring_length = 0;
    std::uint8_t ring[32];
};

// Reads into a fresh table. 0, or a refusal from 30 to 36, after which the table is not to be used.
std::uint32_t read(const std::uint8_t *sheet, std::size_t length, Table &table);

// A table's sheet at the start of a buffer: its length, or 0 and no byte moved if the buffer is shorter.
std::size_t write(const Table &table, std::uint8_t *buffer, std::size_t length);

struct Called {
    std::uint32_t answer;
    std::uint64_t value;
};

// One of the ten calls, by its row of document 01: 42, the row's tests, its effect on the table. From 10 up the table
// is as before. The table is sound, as each that was read is, so 44 is not tested.
Called make(Table &table, std::uint64_t kind, std::uint64_t task, std::uint64_t phaser, std::uint64_t other);

// What sheet_call should do.
std::uint32_t call(const std::uint8_t *sheet, std::size_t sheet_length, std::uint64_t kind, std::uint64_t task,
                   std::uint64_t phaser, std::uint64_t other, std::uint64_t sort, std::uint8_t *next,
                   std::size_t next_length, std::uint64_t *value, std::uint64_t *length);

// The named tasks by the definition, and the ring.
Verdict judge(const Table &table);

// What sheet_verdict should do. By the definition there is one set of named tasks, so no route has a way of its own.
std::uint32_t verdict(const std::uint8_t *sheet, std::size_t length, std::uint64_t route, std::uint8_t *strip,
                      std::size_t strip_length);

// Document 02, M-101.
struct Density {
    std::uint64_t blocked = 0, events = 0;             // blocked tasks, distinct awaited events
    std::uint64_t task = 0, event = 0, task_event = 0; // edges of the three graphs
};
Density density(const Table &table);

// What sheetdensity should print of a file.
std::string densities(const std::uint8_t *file, std::size_t length);

} // namespace reference
