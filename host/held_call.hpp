// A call of sheet_call, held to the reference.
#pragma once

#include "guarded.hpp"

#include <mollavisce.hpp>

struct Call {
    std::uint64_t kind, task, phaser, other, sort;
};

struct Outcome {
    std::uint32_t answer;
    std::uint64_t value, length;
    bool operator==(const Outcome &) const = default;
};

// What the reference does: the outcome, and the next sheet in a buffer of a length.
Outcome referred(const Bytes &sheet, const Call &call, std::uint8_t *next, std::size_t room);

// One call into a buffer of a length: the answer, both numbers, every byte of the buffer and of the page about it. Each
// of the four lies at the begin or the end of its pages; with `null`, one of no bytes is null. Hands back the next
// sheet, or none after a refusal.
Bytes hold(const Bytes &sheet, const Call &call, std::size_t room = mollavisce::longest_sheet, bool null = false);

// What the library gave in the last `hold`.
Outcome given();
