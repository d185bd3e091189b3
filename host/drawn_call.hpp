// Calls to try on a table: odd ones, and such as keep a hall going.
#pragma once

#include "held_call.hpp"
#include "sheets.hpp"

// Some are a number that there is in their low 8, 16 or 32 bits.
inline constexpr std::uint64_t odd_numbers[] = {
    0,     1,     2,     9,          15,          16,          31,         32,         255,       256,  65534,
    65535, 65536, 65537, 0xffffffff, 0x100000000, 0x100000001, 1ull << 63, ~0ull >> 1, ~0ull - 1, ~0ull};
inline constexpr std::uint64_t odd_kinds[] = {10,    11,    16,          255,         256,        265,
                                              65535, 65536, 0x100000000, 0x100000006, 1ull << 63, ~0ull};

// Numbers that there may be, and some odd ones.
Call any_call();

// A call of this kind that has good hope of being accepted.
Call likely_call(const reference::Table &table, std::uint64_t kind);

// A hall fills up, works, empties, or does whatever comes.
constexpr unsigned moods = 4;

// A call on a hall that keeps to so many tasks, most often one that is accepted.
Call drawn_call(const reference::Table &table, unsigned mood, unsigned most);
