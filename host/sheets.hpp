// Sheets for check: those of document 01, random ones, damaged ones.
#pragma once

#include "guarded.hpp"
#include "reference.hpp"

#include <functional>

struct Bench {
    const char *sheet, *strip; // hex; the strip without its last 255s
};
extern const Bench bench[9]; // P1 to P9

// The same numbers in every run.
unsigned below(unsigned bound);
template <class Value, std::size_t size>
Value one_of(const Value (&values)[size]) {
    return values[below(size)];
}

Bytes written(const reference::Table &table);

reference::Table random_table();

// All 32 tasks blocked, the lowest who impedes task k's event being next[k].
Bytes stepping(const unsigned (&next)[32]);

// All 32 tasks blocked and members of all 16 phasers, every phase as long as there is: 2,291 bytes.
reference::Table longest_table();

// One byte replaced, added or taken out, or the sheet cut.
void damage(Bytes &sheet);

using Trial = std::function<void(const Bytes &)>;

// Each byte replaced by each other, the sheet cut before each, and each byte added.
void each_damage(const Bytes &sheet, const Trial &trial);

// Each number of a sheet, all of one byte, replaced by numbers about every limit, short, with needless groups or
// endless, and the sheet cut after it.
void each_number(const Bytes &sheet, const Trial &trial);

// Bytes of a few values only, so that many get past the first fields.
Bytes random_bytes();
