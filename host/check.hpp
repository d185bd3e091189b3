// The parts of check: one for each entry of the archive.
#pragma once

#include "guarded.hpp"
#include "sheets.hpp"

#include <istream>

void check_verdicts(); // check_verdicts.cpp
void check_calls();    // check_calls.cpp

// Document 01's sheets with every damage to a byte, and with numbers about every limit: both entries are tried so.
void damaged_bench(const Trial &trial);

// One line of model/model.py, after its first word.
void verdict_line(std::istream &line);
void call_line(std::istream &line);

// How often each answer of sheet_call came, and accepted calls of each kind. Every answer that it can give must have.
void tell_answers();

template <class Trial>
void tell(const char *what, Trial trial) {
    const unsigned long before = calls;
    trial();
    std::printf("%9lu calls  %s\n", calls - before, what);
    std::fflush(stdout);
}
