// Links the archive and holds its two entries to an independent reading of document 01 (reference.cpp), each call with
// every lent buffer between pages that nobody may touch, the sheet on pages that nobody may write.
//
//     check        bench sheets, odd arguments, damaged and random sheets, every small table, series of calls
//     check -      the same, and lines from standard input, which a third reading (model/model.py) makes:
//                      verdict SHEET ANSWER STRIP
//                      call SHEET KIND TASK PHASER OTHER SORT ROOM ANSWER VALUE LENGTH NEXT
//                  with bytes in hex, none as `-`; ROOM is the length of the buffer for the next sheet
#include "check.hpp"

#include <csignal>
#include <cstring>
#include <iostream>

namespace {

void fault(int) {
    report("a byte outside was touched, or the sheet written");
    std::fflush(stdout);
    _exit(1);
}

void lines(std::istream &lines) {
    for (std::string word; lines >> word;)
        if (word == "verdict")
            verdict_line(lines);
        else if (word == "call")
            call_line(lines);
        else {
            ask(false, "a line that is neither a verdict's nor a call's");
            return;
        }
}

} // namespace

void damaged_bench(const Trial &trial) {
    tell("every damage to a byte, cut and added byte of the bench sheets", [&] {
        for (const Bench &row : bench)
            each_damage(from_hex(row.sheet), trial);
    });
    tell("numbers about every limit in each place of the bench sheets", [&] {
        for (const Bench &row : bench)
            each_number(from_hex(row.sheet), trial);
    });
}

int main(int count, char **words) {
    struct sigaction action = {};
    action.sa_handler = fault;
    sigaction(SIGSEGV, &action, nullptr);
    sigaction(SIGBUS, &action, nullptr);
    std::printf("sheet_verdict\n");
    check_verdicts();
    std::printf("sheet_call\n");
    check_calls();
    if (count == 2 && std::strcmp(words[1], "-") == 0) {
        std::ios::sync_with_stdio(false);
        std::printf("both\n");
        tell("verdicts and calls from standard input", [] { lines(std::cin); });
    }
    tell_answers();
    std::printf("%9lu calls, %lu differences\n", calls, differences);
    return differences == 0 ? 0 : 1;
}
