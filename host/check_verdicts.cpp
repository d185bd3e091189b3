// sheet_verdict, each call with both buffers between pages that nobody may touch, the sheet on pages that nobody may
// write.
#include "check.hpp"
#include "reference.hpp"
#include "sheets.hpp"

#include <mollavisce.hpp>

#include <algorithm>
#include <cstring>

namespace {

using mollavisce::settling_bytes, mollavisce::strip_bytes;

struct Asked {
    const Bytes *sheet;
    std::uint64_t route;
    std::size_t strip_length;
} asked;

void about(const Bytes &sheet, std::uint64_t route, std::size_t strip_length) {
    asked = {&sheet, route, strip_length};
    present = [] {
        return "sheet " + hex(asked.sheet->data(), asked.sheet->size()) + ", route " + std::to_string(asked.route) +
               ", strip of " + std::to_string(asked.strip_length) + " bytes";
    };
}

// One sheet by one route into a strip of a length: the answer, every byte of the strip and of the page about it.
void hold(const Bytes &sheet, std::uint64_t route, std::size_t strip_length = strip_bytes) {
    static Shown sheets;
    static Pages strips(1);
    static const Bytes before = pattern(strips.size);
    static Bytes expected;
    about(sheet, route, strip_length);
    for (bool at_end : {false, true}) {
        const std::uint8_t *lent = sheets.show(sheet, at_end);
        std::uint8_t *strip = strips.buffer(strip_length, at_end);
        std::copy(before.begin(), before.end(), strips.first);
        expected = before;
        const std::uint32_t right = reference::verdict(sheet.data(), sheet.size(), route,
                                                       expected.data() + (strip - strips.first), strip_length);
        ++calls;
        ask(sheet_verdict(lent, sheet.size(), route, strip, strip_length) == right,
            "another answer than the reference's");
        ask(std::memcmp(strips.first, expected.data(), strips.size) == 0, "another strip than the reference's");
    }
}

constexpr std::uint64_t routes[] = {0, 1, 2};

void by_each(const Bytes &sheet) {
    for (std::uint64_t route : routes)
        hold(sheet, route);
}

// What document 01 itself states, by hand and not by the reference.
void stated() {
    for (const Bench &row : bench)
        for (std::uint64_t route : routes) {
            const Bytes sheet = from_hex(row.sheet);
            Bytes strip(strip_bytes), right = from_hex(row.strip);
            right.resize(strip_bytes, 255);
            about(sheet, route, strip_bytes);
            ++calls;
            ask(sheet_verdict(sheet.data(), sheet.size(), route, strip.data(), strip_bytes) == 0,
                "a bench sheet is refused");
            ask(strip == right, "a bench sheet has another strip");
            const auto verdict = mollavisce::judge(sheet, static_cast<mollavisce::Route>(route));
            ask(std::equal(right.begin(), right.end(), verdict.strip.begin()), "judge gives another strip");
        }
}

// Routes, strips and pointers that a careful caller would not hand over.
void odd() {
    // Some are a route in their low bits.
    static const std::uint64_t odd_routes[] = {0, 1, 2, 3, 255, 256, 65537, 1ull << 32, (1ull << 32) + 2, ~0ull};
    static const std::size_t strip_lengths[] = {0, 1, 6, strip_bytes - 1, strip_bytes, strip_bytes + 1, 64, 4096};
    for (const Bench &row : bench)
        for (std::uint64_t route : odd_routes)
            for (std::size_t strip_length : strip_lengths) {
                hold(from_hex(row.sheet), route, strip_length);
                hold({}, route, strip_length);
                hold({2}, route, strip_length);
            }
    static const Bytes none;
    std::uint8_t strip[strip_bytes];
    about(none, 0, 0);
    for (std::uint64_t route : routes) {
        calls += 3;
        ask(sheet_verdict(nullptr, 0, route, strip, strip_bytes) == 30, "null sheet: not 30");
        ask(sheet_verdict(nullptr, 0, route, nullptr, 0) == 40, "null strip: not 40");
        ask(sheet_verdict(nullptr, 0, 3 + route, nullptr, 0) == 41, "null strip and an odd route: not 41");
    }
    using mollavisce::Answer;
    Pages settling(1);
    std::uint8_t *sheet = settling.buffer(settling_bytes, true);
    std::memset(sheet, 0, settling_bytes);
    sheet[0] = 1;
    const auto refusal = mollavisce::judge(nullptr, 23);
    ask(refusal.answer == Answer::sheet_ends && refusal.strip == mollavisce::nobody(), "judge of null: not 30");
    ask(mollavisce::judge(sheet, SIZE_MAX).answer == Answer::bytes_after_sheet, "judge of any length: not 35");
    ask(mollavisce::judge({sheet, 3}).answer == Answer::done, "judge of a span: not 0");
    ask(mollavisce::judge(sheet, 3, static_cast<mollavisce::Route>(3)).answer == Answer::no_such_route, "not 41");
}

// Every input of at most two bytes, and every one of three that begins with the version.
void small() {
    by_each({});
    for (unsigned a = 0; a < 256; ++a) {
        by_each({static_cast<std::uint8_t>(a)});
        for (unsigned b = 0; b < 256; ++b) {
            by_each({static_cast<std::uint8_t>(a), static_cast<std::uint8_t>(b)});
            hold({1, static_cast<std::uint8_t>(a), static_cast<std::uint8_t>(b)}, b % 3);
        }
    }
}

void rings(unsigned count) {
    unsigned next[32];
    for (unsigned k = 0; k < 32; ++k)
        next[k] = (k + 1) % 32;
    const Bytes sheet = stepping(next);
    const auto verdict = mollavisce::judge(sheet);
    about(sheet, 0, strip_bytes);
    ask(verdict.count() == 32 && verdict.ring_length() == 32 && verdict.ring(31) == mollavisce::Task{31},
        "not a ring of all 32");
    by_each(sheet);
    for (; count > 0; --count) {
        for (unsigned &step : next)
            step = below(32);
        by_each(stepping(next));
    }
}

void random_sheets(unsigned count) {
    for (; count > 0; --count) {
        Bytes sheet = written(random_table());
        by_each(sheet);
        for (int damages = 0; damages < 3 && !sheet.empty(); ++damages) {
            damage(sheet);
            hold(sheet, below(3));
        }
    }
}

void longest() {
    const Bytes sheet = written(longest_table());
    about(sheet, 0, strip_bytes);
    ask(sheet.size() == mollavisce::longest_sheet, "the longest sheet has another length");
    by_each(sheet);
    for (std::size_t at = 0; at < sheet.size(); ++at) {
        hold({sheet.begin(), sheet.begin() + static_cast<long>(at)}, at % 3);
        for (unsigned value : {0, 1, 127, 128, 255}) {
            Bytes damaged = sheet;
            damaged[at] = static_cast<std::uint8_t>(value);
            hold(damaged, at % 3);
        }
    }
    static const std::size_t lengths[] = {settling_bytes, settling_bytes + 1, 4096, 12288, 16384};
    for (std::size_t length : lengths) {
        Bytes longer = sheet;
        longer.resize(length, 1);
        by_each(longer);
        by_each(Bytes(length, 1));
        by_each(Bytes(length, 255));
    }
}

} // namespace

void verdict_line(std::istream &line) {
    std::string text, strip_text;
    std::uint32_t answer;
    if (!(line >> text >> answer >> strip_text)) {
        ask(false, "a line that is not a verdict's");
        return;
    }
    const Bytes sheet = from_hex(text == "-" ? "" : text), right = from_hex(strip_text);
    by_each(sheet);
    for (std::uint64_t route : routes) {
        const auto verdict = mollavisce::judge(sheet, static_cast<mollavisce::Route>(route));
        about(sheet, route, strip_bytes);
        ++calls;
        ask(static_cast<std::uint32_t>(verdict.answer) == answer, "another answer than the line's");
        ask(std::equal(right.begin(), right.end(), verdict.strip.begin()), "another strip than the line's");
    }
}

void check_verdicts() {
    tell("bench sheets, as document 01 states them", stated);
    tell("odd routes, strips and pointers", odd);
    damaged_bench(by_each);
    tell("every input of two bytes, and of three after the version", small);
    tell("random tables up to 32 tasks and 16 phasers, and damaged ones", [] { random_sheets(60000); });
    tell("rings and tails over all 32 tasks", [] { rings(10000); });
    tell("random bytes", [] {
        for (unsigned count = 100000; count > 0; --count)
            hold(random_bytes(), below(3));
    });
    tell("the longest sheet, cut and damaged at each byte, and longer inputs", longest);
}
