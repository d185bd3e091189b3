// Each call with its four buffers between pages that nobody may touch, the sheet on pages that nobody may write.
#include "held_call.hpp"
#include "check.hpp"
#include "sheets.hpp"

#include <cstring>

namespace {

struct Asked {
    const Bytes *sheet;
    Call call;
    std::size_t room;
    Outcome right, given;
} asked;

std::string described() {
    const auto numbers = [](std::initializer_list<std::uint64_t> all) {
        std::string text;
        for (std::uint64_t number : all)
            text.append(" ").append(std::to_string(number));
        return text;
    };
    const auto &[kind, task, phaser, other, sort] = asked.call;
    return "sheet " + hex(asked.sheet->data(), asked.sheet->size()) + ", kind, task, phaser, other, sort" +
           numbers({kind, task, phaser, other, sort}) + ", room for" + numbers({asked.room}) +
           " bytes: answer, value, length" + numbers({asked.given.answer, asked.given.value, asked.given.length}) +
           ", should be" + numbers({asked.right.answer, asked.right.value, asked.right.length});
}

// Of all calls that were held to the reference.
unsigned long answers[64], others, accepted[10];

void count(const Call &call, std::uint32_t answer) {
    ++calls;
    if (answer < 10 && call.kind < 10)
        ++accepted[call.kind];
    ++(answer < std::size(answers) ? answers[answer] : others);
}

// A number that the library writes, at one end of its page. What stands there before is no answer's, so that a number
// that is not written shows, and so do those beside it.
class Slot {
  public:
    std::uint64_t *lend(bool at_end) {
        words = reinterpret_cast<std::uint64_t *>(pages.buffer(sizeof before, at_end));
        std::copy(std::begin(before), std::end(before), words);
        return lent = words + (at_end ? std::size(before) - 1 : 0);
    }
    bool alone() const {
        for (std::size_t k = 0; k < std::size(before); ++k)
            if (words + k != lent && words[k] != before[k])
                return false;
        return true;
    }

  private:
    static constexpr std::uint64_t before[] = {0xa5a5a5a5a5a5a5a5, 0xa5a5a5a5a5a5a5a6, 0xa5a5a5a5a5a5a5a7,
                                               0xa5a5a5a5a5a5a5a8};
    Pages pages{1};
    std::uint64_t *words = nullptr, *lent = nullptr;
};

struct Lent {
    Shown sheet;
    Pages next{1};
    Slot value, length;
    const Bytes before = pattern(next.size);
    Bytes right = Bytes(next.size), expected = before; // the reference's own buffer; the page as it should be

    Lent() { std::copy(before.begin(), before.end(), next.first); }
};

} // namespace

Outcome referred(const Bytes &sheet, const Call &call, std::uint8_t *next, std::size_t room) {
    Outcome outcome;
    outcome.answer = reference::call(sheet.data(), sheet.size(), call.kind, call.task, call.phaser, call.other,
                                     call.sort, next, room, &outcome.value, &outcome.length);
    return outcome;
}

Bytes hold(const Bytes &sheet, const Call &call, std::size_t room, bool null) {
    static Lent lent;
    const auto &before = lent.before;
    const std::uint8_t *shown = null && sheet.empty() ? nullptr : lent.sheet.show(sheet, below(2));
    std::uint8_t *next = lent.next.buffer(room, below(2));
    std::uint64_t *value = lent.value.lend(below(2)), *length = lent.length.lend(below(2));
    asked = {&sheet, call, room, referred(sheet, call, lent.right.data(), room), {}};
    present = described;
    // All but the next sheet stays as it was, whatever the reference does with its own buffer.
    const auto from = before.begin() + (next - lent.next.first), to = from + static_cast<long>(asked.right.length);
    const auto expected = lent.expected.begin() + (next - lent.next.first);
    std::copy_n(lent.right.begin(), asked.right.length, expected);
    const std::uint32_t answer = sheet_call(shown, sheet.size(), call.kind, call.task, call.phaser, call.other,
                                            call.sort, null && room == 0 ? nullptr : next, room, value, length);
    asked.given = {answer, *value, *length};
    count(call, answer);
    ask(asked.given == asked.right, "another outcome than the reference's");
    ask(lent.value.alone() && lent.length.alone(), "a byte beside the value or the length was written");
    const bool same = std::memcmp(lent.next.first, lent.expected.data(), lent.next.size) == 0;
    ask(same, "another next sheet than the reference's");
    Bytes after(next, next + std::min<std::size_t>(*length, room));
    // Where all is the same, only the next sheet's bytes have to be put back.
    std::copy(from, to, expected);
    if (same)
        std::copy(from, to, next);
    else
        std::copy(before.begin(), before.end(), lent.next.first);
    return after;
}

Outcome given() { return asked.given; }

void call_line(std::istream &line) {
    std::string text, next_text;
    Call call;
    std::size_t room;
    Outcome right;
    if (!(line >> text >> call.kind >> call.task >> call.phaser >> call.other >> call.sort >> room >> right.answer >>
          right.value >> right.length >> next_text)) {
        ask(false, "a line that is not a call's");
        return;
    }
    const Bytes sheet = from_hex(text == "-" ? "" : text), next = hold(sheet, call, room);
    ask(asked.given == right, "another outcome than the line's");
    ask(next == from_hex(next_text == "-" ? "" : next_text), "another next sheet than the line's");
}

void tell_answers() {
    static const char *const names[10] = {"open_task", "end_task", "open_phaser", "close_phaser", "admit",
                                          "leave",     "arrive",   "wait",        "wait_at",      "release"};
    std::printf("Accepted calls of sheet_call, by kind:");
    for (int kind = 0; kind < 10; ++kind)
        std::printf("%s %s %lu", kind ? "," : "", names[kind], accepted[kind]);
    std::printf("\nAnswers of sheet_call, and how often:");
    unsigned long all = others;
    for (std::size_t answer = 0; answer < std::size(answers); ++answer) {
        all += answers[answer];
        if (answers[answer])
            std::printf("%s %zu: %lu", answer ? "," : "", answer, answers[answer]);
        const bool can_come = answer <= 2 || (answer >= 10 && answer <= 20) || (answer >= 30 && answer <= 36) ||
                              answer == 42 || answer == 43;
        if (can_come != (answers[answer] > 0)) {
            ++differences;
            std::printf(" (%zu: %s)", answer, can_come ? "never came" : "must not come");
        }
    }
    std::printf("\n%9lu calls of sheet_call\n", all);
}
