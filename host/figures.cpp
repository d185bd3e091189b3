// The header's figures and answers are the code's. `host/run` takes figures.inc out of crates/*/src, and this is
// compiled and not run.
#include <mollavisce.hpp>

#include <string_view>

namespace code {
#include <figures.inc>
}

using mollavisce::Answer, mollavisce::number;

constexpr bool begins_alike() {
    for (std::size_t at = 0; at < std::size(code::FRESH_SHEET); ++at)
        if (mollavisce::fresh_sheet[at] != code::FRESH_SHEET[at])
            return false;
    return mollavisce::fresh_sheet.size() == std::size(code::FRESH_SHEET);
}
static_assert(begins_alike());

static_assert(mollavisce::longest_sheet == code::LONGEST_SHEET);
static_assert(mollavisce::settling_bytes == code::SETTLING_BYTES);
static_assert(mollavisce::strip_bytes == code::STRIP_BYTES);
static_assert(static_cast<std::uint64_t>(mollavisce::Kind::release) + 1 == code::KINDS);
static_assert(static_cast<std::uint64_t>(mollavisce::Route::fewer) == code::LARGEST_ROUTE);

static_assert(number(Answer::done) == code::DONE);
static_assert(number(Answer::wait_passed) == code::WAIT_PASSED);
static_assert(number(Answer::now_blocked) == code::NOW_BLOCKED);
static_assert(number(Answer::no_such_task) == code::NoTask);
static_assert(number(Answer::no_such_phaser) == code::NoPhaser);
static_assert(number(Answer::caller_blocked) == code::CallerBlocked);
static_assert(number(Answer::not_member) == code::NotMember);
static_assert(number(Answer::already_member) == code::AlreadyMember);
static_assert(number(Answer::phase_too_large) == code::PhaseTooLarge);
static_assert(number(Answer::none_free) == code::NoneFree);
static_assert(number(Answer::not_blocked) == code::NotBlocked);
static_assert(number(Answer::not_reached) == code::NotReached);
static_assert(number(Answer::in_use) == code::InUse);
static_assert(number(Answer::target_blocked) == code::TargetBlocked);
static_assert(number(Answer::no_named_task_to_step_to) == code::NoStep);
static_assert(number(Answer::sheet_ends) == code::EndsInside);
static_assert(number(Answer::needless_group) == code::NeedlessGroup);
static_assert(number(Answer::number_too_large) == code::TooLarge);
static_assert(number(Answer::list_not_rising) == code::NotRising);
static_assert(number(Answer::unknown_version_or_state) == code::Unknown);
static_assert(number(Answer::bytes_after_sheet) == code::BytesAfter);
static_assert(number(Answer::phaser_not_open) == code::NotOpen);
static_assert(number(Answer::strip_too_short) == code::ShortStrip);
static_assert(number(Answer::no_such_route) == code::NoRoute);
static_assert(number(Answer::no_such_kind) == code::NoKind);
static_assert(number(Answer::buffer_too_short) == code::ShortBuffer);
static_assert(number(Answer::not_sound) == code::NotSound);

// And the code has no answer that the header has no words for.
constexpr bool all_have_words() {
    for (const std::uint64_t answer : code::ANSWERS)
        if (std::string_view(words(static_cast<Answer>(answer))) == words(static_cast<Answer>(99)))
            return false;
    return true;
}
static_assert(all_have_words());
