// What must compile with the header, and what must not: compiled as C++17 and later, and not run. `host/run` also
// shows that an answer which nobody looks at is a warning.
#include <mollavisce.hpp>

#include <string>
#include <string_view>
#include <type_traits>
#include <vector>
#if __cplusplus >= 202002L
#include <span>
#endif

namespace {

using namespace mollavisce;

// Task, gate and phase are not exchangeable, and a plain number is none of them.
template <class Given, class Wanted>
constexpr bool becomes = std::is_constructible_v<Wanted, Given>;
static_assert(!becomes<Task, Phaser> && !becomes<Task, Phase> && !becomes<Phaser, Task> && !becomes<Phaser, Phase> &&
              !becomes<Phase, Task> && !becomes<Phase, Phaser>);

template <class Sort>
void take(Sort);
template <class Sort, class = void>
struct TakesBraces : std::false_type {};
template <class Sort>
struct TakesBraces<Sort, std::void_t<decltype(take<Sort>({3u}))>> : std::true_type {};
static_assert(TakesBraces<std::uint64_t>::value);

template <class Sort>
constexpr bool plain = std::is_convertible_v<std::uint64_t, Sort> || std::is_convertible_v<int, Sort> ||
                       std::is_convertible_v<Sort, std::uint64_t> || TakesBraces<Sort>::value;
static_assert(!plain<Task> && !plain<Phaser> && !plain<Phase>);

template <auto method, class... Given>
constexpr bool takes = std::is_nothrow_invocable_r_v<Called, decltype(method), Hall &, Given...>;
static_assert(takes<&Hall::open_task> && takes<&Hall::end_task, Task> && takes<&Hall::open_phaser, Task> &&
              takes<&Hall::close_phaser, Phaser> && takes<&Hall::admit, Task, Phaser, Task> &&
              takes<&Hall::leave, Task, Phaser> && takes<&Hall::arrive, Task, Phaser> &&
              takes<&Hall::wait, Task, Phaser> && takes<&Hall::wait_at, Task, Phaser, Phase> &&
              takes<&Hall::release, Task>);
static_assert(!takes<&Hall::end_task, Phaser> && !takes<&Hall::close_phaser, Task> && !takes<&Hall::release, Phaser> &&
              !takes<&Hall::arrive, Phaser, Task> && !takes<&Hall::arrive, Task, Task> &&
              !takes<&Hall::admit, Task, Task, Phaser> && !takes<&Hall::wait_at, Task, Phase, Phaser> &&
              !takes<&Hall::wait_at, Task, Phaser, Task> && !takes<&Hall::wait_at, Task, Phaser, int>);
static_assert(!std::is_invocable_v<decltype(&Verdict::names), Verdict, Phaser> &&
              !std::is_invocable_v<decltype(&Verdict::names), Verdict, unsigned>);

// A hall is a value, fresh from the start; copying can't fail.
static_assert(std::is_trivially_copyable_v<Hall> && std::is_nothrow_default_constructible_v<Hall>);
constexpr Hall fresh;
static_assert(fresh == Hall() && fresh.size() == 3 && fresh.data()[0] == 1 && fresh.data()[1] == 0);

// What nobody answered is no answer, and what was refused has nobody's number.
static_assert(Verdict().answer == Answer::not_asked && !Verdict().accepted() && !Verdict().names(Task{0}));
static_assert(Called().answer == Answer::not_asked && !Called().accepted());
static_assert(Called{Answer::done, 3}.task() == Task{3} && Called{Answer::wait_passed, 0}.accepted());
static_assert(Called{Answer::none_free, 0}.task() != Task{0} && Called{Answer::none_free, 0}.phaser() != Phaser{0});
static_assert(Verdict().ring(0) == Task{nobodys_number} && Verdict().ring(1000) == Task{nobodys_number});

// Bytes of the three types, as a pointer and a length or as what has both.
template <class... Given>
constexpr bool judges = std::is_nothrow_constructible_v<Bytes, Given...>;
static_assert(judges<Hall> && judges<const std::uint8_t *, int> && judges<std::byte *, int> && judges<char *, int> &&
              judges<std::nullptr_t, int>);
static_assert(judges<std::vector<std::uint8_t>> && judges<std::array<std::byte, 9>> && judges<std::string> &&
              judges<std::string_view> && judges<const std::uint8_t (&)[9]>);
static_assert(!judges<const int *, int> && !judges<const void *, int> && !judges<std::vector<int>> &&
              !judges<std::wstring> && !judges<const char *>);
#if __cplusplus >= 202002L
static_assert(judges<std::span<const std::uint8_t>> && judges<std::span<std::byte>> && judges<std::span<char, 9>> &&
              !judges<std::span<int>>);
#endif

static_assert(noexcept(judge(nullptr, 23)) &&noexcept(judge({fresh.data(), 3})) &&noexcept(judge(fresh)));
static_assert(noexcept(judge(fresh, Route::events)) &&noexcept(judge("", 1, Route::fewer)));
static_assert(noexcept(Hall().load(nullptr, 23)) &&noexcept(Hall().load({fresh.data(), 3})));

} // namespace
