/* kpn.hpp: Kahn process networks in a C++17 program. It calls what kpn.h declares, and has nothing to link of its own.
   What kpn.h says of its calls holds here too.

   - A call that fails throws `kpn::error`, which has the number of the fault, its place and its words. Of `feed`,
     `step`, `take` and `move` the error also has what was done before.
   - A `kpn::session` frees itself. It can be moved, not copied.
   - Items are passed as a `kpn::span`: anything with `data()` and `size()`, as a vector, an array or a `std::span`.
   - A network that was compiled with `--prefix NAME` has the session `kpn::basic_session<NAME_calls>`, by NAME.h. */
#ifndef KPN_HPP
#define KPN_HPP

#include <cstddef>
#include <cstdint>
#include <stdexcept>
#include <string>
#include <string_view>
#include <type_traits>
#include <utility>
#include <vector>

#include "kpn.h"

namespace kpn {

/* Elements that belong to somebody else. */
template <class T>
class span {
 public:
  constexpr span() noexcept = default;
  constexpr span(T *data, std::size_t size) noexcept : data_(data), size_(size) {}
  template <std::size_t N>
  constexpr span(T (&array)[N]) noexcept : data_(array), size_(N) {}
  template <class C, class = std::enable_if_t<std::is_convertible_v<decltype(std::declval<C &>().data()), T *>>>
  constexpr span(C &&container) noexcept : data_(container.data()), size_(container.size()) {}

  constexpr T *data() const noexcept { return data_; }
  constexpr std::size_t size() const noexcept { return size_; }

 private:
  T *data_ = nullptr;
  std::size_t size_ = 0;
};

/* The name of a fault, as the program and docs/ERRORS.md have it, or an empty text. */
inline std::string_view fault_name(std::uint32_t number) noexcept { return kpn_fault_name(number); }

/* Why a call has failed. Its words are those of the program's error lines: `22 UnknownName at 145`. */
class error : public std::runtime_error {
 public:
  explicit error(std::uint32_t number, kpn_place place = {false, 0}, kpn_amounts done = {0, 0, 0})
      : error(number, place, done, fault_name(number)) {}
  error(std::uint32_t number, kpn_place place, kpn_amounts done, std::string_view name)
      : std::runtime_error(words(number, place, name)), number_(number), place_(place), done_(done) {}

  std::uint32_t number() const noexcept { return number_; }
  bool has_place() const noexcept { return place_.has_place; }
  std::size_t place() const noexcept { return place_.place; }
  /* What the call had done before. */
  const kpn_amounts &done() const noexcept { return done_; }

 private:
  static std::string words(std::uint32_t number, kpn_place place, std::string_view name) {
    std::string said = std::to_string(number);
    if (!name.empty()) said.append(" ").append(name);
    return place.has_place ? said + " at " + std::to_string(place.place) : said;
  }

  std::uint32_t number_;
  kpn_place place_;
  kpn_amounts done_;
};

/* Throws unless the number is that of success. */
inline void check_fault(std::uint32_t number, kpn_place place = {false, 0}, kpn_amounts done = {0, 0, 0}) {
  if (number != KPN_OK) throw error(number, place, done);
}

/* Throws unless the text describes a network. */
inline void check(std::string_view text) {
  kpn_place place;
  const auto fault = kpn_check(text.data(), text.size(), &place);
  check_fault(fault, place);
}

/* Asks twice: how long a text is, and for the text. A fault goes to `check`. */
template <class Call, class Check>
std::string told_text(Call call, Check check) {
  std::string text;
  std::size_t length = 0;
  auto fault = call(nullptr, std::size_t{0}, &length);
  while (fault == KPN_TOO_SMALL) {
    text.resize(length);
    fault = call(text.data(), text.size(), &length);
    if (fault == KPN_OK) text.resize(length); // with memory refused before, it may have been another text
  }
  check(fault);
  return text;
}

/* Why a text describes no network, in words, or an empty text if it describes one. */
inline std::string explain(std::string_view text) {
  return told_text([&](char *words, std::size_t room, std::size_t *count) {
    return kpn_explain(text.data(), text.size(), words, room, count);
  }, [](std::uint32_t fault) { check_fault(fault); });
}

/* What a run has come to: the items of each sink, in order of channel number, and the trace. */
struct ran {
  std::uint32_t outcome = 0;
  std::uint64_t commits = 0;
  std::vector<std::vector<std::int64_t>> sinks;
  std::string trace;
};

/* Runs a network on the lists of its sources, which come in order of channel number. The network runs twice, since the
   first run tells the sizes. */
inline ran run(std::string_view text, const std::vector<std::vector<std::int64_t>> &sources, const kpn_limits &limits) {
  std::vector<std::int64_t> items;
  std::vector<std::size_t> lengths;
  for (const auto &list : sources) {
    items.insert(items.end(), list.begin(), list.end());
    lengths.push_back(list.size());
  }
  const kpn_lists lists = {items.data(), items.size(), lengths.data(), lengths.size()};
  kpn_room room = {nullptr, 0, nullptr, 0, nullptr, 0};
  kpn_ran told;
  kpn_place place;
  ran made;
  auto fault = kpn_run(text.data(), text.size(), &lists, &limits, &room, &told, &place);
  std::vector<std::int64_t> taken(told.item_count);
  std::vector<std::size_t> counts(told.sink_count);
  if (fault == KPN_TOO_SMALL) {
    made.trace.resize(told.trace_length);
    room = {taken.data(), taken.size(), counts.data(), counts.size(), made.trace.data(), made.trace.size()};
    fault = kpn_run(text.data(), text.size(), &lists, &limits, &room, &told, &place);
  }
  check_fault(fault, place);
  made.outcome = told.outcome;
  made.commits = told.commits;
  auto at = taken.cbegin();
  for (const auto count : counts) {
    made.sinks.emplace_back(at, at + static_cast<std::ptrdiff_t>(count));
    at += static_cast<std::ptrdiff_t>(count);
  }
  return made;
}

/* What a session keeps of what has happened: all, for its trace, or nothing. */
enum class keeping { all, nothing };

/* The calls of a session, as kpn.h has them. */
struct calls {
  static constexpr auto fault_name = kpn_fault_name;
  static constexpr auto open = kpn_open, open_forgetting = kpn_open_forgetting;
  static constexpr auto channel = kpn_channel;
  static constexpr auto feed = kpn_feed;
  static constexpr auto close_source = kpn_close_source, leave_sink = kpn_leave_sink;
  static constexpr auto step = kpn_step;
  static constexpr auto take = kpn_take, look = kpn_look;
  static constexpr auto move = kpn_move;
  static constexpr auto is_complete = kpn_is_complete;
  static constexpr auto verdict = kpn_verdict;
  static constexpr auto count = kpn_count;
  static constexpr auto channel_name = kpn_channel_name, process_name = kpn_process_name;
  static constexpr auto tell_processes = kpn_tell_processes;
  static constexpr auto tell_channel = kpn_tell_channel;
  static constexpr auto trace = kpn_trace;
  static constexpr auto free = kpn_free;
};

/* A run that you feed, step and take from. */
template <class Calls>
class basic_session {
 public:
  explicit basic_session(std::string_view text, keeping keeps = keeping::all) {
    kpn_place place;
    const auto open = keeps == keeping::all ? Calls::open : Calls::open_forgetting;
    const auto fault = open(text.data(), text.size(), &session_, &place);
    check_fault(fault, place);
  }
  basic_session(basic_session &&other) noexcept : session_(std::exchange(other.session_, kpn_session{nullptr})) {}
  basic_session &operator=(basic_session &&other) noexcept {
    std::swap(session_, other.session_);
    return *this;
  }
  basic_session(const basic_session &) = delete;
  basic_session &operator=(const basic_session &) = delete;
  ~basic_session() {
    if (session_.at) Calls::free(&session_);
  }

  /* The number of a channel. */
  std::size_t channel(std::string_view name) {
    std::size_t number;
    check_fault(Calls::channel(&session_, name.data(), name.size(), &number));
    return number;
  }

  void feed(std::size_t source, span<const std::int64_t> items) {
    std::size_t fed;
    const auto fault = Calls::feed(&session_, source, items.data(), items.size(), &fed);
    check_fault(fault, {false, 0}, {fed, 0, 0});
  }
  void feed(std::size_t source, std::int64_t item) { feed(source, span<const std::int64_t>(&item, 1)); }
  void close_source(std::size_t source) { check_fault(Calls::close_source(&session_, source)); }

  /* Steps until no process is ready, or this many commits are made, and returns how many were. */
  std::uint64_t step(std::uint64_t most = UINT64_MAX) {
    std::uint64_t commits;
    const auto fault = Calls::step(&session_, most, &commits);
    check_fault(fault, {false, 0}, {0, commits, 0});
    return commits;
  }

  /* Takes what is there and what there is room for, and returns how many items. */
  std::size_t take(std::size_t sink, span<std::int64_t> room) {
    std::size_t taken;
    const auto fault = Calls::take(&session_, sink, room.data(), room.size(), &taken);
    check_fault(fault, {false, 0}, {0, 0, taken});
    return taken;
  }

  /* Leaves a sink: nothing is taken from it any more, and it is never full. */
  void leave_sink(std::size_t sink) { check_fault(Calls::leave_sink(&session_, sink)); }

  /* Feeds, steps and takes in one call. */
  kpn_amounts move(span<const kpn_item> items, span<kpn_wanted> places, std::uint64_t most = UINT64_MAX) {
    kpn_amounts done;
    const auto fault =
        Calls::move(&session_, items.data(), items.size(), most, places.data(), places.size(), &done);
    check_fault(fault, {false, 0}, done);
    return done;
  }

  bool is_complete(std::size_t channel) {
    bool complete;
    check_fault(Calls::is_complete(&session_, channel, &complete));
    return complete;
  }

  /* 0, KPN_ENDED, KPN_CLOGGED or KPN_JAMMED. */
  std::uint32_t verdict() {
    std::uint32_t told;
    check_fault(Calls::verdict(&session_, &told));
    return told;
  }

  /* How many processes and channels there are. */
  kpn_counts count() {
    kpn_counts counts;
    check_fault(Calls::count(&session_, &counts));
    return counts;
  }
  std::string channel_name(std::size_t channel) {
    return told_text([&](char *name, std::size_t room, std::size_t *length) {
      return Calls::channel_name(&session_, channel, name, room, length);
    }, fail_with);
  }
  std::string process_name(std::size_t process) {
    return told_text([&](char *name, std::size_t room, std::size_t *length) {
      return Calls::process_name(&session_, process, name, room, length);
    }, fail_with);
  }
  kpn_channel_state channel_state(std::size_t channel) {
    kpn_channel_state state;
    check_fault(Calls::tell_channel(&session_, channel, &state));
    return state;
  }

  /* The state of each process, in order of number. */
  std::vector<kpn_process_state> process_states() {
    std::vector<kpn_process_state> states(count().processes);
    std::size_t told;
    check_fault(Calls::tell_processes(&session_, states.data(), states.size(), &told));
    return states;
  }

  /* Copies unread items of a channel, as many as there is room for, and returns how many. They stay unread. */
  std::size_t look(std::size_t channel, span<std::int64_t> room) {
    std::size_t shown;
    check_fault(Calls::look(&session_, channel, room.data(), room.size(), &shown));
    return shown;
  }

  std::string trace() {
    return told_text([&](char *text, std::size_t room, std::size_t *length) {
      return Calls::trace(&session_, text, room, length);
    }, fail_with);
  }

 private:
  static void check_fault(std::uint32_t number, kpn_place place = {false, 0}, kpn_amounts done = {0, 0, 0}) {
    if (number != KPN_OK) throw error(number, place, done, Calls::fault_name(number));
  }
  static void fail_with(std::uint32_t number) { check_fault(number); }

  kpn_session session_ = {nullptr};
};

using session = basic_session<calls>;

}  // namespace kpn

#endif
