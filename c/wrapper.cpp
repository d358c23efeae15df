/* Calls what kpn.hpp has, and compares what it tells with numbers by hand. It prints the first line that differs.
   tools/clib.py builds it with the compilers that are there, under sanitizers. With kpn_native.h before it, and its
   network compiled, it calls what a compiled network has; with KPN_FIXED that has one session. */
#include "kpn.hpp"

#include <array>
#include <cstdio>
#include <cstdlib>

using items = std::vector<std::int64_t>;

static void is(bool true_, int line) {
  if (true_) return;
  std::printf("wrapper.cpp:%d\n", line);
  std::exit(1);
}
#define IS(condition) is((condition), __LINE__)

static const char mean[] =
    "process mean(in s; out m) { while 1 { read s x; sum = (sum + x); n = (n + 1); write m (sum / n); } }\n"
    "network { limit 64; source s; sink m cap 1; r = mean(s; m); }\n";

/* The words of the error of a call. */
template <class Call>
static std::string words_of(Call call) {
  try {
    call();
  } catch (const kpn::error &why) {
    return why.what();
  }
  return "no error";
}

#ifndef KPN_NATIVE_H
static void texts() {
  kpn::check(mean);
  IS(words_of([] { kpn::check("network { sink b cap 1; }"); }) == "13 NoWriter at 0");
  IS(words_of([] { kpn::session one("network { x }"); }).substr(0, 13) == "21 Grammar at");
  const auto ran = kpn::run(mean, {{3, 5, 10, -2}}, {1000, false, 0, 1000});
  IS(ran.outcome == KPN_ENDED && ran.commits > 8 && ran.sinks.size() == 1 && ran.sinks[0] == (items{3, 4, 6, 4}));
  IS(ran.trace.substr(0, 12) == "kpn-trace 2\n");
  IS(words_of([] { kpn::run(mean, {}, {1, false, 0, 1}); }) == "60 Lists");
}
#endif

static void calls() {
  kpn::session one(mean);
  const auto s = one.channel("s"), m = one.channel("m");
  one.feed(s, items{3, 5});
  one.feed(s, 10);
#ifndef KPN_NATIVE_H
  IS(one.step(3) == 3);
#endif
  IS(one.step() > 0);
  std::array<std::int64_t, 8> room{};
  IS(one.take(m, room) == 1 && room[0] == 3);
  one.step();
  std::int64_t few[1];
  IS(one.take(m, few) == 1 && few[0] == 4);
  IS(!one.is_complete(m) && one.verdict() == 0);
  one.close_source(s);
  IS(words_of([&] { one.feed(s, 1); }) == "44 SourceClosed");
  IS(words_of([&] { one.channel("t"); }) == "64 NoChannel");
  one.step();
  IS(one.take(m, room) == 1 && one.take(m, room) == 0);
  one.step();
  IS(one.is_complete(m) && one.verdict() == KPN_ENDED);
#ifndef KPN_NATIVE_H
  IS(one.trace().substr(0, 12) == "kpn-trace 2\n");
#endif
}

static void moves() {
  kpn::session one(mean);
  const auto s = one.channel("s"), m = one.channel("m");
  const kpn_item given[] = {{s, -2}, {s, 4}};
  std::vector<kpn_wanted> places = {{m, 7, false}, {m, 7, true}};
  auto done = one.move(given, places);
  IS(done.fed == 2 && done.commits > 0 && done.served == 2);
  IS(places[0].has_item && places[0].item == -2 && !places[1].has_item && places[1].item == 7);
  try {
    one.move(std::array<kpn_item, 2>{{{s, 1}, {m, 1}}}, places);
    IS(false);
  } catch (const kpn::error &why) {
    IS(why.number() == KPN_NO_SUCH_END && !why.has_place() && why.done().fed == 1 && why.done().served == 0);
  }
  done = one.move({}, places, 0);
  IS(done.fed == 0 && done.commits == 0 && done.served == 2 && !places[0].has_item);
}

static void tells() {
#ifndef KPN_NATIVE_H
  IS(kpn::explain(mean).empty() && kpn::explain("network {\n  x }") == "21 Grammar at byte 14, line 2, column 5");
  IS(kpn::explain("network { sink b cap 1; }") == "13 NoWriter at channel 0");
  IS(kpn::fault_name(KPN_NO_TRACE) == "NoTrace" && kpn::fault_name(25).empty() && kpn::fault_name(99).empty());
#endif
  kpn::session one(mean, kpn::keeping::nothing);
  const auto s = one.channel("s"), m = one.channel("m");
  IS(one.count().processes == 1 && one.count().channels == 2);
  IS(one.channel_name(s) == "s" && one.channel_name(m) == "m" && one.process_name(0) == "r");
  IS(words_of([&] { one.channel_name(2); }) == "64 NoChannel");
  IS(words_of([&] { one.process_name(1); }) == "67 NoProcess");
  one.feed(s, items{3, 5, 10});
  one.step();
  auto told = one.channel_state(s);
  IS(told.writer == KPN_CALLER && told.reader == 0 && told.got == 2 && told.unread == 1);
  IS(!told.is_closed && !told.is_left);
  told = one.channel_state(m);
  IS(told.writer == 0 && told.reader == KPN_CALLER && told.got == 0 && told.unread == 1);
  IS(one.process_states()[0].state == KPN_STATE_WAITS_FULL && one.process_states()[0].channel == m);
  std::array<std::int64_t, 2> seen{7, 7};
  IS(one.look(s, seen) == 1 && seen[0] == 10 && seen[1] == 7 && one.look(m, seen) == 1 && seen[0] == 3);
  IS(words_of([&] { one.look(2, seen); }) == "64 NoChannel");
  one.close_source(s);
  one.leave_sink(m);
  one.leave_sink(m);
  IS(one.step() > 0 && one.channel_state(s).is_closed && one.channel_state(m).is_left);
  IS(one.process_states()[0].state == KPN_STATE_WAITS_EMPTY && one.process_states()[0].channel == s && one.look(m, seen) == 0);
  IS(one.channel_state(s).got == 3 && one.channel_state(m).unread == 3 && one.verdict() == KPN_ENDED);
  std::int64_t room[1];
  IS(words_of([&] { one.take(m, room); }) == "46 SinkLeft");
  IS(words_of([&] { one.leave_sink(s); }) == "43 NoSuchEnd");
#ifndef KPN_FIXED
  IS(words_of([&] { one.trace(); }) == "66 NoTrace");
#endif
}

#ifndef KPN_FIXED
static void owners() {
  kpn::session one(mean), two(mean);
  one.feed(one.channel("s"), 5);
  kpn::session three = std::move(one);
  two = std::move(three);
  two.step();
  std::int64_t room[2];
  IS(two.take(two.channel("m"), room) == 1 && room[0] == 5);
  IS(words_of([&] { one.step(); }) == "62 NoSession");
}
#endif

int main() {
#ifndef KPN_NATIVE_H
  texts();
#endif
  calls();
  moves();
  tells();
#ifndef KPN_FIXED
  owners();
#endif
  std::puts("wrapper: as by hand");
  return 0;
}
