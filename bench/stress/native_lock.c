/* Lets a session of a compiled network go, mostly in lock step, and prints all that it gives and tells. What is fed,
   taken and asked for follows from a number, so that two objects of one network have to print the same.

   usage: native_lock SEED STEPS WIDTH [FILE], where items have up to WIDTH bits. With a FILE the session opens its
   text, and a process that faults is not printed when it does: so a session of libkpn prints the same. */
#include <inttypes.h>
#include <stdio.h>
#include <stdlib.h>

#include "kpn_native.h"

enum { MOST_ENDS = 64, MOST_PARTS = 300, MOST_TAKEN = 5, COMMITS = 20000, MOST_TEXT = 1 << 20 };

struct ends {
  size_t channels[MOST_ENDS], count;
};

static uint64_t state;
static char text[MOST_TEXT];
static size_t length;

/* A number below another one. */
static uint64_t chosen(uint64_t below) {
  state = state * UINT64_C(6364136223846793005) + 1442695040888963407;
  return (state >> 33) % below;
}

static int64_t item_of(unsigned width) {
  uint64_t found = chosen(UINT64_C(1) << 30) << 31 ^ chosen(UINT64_C(1) << 30);
  return (int64_t)(found >> (63 - width)) - (int64_t)(UINT64_C(1) << (width - 1));
}

/* A network with a loop that does not end in time is compared no longer. */
static void check_end(uint64_t commits) {
  if (commits >= COMMITS) {
    exit(0);
  }
}

static void check(const char *what, uint32_t fault) {
  if (fault != KPN_OK && fault != KPN_SOURCE_CLOSED && fault != KPN_SINK_LEFT) {
    printf("%s: %" PRIu32 "\n", what, fault);
  }
}

/* What is printed of a step. */
static uint32_t shown_of(uint32_t fault) {
  return length > 0 && fault == KPN_PROCESS_FAULTED ? KPN_OK : fault;
}

static void find(kpn_session *session, struct ends *sources, struct ends *sinks) {
  kpn_counts counts;
  kpn_channel_state told;
  check("count", kpn_count(session, &counts));
  for (size_t c = 0; c < counts.channels; c++) {
    check("tell", kpn_tell_channel(session, c, &told));
    if (told.writer == KPN_CALLER) {
      sources->channels[sources->count++] = c;
    } else if (told.reader == KPN_CALLER) {
      sinks->channels[sinks->count++] = c;
    }
  }
}

static void take(kpn_session *session, size_t sink) {
  int64_t items[MOST_TAKEN];
  size_t taken;
  check("take", kpn_take(session, sink, items, 1 + chosen(MOST_TAKEN), &taken));
  for (size_t k = 0; k < taken; k++) {
    printf(" %zu:%" PRId64, sink, items[k]);
  }
}

static void tell(kpn_session *session) {
  static kpn_process_state states[MOST_PARTS];
  kpn_channel_state told;
  size_t count, shown;
  int64_t item;
  uint32_t verdict;
  bool complete;
  check("tell", kpn_tell_processes(session, states, MOST_PARTS, &count));
  for (size_t p = 0; p < count; p++) {
    printf(" %" PRIu32 "@%zu", states[p].state, states[p].channel);
  }
  for (size_t c = 0; kpn_tell_channel(session, c, &told) == KPN_OK; c++) {
    check("look", kpn_look(session, c, &item, 1, &shown));
    check("complete", kpn_is_complete(session, c, &complete));
    printf(" [%zu %zu %d %d %d", told.got, told.unread, told.is_closed, told.is_left, complete);
    printf(shown ? " %" PRId64 "]" : "]", item);
  }
  check("verdict", kpn_verdict(session, &verdict));
  printf(" = %" PRIu32, verdict);
}

/* One item of each source by one call, and perhaps one of each sink. */
static void move(kpn_session *session, const struct ends *sources, const struct ends *sinks, unsigned width) {
  kpn_item items[MOST_ENDS];
  kpn_wanted places[MOST_ENDS];
  kpn_amounts amounts;
  for (size_t k = 0; k < sources->count; k++) {
    items[k] = (kpn_item){sources->channels[k], item_of(width)};
  }
  for (size_t k = 0; k < sinks->count; k++) {
    places[k] = (kpn_wanted){sinks->channels[k], 0, false};
  }
  size_t wanted = chosen(8) ? sinks->count : 0;
  printf(" move %" PRIu32, shown_of(kpn_move(session, items, sources->count, COMMITS, places, wanted, &amounts)));
  check_end(amounts.commits);
  for (size_t k = 0; k < amounts.served; k++) {
    if (places[k].has_item) {
      printf(" %zu:%" PRId64, places[k].channel, places[k].item);
    }
  }
}

/* The same by several calls, and now and then with fewer items or more. */
static void go(kpn_session *session, const struct ends *sources, const struct ends *sinks, unsigned width) {
  uint64_t commits;
  size_t fed;
  bool is_even = chosen(4) > 0;
  for (size_t k = 0; k < sources->count; k++) {
    for (uint64_t left = is_even ? 1 : chosen(4); left > 0; left--) {
      int64_t item = item_of(width);
      check("feed", kpn_feed(session, sources->channels[k], &item, 1, &fed));
    }
  }
  printf(" step %" PRIu32, shown_of(kpn_step(session, COMMITS, &commits)));
  check_end(commits);
  for (size_t k = 0; k < sinks->count; k++) {
    if (chosen(8)) {
      take(session, sinks->channels[k]);
    }
  }
}

int main(int count, char **words) {
  struct ends sources = {.count = 0}, sinks = {.count = 0};
  kpn_session session;
  kpn_place place;
  uint64_t commits;
  FILE *file = count == 5 ? fopen(words[4], "rb") : NULL;
  if (count != 4 && !file) {
    return 2;
  }
  length = file ? fread(text, 1, MOST_TEXT, file) : 0;
  state = strtoull(words[1], NULL, 10);
  unsigned width = (unsigned)atoi(words[3]);
  check("open", kpn_open_forgetting(text, length, &session, &place));
  find(&session, &sources, &sinks);
  for (int left = atoi(words[2]); left > 0; left--) {
    (chosen(4) ? move : go)(&session, &sources, &sinks, width);
    if (chosen(10) == 0) {
      tell(&session);
    }
    if (chosen(200) == 0 && sinks.count) {
      check("leave", kpn_leave_sink(&session, sinks.channels[chosen(sinks.count)]));
    }
    printf("\n");
  }
  for (size_t k = 0; k < sources.count; k++) {
    check("close", kpn_close_source(&session, sources.channels[k]));
  }
  for (int round = 0; round < 200; round++) {
    printf("%" PRIu32, shown_of(kpn_step(&session, COMMITS, &commits)));
    check_end(commits);
    for (size_t k = 0; k < sinks.count; k++) {
      take(&session, sinks.channels[k]);
    }
    printf("\n");
  }
  tell(&session);
  check("free", kpn_free(&session));
  return 0;
}
