/* Runs a session of a compiled network to its end, and writes what its sinks have given.

   The words name the channels to feed and to take from: -NAME a sink, +NAME a source. Standard input has the items of
   the sources, one list a line, in the order of the words. */
#include <inttypes.h>
#include <stdio.h>
#include <stdlib.h>
#include <string.h>

#include "kpn_native.h"

enum { MOST_ENDS = 64, MOST_ITEMS = 100000, STEP = 500, PIECE = 5 };

struct end {
  const char *name;
  size_t channel, count, done;
  int64_t *items;
  bool is_closed;
};

static void check(uint32_t fault, const char *what) {
  if (fault != KPN_OK) {
    fprintf(stderr, "%s: fault %" PRIu32 "\n", what, fault);
    exit(1);
  }
}

static void read_items(struct end *source) {
  char line[32], byte = 0;
  while (source->count < MOST_ITEMS && scanf("%31[-0-9]%c", line, &byte) == 2) {
    source->items[source->count++] = strtoll(line, NULL, 10);
    if (byte == '\n') {
      return;
    }
  }
  byte = (char)getchar();
}

/* Feeds what there is room for, and closes a source after its last item. Tells whether there was anything to do. */
static bool feed(kpn_session *session, struct end *source) {
  size_t fed = 0;
  if (source->is_closed) {
    return false;
  }
  uint32_t fault = kpn_feed(session, source->channel, source->items + source->done, source->count - source->done, &fed);
  source->done += fed;
  if (fault != KPN_NO_MEMORY) {
    check(fault, "feed");
  }
  if (source->done == source->count) {
    check(kpn_close_source(session, source->channel), "close");
    source->is_closed = true;
  }
  return fed > 0 || source->is_closed;
}

static bool take(kpn_session *session, struct end *sink) {
  size_t taken = 0;
  if (sink->count + PIECE > MOST_ITEMS) {
    fprintf(stderr, "too many items\n");
    exit(1);
  }
  check(kpn_take(session, sink->channel, sink->items + sink->count, PIECE, &taken), "take");
  sink->count += taken;
  return taken > 0;
}

/* Closes the sources that nobody reads on, after fewer items. Tells whether there were any. */
static bool close_rest(kpn_session *session, struct end *ends, size_t count) {
  bool any = false;
  for (size_t k = 0; k < count; k++) {
    if (ends[k].name[0] == '+' && !ends[k].is_closed) {
      check(kpn_close_source(session, ends[k].channel), "close");
      ends[k].is_closed = any = true;
    }
  }
  return any;
}

static uint32_t run(kpn_session *session, struct end *ends, size_t count) {
  uint32_t verdict = 0;
  uint64_t commits = 0;
  bool has_moved = true;
  while (has_moved || close_rest(session, ends, count)) {
    has_moved = false;
    for (size_t k = 0; k < count; k++) {
      has_moved = (ends[k].name[0] == '+' ? feed : take)(session, &ends[k]) || has_moved;
    }
    uint32_t fault = kpn_step(session, STEP, &commits);
    check(fault == KPN_PROCESS_FAULTED ? (uint32_t)KPN_OK : fault, "step");
    has_moved = has_moved || commits > 0;
    check(kpn_verdict(session, &verdict), "verdict");
  }
  return verdict;
}

int main(int argc, char **argv) {
  static struct end ends[MOST_ENDS];
  kpn_session session;
  kpn_place place;
  size_t count = 0;
  check(kpn_open(NULL, 0, &session, &place), "open");
  for (int k = 1; k < argc && count < MOST_ENDS; k++) {
    struct end *it = &ends[count++];
    it->name = argv[k];
    it->items = malloc(MOST_ITEMS * sizeof *it->items);
    check(kpn_channel(&session, argv[k] + 1, strlen(argv[k] + 1), &it->channel), argv[k]);
    if (argv[k][0] == '+') {
      read_items(it);
    }
  }
  uint32_t verdict = run(&session, ends, count);
  for (size_t k = 0; k < count; k++) {
    for (size_t item = 0; ends[k].name[0] == '-' && item < ends[k].count; item++) {
      printf("%s %" PRId64 "\n", ends[k].name + 1, ends[k].items[item]);
    }
    free(ends[k].items);
  }
  printf("%s\n", verdict == KPN_ENDED ? "ended" : verdict == KPN_CLOGGED ? "clogged" : "jammed");
  check(kpn_free(&session), "free");
  return 0;
}
