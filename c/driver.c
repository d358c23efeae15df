/* Runs a network on lists, in one call, in one that wants two items of each sink, and then in a session, and prints
   what came of each. Then it prints what wrong numbers and a closed source lead to if nothing is to feed or take.
   tools/clib.py compares it with the program and with drivers in other languages.

   usage: driver DESCRIPTION TRACE COMMITS SINKS [SOURCE=FILE ..]

   SINKS are names with commas. The sources come in the order of the description. A FILE has an item in each line. TRACE
   gets the trace of the run, and TRACE.session that of the session. */
#include <inttypes.h>
#include <stdio.h>
#include <stdlib.h>
#include <string.h>
#include "kpn.h"

enum { MOST_SOURCES = 2048, TURN = 1000, FEW = 2 };

typedef struct {
  char *bytes;
  size_t length;
} text_of_file;

typedef struct {
  int64_t *items;
  size_t count;
} list;

static void *room(size_t count, size_t size) {
  void *made = calloc(count + 1, size);
  if (!made) exit(3);
  return made;
}

static text_of_file load(const char *name) {
  FILE *file = fopen(name, "rb");
  text_of_file text = {NULL, 0};
  size_t most = 1 << 16;
  if (!file) exit(2);
  text.bytes = room(most, 1);
  for (size_t got; (got = fread(text.bytes + text.length, 1, most - text.length, file)) > 0;) {
    text.length += got;
    if (text.length == most && !(text.bytes = realloc(text.bytes, most *= 2))) exit(3);
  }
  fclose(file);
  return text;
}

static void store(const char *name, const char *bytes, size_t length) {
  FILE *file = fopen(name, "wb");
  if (!file || fwrite(bytes, 1, length, file) != length || fclose(file)) exit(2);
}

static list load_list(const char *name) {
  text_of_file text = load(name);
  list made = {room(text.length, sizeof(int64_t)), 0};
  char *end = text.bytes;
  text.bytes[text.length] = 0;
  for (char *at = text.bytes; *at; at = end + 1) made.items[made.count++] = strtoll(at, &end, 10);
  free(text.bytes);
  return made;
}

static void print_items(const int64_t *items, size_t count) {
  for (size_t k = 0; k < count; k++) printf(" %" PRId64, items[k]);
  printf("\n");
}

/* The run in one call: first without room, which tells the sizes, and then with it. TRACE may be null. */
static void run(text_of_file net, const list *lists, size_t sources, kpn_limits limits, const char *trace) {
  size_t lengths[MOST_SOURCES] = {0}, total = 0, at = 0;
  for (size_t k = 0; k < sources; k++) total += lengths[k] = lists[k].count;
  int64_t *items = room(total, sizeof *items);
  for (size_t k = 0; k < sources; k++) {
    memcpy(items + at, lists[k].items, lengths[k] * sizeof *items);
    at += lengths[k];
  }
  kpn_lists given = {items, total, lengths, sources};
  kpn_room none = {NULL, 0, NULL, 0, NULL, 0};
  kpn_ran ran;
  kpn_place place;
  uint32_t fault = kpn_run(net.bytes, net.length, &given, &limits, &none, &ran, &place);
  if (fault == KPN_TOO_SMALL) {
    kpn_room space = {room(ran.item_count, sizeof(int64_t)), ran.item_count, room(ran.sink_count, sizeof(size_t)),
                      ran.sink_count, room(ran.trace_length, 1), ran.trace_length};
    fault = kpn_run(net.bytes, net.length, &given, &limits, &space, &ran, &place);
    printf("run %" PRIu32 " %" PRIu32 " %" PRIu64 "\n", fault, ran.outcome, ran.commits);
    at = 0;
    for (size_t k = 0; fault == KPN_OK && k < ran.sink_count; at += space.lengths[k++]) {
      printf("sink");
      print_items(space.items + at, space.lengths[k]);
    }
    if (trace) store(trace, space.trace, fault == KPN_OK ? ran.trace_length : 0);
    free(space.items);
    free(space.lengths);
    free(space.trace);
  } else {
    printf("run %" PRIu32 " %d %zu\n", fault, place.has_place, place.place);
  }
  free(items);
}

/* Steps until no process is ready or the commits are made, and takes in between. */
static uint32_t go(kpn_session *session, size_t sinks, const size_t *channels, list *taken, uint64_t most) {
  for (uint64_t left = most, made = 1; made > 0;) {
    uint64_t turn = left < TURN ? left : TURN;
    uint32_t fault = kpn_step(session, turn, &made);
    left -= made;
    for (size_t k = 0; k < sinks; k++) {
      size_t got = 1;
      while (!fault && got) {
        taken[k].items = realloc(taken[k].items, (taken[k].count + TURN) * sizeof(int64_t));
        if (!taken[k].items) exit(3);
        fault = kpn_take(session, channels[k], taken[k].items + taken[k].count, TURN, &got);
        taken[k].count += got;
      }
    }
    if (fault) return fault;
  }
  return KPN_OK;
}

static uint32_t feed_all(kpn_session *session, char *const *words, const list *lists, size_t sources) {
  for (size_t k = 0; k < sources; k++) {
    size_t channel, fed;
    uint32_t fault = kpn_channel(session, words[k], strcspn(words[k], "="), &channel);
    if (!fault) fault = kpn_feed(session, channel, lists[k].items, lists[k].count, &fed);
    if (!fault) fault = kpn_close_source(session, channel);
    if (fault) return fault;
  }
  return KPN_OK;
}

static void tell(kpn_session *session, size_t sinks, const size_t *channels, list *taken, const char *trace) {
  uint32_t verdict;
  size_t length;
  uint32_t fault = kpn_verdict(session, &verdict);
  printf("verdict %" PRIu32 " %" PRIu32 "\n", fault, verdict);
  for (size_t k = 0; k < sinks; k++) {
    bool complete;
    fault = kpn_is_complete(session, channels[k], &complete);
    printf("sink %" PRIu32 " %d", fault, complete);
    print_items(taken[k].items, taken[k].count);
  }
  fault = kpn_trace(session, NULL, 0, &length);
  char *text = room(length, 1);
  if (fault == KPN_TOO_SMALL) fault = kpn_trace(session, text, length, &length);
  printf("trace %" PRIu32 "\n", fault);
  store(trace, text, fault ? 0 : length);
  free(text);
}

/* Nothing is to feed or to take: of numbers that no channel has, of the sinks as sources, and of closed sources. */
static void ask_for_nothing(kpn_session *session, char *const *words, size_t sources, size_t sinks,
                            const size_t *channels) {
  size_t channel = SIZE_MAX, count;
  printf("wrong %" PRIu32, kpn_feed(session, channel, NULL, 0, &count));
  printf(" %" PRIu32, kpn_take(session, channel, NULL, 0, &count));
  for (size_t k = 0; k < sinks; k++) {
    printf(" %" PRIu32, kpn_feed(session, channels[k], NULL, 0, &count));
    printf(" %" PRIu32, kpn_take(session, channels[k], NULL, 0, &count));
  }
  for (size_t k = 0; k < sources; k++) {
    if (kpn_channel(session, words[k], strcspn(words[k], "="), &channel)) continue;
    printf(" %" PRIu32, kpn_feed(session, channel, NULL, 0, &count));
    printf(" %" PRIu32, kpn_take(session, channel, NULL, 0, &count));
  }
  printf("\n");
}

static void serve(text_of_file net, char *names, char *const *words, const list *lists, size_t sources, uint64_t most,
                  const char *trace) {
  kpn_session session;
  kpn_place place;
  list taken[MOST_SOURCES] = {{NULL, 0}};
  size_t channels[MOST_SOURCES] = {0}, sinks = 0;
  uint32_t fault = kpn_open(net.bytes, net.length, &session, &place);
  printf("open %" PRIu32 " %d %zu\n", fault, place.has_place, place.place);
  for (char *name = strtok(names, ","); !fault && name && sinks < MOST_SOURCES; name = strtok(NULL, ","))
    fault = kpn_channel(&session, name, strlen(name), &channels[sinks++]);
  if (!fault) fault = feed_all(&session, words, lists, sources);
  if (!fault) fault = go(&session, sinks, channels, taken, most);
  printf("served %" PRIu32 "\n", fault);
  tell(&session, fault ? 0 : sinks, channels, taken, trace);
  ask_for_nothing(&session, words, fault ? 0 : sources, fault ? 0 : sinks, channels);
  for (size_t k = 0; k < MOST_SOURCES; k++) free(taken[k].items);
  kpn_free(&session);
  printf("freed %" PRIu32 "\n", kpn_close_source(&session, 0));
}

int main(int count, char **words) {
  list lists[MOST_SOURCES] = {{NULL, 0}};
  kpn_place place;
  char trace[4096];
  if (count < 5 || count > 5 + MOST_SOURCES) return 2;
  const size_t sources = (size_t)count - 5;
  for (size_t k = 0; k < sources; k++) lists[k] = load_list(strchr(words[5 + k], '=') + 1);
  text_of_file net = load(words[1]);
  uint32_t fault = kpn_check(net.bytes, net.length, &place);
  printf("check %" PRIu32 " %d %zu\n", fault, place.has_place, place.place);
  const uint64_t commits = strtoull(words[3], NULL, 10);
  run(net, lists, sources, (kpn_limits){commits, false, 0, TURN}, words[2]);
  run(net, lists, sources, (kpn_limits){commits, true, FEW, TURN}, NULL);
  snprintf(trace, sizeof trace, "%s.session", words[2]);
  serve(net, words[4], words + 5, lists, sources, commits, trace);
  for (size_t k = 0; k < sources; k++) free(lists[k].items);
  free(net.bytes);
  return 0;
}
