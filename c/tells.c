/* Asks two sessions of a network, one that keeps what has happened and one that forgets it, for all that kpn.h has to
   tell, and prints what both say. A call that returns KPN_NO_MEMORY is made again, so what it prints does not depend on
   the memory that is refused. It ends with 1 if the two differ.

   usage: tells DESCRIPTION SOURCES SINKS ROUNDS

   SOURCES and SINKS are names with commas, or -. In each round each source gets a number, and each sink gives what it
   has. After half of the rounds the first sink is left, and the sources are closed. tools/clib.py calls it. */
#include <inttypes.h>
#include <stdio.h>
#include <stdlib.h>
#include <string.h>
#include "kpn.h"

enum { MOST_ENDS = 64, MOST_PARTS = 2048, COMMITS = 300, MOST_TEXT = 1 << 16, MOST_SHOWN = 3 };

typedef struct {
  size_t channels[MOST_ENDS];
  size_t count;
} ends;

/* What a session tells, as text. */
typedef struct {
  char text[MOST_TEXT];
  size_t length;
} told;

#define SAY(it, ...)                                                                                   \
  do {                                                                                                 \
    (it)->length += (size_t)snprintf((it)->text + (it)->length, sizeof (it)->text - (it)->length, __VA_ARGS__); \
    if ((it)->length >= sizeof (it)->text) exit(2);                                                    \
  } while (0)

/* Makes a call until memory is there. */
#define UNREFUSED(fault, call)                                           \
  do {                                                                   \
    fault = call;                                                        \
  } while (fault == KPN_NO_MEMORY || fault == KPN_TEXT_NO_MEMORY)

static uint32_t find(kpn_session *session, const char *names, ends *found) {
  for (const char *name = names; *name && strcmp(names, "-"); name += strspn(name, ",")) {
    const size_t length = strcspn(name, ",");
    if (found->count == MOST_ENDS) return KPN_TOO_SMALL;
    uint32_t fault = kpn_channel(session, name, length, &found->channels[found->count]);
    if (fault) return fault;
    found->count++;
    name += length;
  }
  return KPN_OK;
}

static void tell_names(kpn_session *session, told *out) {
  kpn_counts counts;
  char name[32];
  size_t length;
  SAY(out, "counts %" PRIu32, kpn_count(session, &counts));
  for (size_t p = 0; p <= counts.processes; p++) {
    const uint32_t fault = kpn_process_name(session, p, name, sizeof name, &length);
    SAY(out, " %" PRIu32 " %.*s", fault, (int)length, name);
  }
  for (size_t c = 0; c <= counts.channels; c++) {
    const uint32_t fault = kpn_channel_name(session, c, name, sizeof name, &length);
    SAY(out, " %" PRIu32 " %.*s", fault, (int)length, name);
  }
  SAY(out, "\n");
}

static void tell(kpn_session *session, told *out) {
  static kpn_process_state states[MOST_PARTS];
  kpn_channel_state channel;
  int64_t items[MOST_SHOWN];
  size_t count;
  uint32_t verdict;
  SAY(out, "states %" PRIu32, kpn_tell_processes(session, states, MOST_PARTS, &count));
  for (size_t p = 0; p < count; p++) SAY(out, " %" PRIu32 ":%zu", states[p].state, states[p].channel);
  for (size_t c = 0; kpn_tell_channel(session, c, &channel) == KPN_OK; c++) {
    SAY(out, " [%zu %zu %zu %zu %d %d", channel.writer, channel.reader, channel.got, channel.unread,
        channel.is_closed, channel.is_left);
    SAY(out, " %" PRIu32, kpn_look(session, c, items, MOST_SHOWN, &count));
    for (size_t k = 0; k < count; k++) SAY(out, " %" PRId64, items[k]);
    SAY(out, "]");
  }
  const uint32_t fault = kpn_verdict(session, &verdict);
  SAY(out, " %" PRIu32 " %" PRIu32 "\n", fault, verdict);
}

static void take(kpn_session *session, const ends *sinks, told *out) {
  for (size_t k = 0; k < sinks->count; k++) {
    for (;;) {
      int64_t item;
      size_t got;
      uint32_t fault;
      UNREFUSED(fault, kpn_take(session, sinks->channels[k], &item, 1, &got));
      if (fault || !got) break;
      SAY(out, "%zu:%" PRId64 " ", k, item);
    }
  }
}

static void leave(kpn_session *session, const ends *sources, const ends *sinks, told *out) {
  uint32_t fault;
  if (sinks->count) {
    UNREFUSED(fault, kpn_leave_sink(session, sinks->channels[0]));
    SAY(out, "left %" PRIu32 " ", fault);
  }
  for (size_t k = 0; k < sources->count; k++) {
    UNREFUSED(fault, kpn_close_source(session, sources->channels[k]));
    SAY(out, "closed %" PRIu32 " ", fault);
  }
}

static void go(kpn_session *session, const ends *sources, const ends *sinks, int rounds, told *out) {
  tell_names(session, out);
  for (int round = 0; round < rounds; round++) {
    uint32_t fault;
    uint64_t made, left = COMMITS;
    size_t fed;
    const int64_t item = round;
    if (round == rounds / 2) leave(session, sources, sinks, out);
    for (size_t k = 0; k < sources->count; k++)
      UNREFUSED(fault, kpn_feed(session, sources->channels[k], &item, 1, &fed));
    do {
      fault = kpn_step(session, left, &made);
      left -= made;
    } while (fault == KPN_NO_MEMORY);
    tell(session, out);
    take(session, sinks, out);
    SAY(out, "step %" PRIu32 "\n", fault);
  }
}

/* Opens a session, and lets it tell all. */
static void serve(uint32_t (*open)(const char *, size_t, kpn_session *, kpn_place *), const char *text, size_t length,
                  char **words, told *out, uint32_t *trace_fault) {
  kpn_session session;
  kpn_place place;
  ends sources = {{0}, 0}, sinks = {{0}, 0};
  size_t wanted;
  uint32_t fault;
  UNREFUSED(fault, open(text, length, &session, &place));
  if (!fault) fault = find(&session, words[2], &sources);
  if (!fault) fault = find(&session, words[3], &sinks);
  SAY(out, "open %" PRIu32 "\n", fault);
  if (!fault) go(&session, &sources, &sinks, atoi(words[4]), out);
  UNREFUSED(*trace_fault, kpn_trace(&session, NULL, 0, &wanted));
  SAY(out, "free %" PRIu32 "\n", kpn_free(&session));
}

static void explain(const char *text, size_t length) {
  char words[100];
  size_t count;
  uint32_t fault;
  UNREFUSED(fault, kpn_explain(text, length, words, sizeof words, &count));
  printf("explain %" PRIu32 " %.*s\n", fault, (int)count, words);
}

int main(int count, char **words) {
  static char text[MOST_TEXT];
  static told kept, forgotten;
  uint32_t traces[2];
  FILE *file = count == 5 ? fopen(words[1], "rb") : NULL;
  if (!file) return 2;
  const size_t length = fread(text, 1, MOST_TEXT, file);
  fclose(file);
  serve(kpn_open, text, length, words, &kept, &traces[0]);
  serve(kpn_open_forgetting, text, length, words, &forgotten, &traces[1]);
  printf("%straces %" PRIu32 " %" PRIu32 " %s\n", kept.text, traces[0], traces[1], kpn_fault_name(traces[1]));
  explain(text, length);
  explain(text, length / 2);
  return kept.length != forgotten.length || memcmp(kept.text, forgotten.text, kept.length) != 0;
}
