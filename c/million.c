/* Passes a million items through a session of examples/mean.kpn, a number of them in a call, and prints their sum.

   usage: million DESCRIPTION MOST */
#include <inttypes.h>
#include <stdio.h>
#include <stdlib.h>
#include <string.h>
#include "kpn.h"

enum { ITEMS = 1000000, LONGEST = 1 << 16 };

static size_t channel(kpn_session *session, const char *name) {
  size_t number;
  return kpn_channel(session, name, strlen(name), &number) == KPN_OK ? number : SIZE_MAX;
}

/* Steps until no process is ready, and takes in between. */
static uint32_t drain(kpn_session *session, size_t sink, int64_t *room, size_t most, int64_t *sum) {
  for (uint64_t made = 1; made > 0;) {
    size_t taken;
    uint32_t fault = kpn_step(session, UINT64_MAX, &made);
    if (!fault) fault = kpn_take(session, sink, room, most, &taken);
    if (fault) return fault;
    for (size_t k = 0; k < taken; k++) *sum += room[k];
  }
  return KPN_OK;
}

int main(int count, char **words) {
  static char text[LONGEST];
  const size_t most = count == 3 ? strtoul(words[2], NULL, 10) : 0;
  FILE *file = most > 0 ? fopen(words[1], "rb") : NULL;
  if (!file) return 2;
  const size_t length = fread(text, 1, LONGEST, file);
  int64_t *items = calloc(most, sizeof *items), *room = calloc(most, sizeof *room), sum = 0;
  kpn_session session;
  kpn_place place;
  if (!items || !room || kpn_open(text, length, &session, &place)) return 3;
  const size_t source = channel(&session, "signal"), sink = channel(&session, "means");
  for (int64_t next = 0; next < ITEMS;) {
    size_t fed = 0;
    while (fed < most && next < ITEMS) items[fed++] = next++;
    if (kpn_feed(&session, source, items, fed, &fed) || drain(&session, sink, room, most, &sum)) return 4;
  }
  kpn_free(&session);
  printf("%" PRId64 "\n", sum);
  return 0;
}
