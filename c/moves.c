/* Feeds numbers to the sources of a network and takes what comes, by kpn_move alone. After KPN_NO_MEMORY it goes on
   where the call has stopped, so what it prints does not depend on the memory that is refused.

   usage: moves DESCRIPTION SOURCES SINKS ROUNDS

   SOURCES and SINKS are names with commas, or -. In each round each source gets a number, and each sink has two places.
   tools/clib.py calls it. */
#include <inttypes.h>
#include <stdio.h>
#include <stdlib.h>
#include <string.h>
#include "kpn.h"

enum { MOST_ENDS = 64, COMMITS = 300, MOST_TEXT = 1 << 16 };

typedef struct {
  size_t channels[MOST_ENDS];
  size_t count;
} ends;

static uint32_t find(kpn_session *session, char *names, ends *found) {
  for (char *name = strtok(names, ","); name && strcmp(name, "-"); name = strtok(NULL, ",")) {
    if (found->count == MOST_ENDS) return KPN_TOO_SMALL;
    uint32_t fault = kpn_channel(session, name, strlen(name), &found->channels[found->count]);
    if (fault) return fault;
    found->count++;
  }
  return KPN_OK;
}

/* One round, in as many calls as it takes. */
static uint32_t move(kpn_session *session, const kpn_item *items, size_t count, kpn_wanted *places,
                     size_t place_count) {
  kpn_amounts done;
  uint64_t most = COMMITS;
  for (;;) {
    uint32_t fault = kpn_move(session, items, count, most, places, place_count, &done);
    if (fault != KPN_NO_MEMORY) return fault;
    items += done.fed;
    count -= done.fed;
    most -= done.commits;
    places += done.served;
    place_count -= done.served;
  }
}

static uint32_t go(kpn_session *session, const ends *sources, const ends *sinks, int rounds) {
  kpn_item items[MOST_ENDS];
  kpn_wanted places[2 * MOST_ENDS];
  for (int round = 0; round < rounds; round++) {
    for (size_t k = 0; k < sources->count; k++) items[k] = (kpn_item){sources->channels[k], round};
    for (size_t k = 0; k < 2 * sinks->count; k++) places[k] = (kpn_wanted){sinks->channels[k / 2], -1, false};
    uint32_t fault = move(session, items, sources->count, places, 2 * sinks->count);
    if (fault) return fault;
    for (size_t k = 0; k < 2 * sinks->count; k++)
      if (places[k].has_item) printf(" %zu:%" PRId64, k, places[k].item);
    printf("\n");
  }
  return KPN_OK;
}

int main(int count, char **words) {
  static char text[MOST_TEXT];
  kpn_session session;
  kpn_place place;
  ends sources = {{0}, 0}, sinks = {{0}, 0};
  FILE *file = count == 5 ? fopen(words[1], "rb") : NULL;
  if (!file) return 2;
  const size_t length = fread(text, 1, MOST_TEXT, file);
  fclose(file);
  uint32_t fault = kpn_open(text, length, &session, &place);
  while (fault == KPN_NO_MEMORY || fault == KPN_TEXT_NO_MEMORY) fault = kpn_open(text, length, &session, &place);
  if (!fault) fault = find(&session, words[2], &sources);
  if (!fault) fault = find(&session, words[3], &sinks);
  if (!fault) fault = go(&session, &sources, &sinks, atoi(words[4]));
  printf("fault %" PRIu32 "\n", fault);
  if (!fault) fault = kpn_free(&session);
  return fault ? 1 : 0;
}
