/* Steps of a session that forgets, as a simulator makes them: each feeds a number, lets the network go on and takes what
   comes. After each tenth it prints how many steps were made, and the memory that the program then has. It ends with 1
   if an item is wrong, or if the memory has grown in the last half.

   usage: forever STEPS [keep]

   With `keep` the session keeps its trace, and its memory may grow. tools/clib.py calls it. */
#include <inttypes.h>
#include <stdio.h>
#include <stdlib.h>
#include <string.h>
#include <unistd.h>
#include "kpn.h"

/* A controller that adds up its errors, and a filter after it. */
static const char controller[] =
    "process control(in is; out power) {\n"
    "  total = 0;\n"
    "  while 1 { read is t; e = (50 - t); total = ((total + e) % 1000); write power ((3 * e) + total); }\n"
    "}\n"
    "process mean(in x; out y) { last = 0; while 1 { read x v; write y ((v + last) / 2); last = v; } }\n"
    "network { source is; channel power cap 1; sink mean cap 1; c = control(is; power); m = mean(power; mean); }\n";

enum { TENTHS = 10 };

/* The memory of this program, in pages. */
static long pages(void) {
  long all, here = -1;
  FILE *file = fopen("/proc/self/statm", "r");
  if (!file || fscanf(file, "%ld %ld", &all, &here) != 2) return -1;
  fclose(file);
  return here;
}

static uint32_t go(kpn_session *session, uint64_t steps, long *grown) {
  kpn_item item = {0, 0};
  kpn_wanted place = {0, 0, false};
  kpn_amounts done;
  int64_t total = 0, last = 0;
  long first = 0;
  uint32_t fault = kpn_channel(session, "is", 2, &item.channel);
  if (!fault) fault = kpn_channel(session, "mean", 4, &place.channel);
  for (uint64_t k = 0; !fault && k < steps; k++) {
    item.item = (int64_t)(k % 97);
    fault = kpn_move(session, &item, 1, 100, &place, 1, &done);
    const int64_t error = 50 - item.item;
    total = (total + error) % 1000;
    const int64_t power = 3 * error + total;
    if (fault || !place.has_item || place.item != (power + last) / 2) return fault ? fault : UINT32_MAX;
    last = power;
    if ((k + 1) % (steps / TENTHS)) continue;
    const long now = pages();
    printf("%" PRIu64 " steps: %ld KiB\n", k + 1, now * (sysconf(_SC_PAGESIZE) / 1024));
    fflush(stdout);
    if (2 * (k + 1) <= steps) first = now;
    *grown = now - first;
  }
  return fault;
}

int main(int count, char **words) {
  kpn_session session;
  kpn_place place;
  long grown = 0;
  const uint64_t steps = count > 1 ? strtoull(words[1], NULL, 10) : 0;
  if (steps < TENTHS) return 2;
  const int keeps = count > 2 && strcmp(words[2], "keep") == 0;
  uint32_t fault = (keeps ? kpn_open : kpn_open_forgetting)(controller, strlen(controller), &session, &place);
  if (!fault) fault = go(&session, steps, &grown);
  if (fault) printf("fault %" PRIu32 " %s\n", fault, kpn_fault_name(fault));
  kpn_free(&session);
  return fault || (grown > 0 && !keeps);
}
