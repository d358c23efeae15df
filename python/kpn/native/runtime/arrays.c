/* arrays.c: a run on arrays of the process that has loaded the network as a shared object. */
#include "arrays.h"

#include <stdlib.h>
#include <string.h>

#include "program.h"

extern const struct kpn_plan kpn_plan;

void kpn_arrays_end(struct kpn_run *run) {
  if (!run) {
    return;
  }
  kpn_end_run(run);
  for (size_t c = 0; run->sinks && c < kpn_plan.channel_count; c++) {
    free(run->sinks[c].list.items);
  }
  free(run->network.channels);
  free(run->lists);
  free(run->sinks);
  free(run);
}

struct kpn_run *kpn_arrays_begin(const struct kpn_array *sources, uint64_t take) {
  size_t count = kpn_plan.channel_count;
  struct kpn_run *run = calloc(1, sizeof *run);
  if (!run || !kpn_make_network(&run->network, &kpn_plan)) {
    free(run);
    return NULL;
  }
  run->lists = calloc(count + 1, sizeof *run->lists);
  run->sinks = calloc(count + 1, sizeof *run->sinks);
  run->words.has_take = take > 0;
  run->words.take = take;
  for (size_t c = 0; run->lists && c < count; c++) {
    run->lists[c] = (struct kpn_text_items){sources[c].items, sources[c].count, sources[c].count};
  }
  if (!run->lists || !run->sinks || !kpn_begin_run(run)) {
    kpn_arrays_end(run);
    return NULL;
  }
  return run;
}

uint32_t kpn_arrays_go(struct kpn_run *run, uint64_t most) {
  run->outcome = kpn_run_on(run, most);
  return run->outcome;
}

/* A text in the caller's memory. */
struct room {
  char *text;
  size_t length, size;
};

static bool write_to(void *to, const char *text, size_t length) {
  struct room *room = to;
  if (length > room->size - room->length) {
    return false;
  }
  memcpy(room->text + room->length, text, length);
  room->length += length;
  return true;
}

size_t kpn_arrays_report(const struct kpn_run *run, char *text, size_t size) {
  struct room room = {text, 0, size};
  if (run->outcome == KPN_STOPPED) {
    return write_to(&room, "stopped\n", strlen("stopped\n")) ? room.length : 0;
  }
  return kpn_report_end(run, false, write_to, &room) ? room.length : 0;
}

void kpn_arrays_take(struct kpn_run *run, struct kpn_array *sinks) {
  for (size_t c = 0; c < kpn_plan.channel_count; c++) {
    sinks[c] = (struct kpn_array){run->sinks[c].list.items, run->sinks[c].list.count};
    run->sinks[c].list = (struct kpn_text_items){0};
  }
}

void kpn_arrays_free(int64_t *items) {
  free(items);
}
