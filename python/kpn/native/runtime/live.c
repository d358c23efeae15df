/* live.c: a run that the process which has loaded the network feeds and reads while it goes on. */
#include <stdlib.h>
#include <string.h>

#include "arrays.h"
#include "program.h"

extern const struct kpn_plan kpn_plan;

/* A run, and how many items of each sink were read. */
struct kpn_live {
  struct kpn_run run;
  size_t *read;
};

void kpn_live_end(struct kpn_live *live) {
  if (!live) {
    return;
  }
  if (live->run.network.channels) {
    kpn_drop_rings(&live->run.network);
  }
  for (size_t c = 0; live->run.sinks && c < kpn_plan.channel_count; c++) {
    free(live->run.sinks[c].list.items);
  }
  free(live->run.network.channels);
  free(live->run.sinks);
  free(live->read);
  free(live);
}

struct kpn_live *kpn_live_begin(void) {
  struct kpn_live *live = calloc(1, sizeof *live);
  if (!live) {
    return NULL;
  }
  live->run.sinks = calloc(kpn_plan.channel_count + 1, sizeof *live->run.sinks);
  live->read = calloc(kpn_plan.channel_count + 1, sizeof *live->read);
  if (!live->run.sinks || !live->read || !kpn_make_network(&live->run.network, &kpn_plan) ||
      !kpn_begin_live(&live->run)) {
    kpn_live_end(live);
    return NULL;
  }
  return live;
}

uint32_t kpn_live_feed(struct kpn_live *live, size_t source, const int64_t *items, size_t count) {
  size_t fed = 0;
  while (fed < count && kpn_feed_item(&live->run.network, (unsigned)source, items[fed])) {
    fed++;
  }
  kpn_fed(&live->run.network, (unsigned)source);
  return fed == count;
}

void kpn_live_close(struct kpn_live *live, size_t source) {
  kpn_close(&live->run.network, (unsigned)source);
}

void kpn_live_leave(struct kpn_live *live, size_t sink) {
  kpn_leave(&live->run.network, (unsigned)sink);
}

uint32_t kpn_live_go(struct kpn_live *live, uint64_t commits) {
  struct kpn_network *network = &live->run.network;
  kpn_go(network, network->commits + commits);
  if (network->lacks_memory) {
    return KPN_LIVE_LACKS_MEMORY;
  }
  live->run.outcome = kpn_verdict_of(network);
  return live->run.outcome;
}

size_t kpn_live_came(const struct kpn_live *live, size_t sink) {
  return live->run.sinks[sink].list.count - live->read[sink];
}

uint32_t kpn_live_is_complete(struct kpn_live *live, size_t channel) {
  kpn_find_complete(&live->run.network);
  return live->run.network.channels[channel].is_complete;
}

void kpn_live_read(struct kpn_live *live, size_t sink, int64_t *items, size_t count) {
  struct kpn_text_items *list = &live->run.sinks[sink].list;
  if (count > 0) {
    memcpy(items, list->items + live->read[sink], count * sizeof *items);
  }
  live->read[sink] += count;
  if (live->read[sink] == list->count) { /* the memory is used again */
    live->read[sink] = list->count = 0;
  }
}

size_t kpn_live_report(const struct kpn_live *live, char *text, size_t size) {
  return kpn_arrays_report(&live->run, text, size);
}
