/* rings.c: the memory of a network. */
#include <stdlib.h>

#include "network.h"

/* The size of a ring at the beginning, unless the capacity is smaller. */
enum { FIRST_ITEMS = 1024 };

void *kpn_make_network(struct kpn_network *network, const struct kpn_plan *plan) {
  size_t variables = plan->variable_count * sizeof *network->variables;
  size_t channels = plan->channel_count * sizeof *network->channels;
  size_t processes = plan->process_count * sizeof *network->processes;
  size_t regions = plan->region_count * sizeof *network->regions;
  size_t numbers = (2 * plan->process_count + plan->region_count) * sizeof *network->queue;
  char *block = calloc(1, channels + variables + processes + regions + numbers + 1);
  *network = (struct kpn_network){.plan = plan};
  if (block) {
    network->channels = (void *)block;
    network->variables = (void *)(block + channels);
    network->processes = (void *)(block + channels + variables);
    network->regions = (void *)(block + channels + variables + processes);
    network->queue = (void *)(block + channels + variables + processes + regions);
    network->stalled = network->queue + plan->process_count + plan->region_count;
  }
  return block;
}

bool kpn_reserve(struct kpn_network *network, unsigned c, size_t items) {
  struct kpn_channel *channel = &network->channels[c];
  size_t size = 1;
  while (size < items) {
    size *= 2;
  }
  int64_t *ring = size <= SIZE_MAX / sizeof *ring ? malloc(size * sizeof *ring) : NULL;
  if (!ring) {
    return false;
  }
  for (size_t k = channel->got; k != channel->put; k++) {
    ring[k & (size - 1)] = channel->ring[k & channel->mask];
  }
  free(channel->ring);
  channel->ring = ring;
  channel->mask = size - 1;
  channel->room = channel->capacity < size ? channel->capacity : size;
  return true;
}

bool kpn_reserve_all(struct kpn_network *network, bool with_sources) {
  for (unsigned c = 0; c < network->plan->channel_count; c++) {
    struct kpn_channel *channel = &network->channels[c];
    bool is_source = channel->writer == KPN_OUTSIDE, is_taken = channel->reader == KPN_OUTSIDE && network->taker;
    size_t least = is_source || channel->capacity > FIRST_ITEMS ? FIRST_ITEMS : channel->capacity;
    size_t items = is_taken ? KPN_MOST_ITEMS : least;
    if ((!is_source || with_sources) && !kpn_reserve(network, c, items)) {
      return false;
    }
    if (is_taken) {
      channel->room = KPN_MOST_ITEMS;
    }
  }
  return true;
}

void kpn_drop_rings(struct kpn_network *network) {
  for (size_t c = 0; c < network->plan->channel_count; c++) {
    free(network->channels[c].ring);
    network->channels[c].ring = NULL;
  }
}
