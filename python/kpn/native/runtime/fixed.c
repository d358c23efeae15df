/* fixed.c: a session in static memory, in place of rings.c and session_memory.c. */
#include "fixed.h"

#include "session.h"

static struct kpn_own_session only;
static bool is_open;

struct kpn_own_session *kpn_make_session(void) {
  const struct kpn_plan *plan = &kpn_plan;
  if (is_open) {
    return NULL;
  }
  is_open = true;
  only = (struct kpn_own_session){.network = {.plan = plan,
                                              .channels = kpn_fixed.channels,
                                              .processes = kpn_fixed.processes,
                                              .variables = kpn_fixed.variables,
                                              .regions = kpn_fixed.regions,
                                              .queue = kpn_fixed.numbers}};
  only.network.stalled = kpn_fixed.numbers + plan->process_count + plan->region_count;
  return &only;
}

void kpn_drop_session(struct kpn_own_session *session) {
  (void)session;
  is_open = false;
}

bool kpn_reserve(struct kpn_network *network, unsigned c, size_t items) {
  struct kpn_channel *channel = &network->channels[c];
  size_t size = kpn_fixed.rings[c].size;
  if (items > size) {
    return false;
  }
  channel->ring = kpn_fixed.rings[c].items;
  channel->mask = size - 1;
  channel->room = channel->capacity < size ? channel->capacity : size;
  return true;
}

bool kpn_reserve_all(struct kpn_network *network, bool with_sources) {
  (void)with_sources;
  for (unsigned c = 0; c < network->plan->channel_count; c++) {
    if (!kpn_reserve(network, c, network->channels[c].capacity)) {
      return false;
    }
  }
  return true;
}
