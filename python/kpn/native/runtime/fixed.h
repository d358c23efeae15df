/* fixed.h: the static memory of a network. */
#ifndef KPN_FIXED_H
#define KPN_FIXED_H

#include "network.h"

struct kpn_fixed_ring {
  int64_t *items;
  size_t size; /* a power of two: at least what the channel's capacity may become */
};

struct kpn_fixed {
  struct kpn_channel *channels;
  struct kpn_process *processes;
  int64_t *variables;
  struct kpn_region *regions;
  uint16_t *numbers; /* for both queues */
  const struct kpn_fixed_ring *rings;
};

extern const struct kpn_fixed kpn_fixed;

#endif
