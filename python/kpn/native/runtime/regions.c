/* regions.c: when the members of a region make their laps in one function, and when they are processes like others. */
#include "network.h"

enum { MOST_PATIENCE = 1023 };

static struct kpn_process *member(struct kpn_network *network, unsigned r, size_t k) {
  return &network->processes[network->plan->regions[r].members[k].process];
}

static void make_region_ready(struct kpn_network *network, unsigned r) {
  network->regions[r].is_ready = true;
  kpn_make_ready(network, (unsigned)network->plan->process_count + r);
}

void kpn_wake_region(struct kpn_network *network, unsigned r) {
  if (!network->regions[r].is_ready) {
    make_region_ready(network, r);
  }
}

/* Lets each member go on until it has made as many periods as the one that is farthest. */
static void set_out(struct kpn_network *network, unsigned r) {
  const struct kpn_region_plan *plan = &network->plan->regions[r];
  uint64_t periods = 0;
  for (size_t k = 0; k < plan->member_count; k++) {
    uint64_t laps = plan->members[k].laps, begun = (member(network, r, k)->lap + laps - 1) / laps;
    periods = begun > periods ? begun : periods;
  }
  for (size_t k = 0; k < plan->member_count; k++) {
    member(network, r, k)->last_lap = periods * plan->members[k].laps;
  }
  network->regions[r].way = KPN_GATHERING;
  network->regions[r].gathered = 0;
}

void kpn_gather(struct kpn_network *network) {
  for (unsigned r = 0; r < network->plan->region_count; r++) {
    struct kpn_region *region = &network->regions[r];
    if (region->way == KPN_APART && !region->is_over && region->left-- == 0) {
      set_out(network, r);
    }
  }
}

/* Makes the members processes like others. If the region was of no use, it does not gather so soon again. */
static void scatter(struct kpn_network *network, unsigned r) {
  const struct kpn_region_plan *plan = &network->plan->regions[r];
  struct kpn_region *region = &network->regions[r];
  bool was_of_use = region->way == KPN_TOGETHER && region->periods > region->before;
  region->patience = was_of_use ? 0 : region->patience < MOST_PATIENCE ? 2 * region->patience + 1 : MOST_PATIENCE;
  region->left = region->patience;
  for (size_t k = 0; region->way == KPN_TOGETHER && k < plan->need_count; k++) {
    struct kpn_channel *channel = &network->channels[plan->needs[k].channel];
    *(plan->needs[k].is_put ? &channel->writer_waits : &channel->reader_waits) = false;
  }
  region->way = KPN_APART;
  for (size_t k = 0; k < plan->member_count; k++) {
    struct kpn_process *process = member(network, r, k);
    process->last_lap = UINT64_MAX;
    if (process->being == KPN_PARKED) {
      process->being = KPN_READY;
      kpn_make_ready(network, plan->members[k].process);
    }
  }
}

/* Scatters the regions that stand still, and tells whether there were any. */
bool kpn_scatter_idle(struct kpn_network *network) {
  bool were_any = false;
  for (unsigned r = 0; r < network->plan->region_count; r++) {
    struct kpn_region *region = &network->regions[r];
    if ((region->way == KPN_GATHERING && region->gathered > 0) || (region->way == KPN_TOGETHER && !region->is_ready)) {
      scatter(network, r);
      were_any = true;
    }
  }
  return were_any;
}

void kpn_end_region(struct kpn_network *network, unsigned r) {
  network->regions[r].is_over = true;
  if (network->regions[r].way == KPN_GATHERING) {
    scatter(network, r);
  }
}

void kpn_park(struct kpn_network *network, unsigned p) {
  unsigned r = network->processes[p].region;
  struct kpn_region *region = &network->regions[r];
  network->processes[p].being = KPN_PARKED;
  if (++region->gathered < network->plan->regions[r].member_count) {
    return;
  }
  region->way = KPN_TOGETHER;
  region->before = region->periods;
  for (size_t k = 0; k < network->plan->regions[r].member_count; k++) {
    member(network, r, k)->lap = 0;
  }
  make_region_ready(network, r);
}

/* Asks to be woken by the channels that have too few items or too little room for a period. */
static void await(struct kpn_network *network, unsigned r) {
  const struct kpn_region_plan *plan = &network->plan->regions[r];
  for (size_t k = 0; k < plan->need_count; k++) {
    const struct kpn_need *need = &plan->needs[k];
    struct kpn_channel *channel = &network->channels[need->channel];
    if ((need->is_put ? kpn_free_room(channel) : kpn_unread(channel)) < need->count) {
      *(need->is_put ? &channel->writer_waits : &channel->reader_waits) = true;
    }
  }
}

void kpn_region_turn(struct kpn_network *network, unsigned r) {
  const struct kpn_region_plan *plan = &network->plan->regions[r];
  struct kpn_region *region = &network->regions[r];
  region->is_ready = false;
  switch (network->history ? plan->traced_turn(network, r) : plan->turn(network, r)) {
  case KPN_PAUSED:
    make_region_ready(network, r);
    break;
  case KPN_EMPTY:
    await(network, r);
    break;
  case KPN_LAPPED:
    scatter(network, r);
    break;
  default:
    region->is_over = true;
    scatter(network, r);
  }
}

uint64_t kpn_carried_inside(const struct kpn_network *network, size_t c) {
  for (size_t r = 0; r < network->plan->region_count; r++) {
    const struct kpn_region_plan *plan = &network->plan->regions[r];
    for (size_t k = 0; k < plan->inside_count; k++) {
      if (plan->inside[k].channel == c) {
        return network->regions[r].periods * plan->inside[k].count;
      }
    }
  }
  return 0;
}
