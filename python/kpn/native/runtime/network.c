#include "network.h"

#include <string.h>

/* ---- who is ready */

void kpn_make_ready(struct kpn_network *network, unsigned process) {
  size_t count = network->plan->process_count + network->plan->region_count;
  size_t place = network->first_ready + network->ready_count;
  network->queue[place < count ? place : place - count] = (uint16_t)process;
  network->ready_count++;
}

static unsigned next_ready(struct kpn_network *network) {
  unsigned process = network->queue[network->first_ready];
  network->ready_count--;
  if (++network->first_ready == network->plan->process_count + network->plan->region_count) {
    network->first_ready = 0;
  }
  return process;
}

static void wake(struct kpn_network *network, unsigned process) {
  if (network->processes[process].being == KPN_PARKED) {
    kpn_wake_region(network, network->processes[process].region);
    return;
  }
  if (network->processes[process].being == KPN_WAITING) {
    network->still_count--;
  }
  network->processes[process].being = KPN_READY;
  kpn_make_ready(network, process);
}

void kpn_serve_reader(struct kpn_network *network, struct kpn_channel *channel) {
#ifndef KPN_FIXED /* where nobody takes at once */
  if (channel->reader == KPN_OUTSIDE) {
    network->taker(network, (unsigned)(channel - network->channels));
    return;
  }
#endif
  channel->reader_waits = false;
  wake(network, channel->reader);
}

void kpn_serve_writer(struct kpn_network *network, struct kpn_channel *channel) {
  channel->writer_waits = false;
  wake(network, channel->writer);
}

void kpn_begin(struct kpn_network *network) {
  const struct kpn_plan *plan = network->plan;
  for (size_t c = 0; c < plan->channel_count; c++) {
    const struct kpn_channel_plan *given = &plan->channels[c];
    network->channels[c] = (struct kpn_channel){.capacity = given->capacity, .writer = given->writer,
                                                .reader = given->reader,
                                                .reader_waits = given->kind == KPN_SINK && network->taker};
  }
  if (plan->variable_count) {
    memcpy(network->variables, plan->variables, plan->variable_count * sizeof *plan->variables);
  }
  network->first_ready = network->ready_count = network->stalled_count = network->still_count = 0;
  network->turns = network->fault_count = 0;
  network->commits = 0;
  network->lacks_memory = false;
  network->lock = (struct kpn_lock){0};
  for (size_t p = 0; p < plan->process_count; p++) {
    network->processes[p] = (struct kpn_process){.region = KPN_OUTSIDE, .last_lap = UINT64_MAX};
    kpn_make_ready(network, (unsigned)p);
  }
  for (size_t r = 0; r < plan->region_count; r++) {
    network->regions[r] = (struct kpn_region){0};
    for (size_t k = 0; k < plan->regions[r].member_count; k++) {
      network->processes[plan->regions[r].members[k].process].region = (uint16_t)r;
    }
  }
  kpn_gather(network);
}

/* ---- growth */

static bool is_waiting(const struct kpn_process *process) {
  return process->being == KPN_WAITING;
}

/* The channel of less capacity, and then of less number. KPN_OUTSIDE stands for none. */
static unsigned smaller(const struct kpn_network *network, unsigned c, unsigned d) {
  if (c == KPN_OUTSIDE || d == KPN_OUTSIDE) {
    return c == KPN_OUTSIDE ? d : c;
  }
  uint32_t of_c = network->channels[c].capacity, of_d = network->channels[d].capacity;
  return of_c < of_d || (of_c == of_d && c < d) ? c : d;
}

/* Whom a process waits for. */
static unsigned waits_for(const struct kpn_network *network, unsigned process) {
  const struct kpn_process *it = &network->processes[process];
  const struct kpn_channel *channel = &network->channels[it->channel];
  return it->why == KPN_FULL ? channel->reader : channel->writer;
}

/* The smallest full channel in the cycle of waits through a process; KPN_OUTSIDE if there is none. */
static unsigned smallest_of_cycle(const struct kpn_network *network, unsigned process) {
  unsigned found = KPN_OUTSIDE, now = process;
  for (size_t k = 0; k < network->plan->process_count; k++) {
    if (now == KPN_OUTSIDE || !is_waiting(&network->processes[now])) {
      return KPN_OUTSIDE;
    }
    if (network->processes[now].why == KPN_FULL) {
      found = smaller(network, found, network->processes[now].channel);
    }
    now = waits_for(network, now);
    if (now == process) {
      return found;
    }
  }
  return KPN_OUTSIDE;
}

static bool may_grow(const struct kpn_network *network, unsigned c) {
  return c != KPN_OUTSIDE && network->channels[c].capacity < network->plan->limit;
}

static void set_room(struct kpn_channel *channel) {
  size_t size = channel->mask + 1;
  channel->room = channel->capacity < size ? channel->capacity : size;
}

static void grow(struct kpn_network *network, unsigned process, unsigned c) {
  struct kpn_channel *channel = &network->channels[c];
  uint32_t limit = network->plan->limit, doubled = 2 * channel->capacity;
  channel->capacity = !network->plan->is_growth_double ? channel->capacity + 1 : doubled < limit ? doubled : limit;
  set_room(channel);
  if (network->history) {
    kpn_record(network, KPN_GROW, process, c, channel->capacity);
  }
  kpn_serve_writer(network, channel);
}

/* Whether nothing happens any more unless the outside feeds. */
static bool is_settled(const struct kpn_network *network) {
  const struct kpn_plan *plan = network->plan;
  if (network->still_count < plan->process_count) {
    return false;
  }
  for (size_t c = 0; c < plan->channel_count; c++) {
    const struct kpn_channel *channel = &network->channels[c];
    bool is_open = plan->channels[c].kind == KPN_SOURCE && !channel->is_shut;
    if (is_open || (plan->channels[c].kind == KPN_SINK && !channel->is_shut && channel->put != channel->got)) {
      return false;
    }
  }
  return true;
}

/* The growth of `policy all`, if it is owed. */
static void grow_if_settled(struct kpn_network *network) {
  if (!network->plan->is_policy_all || !is_settled(network)) {
    return;
  }
  unsigned found = KPN_OUTSIDE;
  for (size_t p = 0; p < network->plan->process_count; p++) {
    const struct kpn_process *process = &network->processes[p];
    if (is_waiting(process) && process->why == KPN_FULL) {
      found = smaller(network, found, process->channel);
    }
  }
  if (may_grow(network, found)) {
    grow(network, network->channels[found].writer, found);
  }
}

void kpn_write_waits(struct kpn_network *network) {
  if (kpn_scatter_idle(network)) {
    return;
  }
  for (size_t k = 0; k < network->stalled_count; k++) {
    unsigned p = network->stalled[k];
    struct kpn_process *process = &network->processes[p];
    process->is_listed = false;
    if (process->being != KPN_STALLED) {
      continue;
    }
    process->being = KPN_WAITING;
    network->still_count++;
    if (network->history) {
      kpn_record(network, process->why == KPN_FULL ? KPN_WAIT_FULL : KPN_WAIT_EMPTY, p, process->channel, 0);
    }
    unsigned c = smallest_of_cycle(network, p);
    if (may_grow(network, c)) {
      grow(network, p, c);
    }
    grow_if_settled(network);
  }
  network->stalled_count = 0;
  network->turns = 0;
}

/* ---- turns */

static void stall(struct kpn_network *network, unsigned p, enum kpn_stop why) {
  struct kpn_process *process = &network->processes[p];
  process->being = KPN_STALLED;
  process->why = (uint8_t)why;
  if (!process->is_listed) {
    process->is_listed = true;
    network->stalled[network->stalled_count++] = (uint16_t)p;
  }
  if (network->plan->is_one_talk) {
    kpn_write_waits(network);
  }
}

/* Whether a channel without room has got a larger ring, since its capacity allows it. */
static bool has_larger_ring(struct kpn_network *network, unsigned c) {
  struct kpn_channel *channel = &network->channels[c];
  size_t count = channel->put - channel->got;
  if (channel->is_shut || count < channel->room || count >= channel->capacity) {
    return false;
  }
  network->lacks_memory = !kpn_reserve(network, c, 2 * count);
  return !network->lacks_memory;
}

/* A process has no item, or no room: perhaps only because its turn was long. */
static void stall_unless_it_can_go_on(struct kpn_network *network, unsigned p, enum kpn_stop why) {
  struct kpn_channel *channel = &network->channels[network->processes[p].channel];
  size_t count = channel->put - channel->got;
  if (why == KPN_EMPTY ? count > 0 : channel->is_shut || count < channel->room) {
    kpn_make_ready(network, p);
    return;
  }
  *(why == KPN_EMPTY ? &channel->reader_waits : &channel->writer_waits) = true;
  network->commits++;
  stall(network, p, why);
}

static void end(struct kpn_network *network, unsigned p, enum kpn_stop cause) {
  const struct kpn_process_plan *plan = &network->plan->processes[p];
  network->commits++;
  network->processes[p].being = KPN_OVER;
  network->processes[p].why = (uint8_t)cause;
  network->still_count++;
  network->fault_count += cause != KPN_DONE;
  if (network->history) {
    kpn_record(network, KPN_END, p, 0, cause);
  }
  for (size_t k = 0; k < plan->in_count; k++) {
    struct kpn_channel *channel = &network->channels[plan->ports[k]];
    if (channel->writer != KPN_OUTSIDE) {
      channel->is_shut = true;
    }
    if (channel->writer_waits) {
      kpn_serve_writer(network, channel);
    }
  }
  if (network->processes[p].region != KPN_OUTSIDE) {
    kpn_end_region(network, network->processes[p].region);
  }
  grow_if_settled(network);
}

/* A turn of a process. */
static void process_turn(struct kpn_network *network, unsigned p) {
  const struct kpn_process_plan *plan = &network->plan->processes[p];
  enum kpn_stop stop;
  do {
    stop = network->history ? plan->traced_turn(network, p) : plan->turn(network, p);
  } while (stop == KPN_FULL && has_larger_ring(network, network->processes[p].channel));
  if (stop == KPN_FULL && network->lacks_memory) {
    kpn_make_ready(network, p);
    return;
  }
  switch (stop) {
  case KPN_TALKED:
    break;
  case KPN_LAPPED:
    kpn_park(network, p);
    break;
  case KPN_PAUSED:
    network->commits += network->plan->is_one_talk ? 1 : KPN_FUEL / 1000;
    kpn_make_ready(network, p);
    break;
  case KPN_EMPTY:
  case KPN_FULL:
    stall_unless_it_can_go_on(network, p, stop);
    break;
  default:
    end(network, p, stop);
  }
}

void kpn_go_once(struct kpn_network *network) {
  unsigned next = next_ready(network);
  if (next < network->plan->process_count) {
    process_turn(network, next);
  } else {
    kpn_region_turn(network, next - (unsigned)network->plan->process_count);
  }
  if (++network->turns >= KPN_LATE) {
    network->turns = 0;
    kpn_gather(network);
    kpn_write_waits(network);
  }
}

void kpn_go(struct kpn_network *network, uint64_t most) {
  kpn_gather(network);
  do {
    while (network->ready_count && network->commits < most && !network->lacks_memory) {
      kpn_go_once(network);
    }
    if (!network->ready_count) {
      kpn_write_waits(network);
    }
  } while (network->ready_count && network->commits < most && !network->lacks_memory);
}

/* ---- the outside */

bool kpn_feed_item(struct kpn_network *network, unsigned source, int64_t item) {
  struct kpn_channel *channel = &network->channels[source];
  bool is_read = network->processes[channel->reader].being != KPN_OVER;
  if (is_read && channel->put - channel->got > channel->mask &&
      !kpn_reserve(network, source, 2 * (channel->mask + 1))) {
    return false;
  }
  if (network->history) {
    kpn_record(network, KPN_FEED, KPN_OUTSIDE, source, item);
  }
  if (is_read) {
    channel->ring[channel->put & channel->mask] = item;
  }
  channel->put++;
  return !network->lacks_memory;
}

void kpn_fed(struct kpn_network *network, unsigned source) {
  struct kpn_channel *channel = &network->channels[source];
  if (channel->reader_waits && channel->put != channel->got) {
    kpn_serve_reader(network, channel);
  }
}

void kpn_close(struct kpn_network *network, unsigned source) {
  network->channels[source].is_shut = true;
  if (network->history) {
    kpn_record(network, KPN_CLOSE, KPN_OUTSIDE, source, 0);
  }
  grow_if_settled(network);
}

void kpn_taken(struct kpn_network *network, unsigned sink) {
  struct kpn_channel *channel = &network->channels[sink];
  if (channel->writer_waits) {
    kpn_serve_writer(network, channel);
  }
  grow_if_settled(network);
}

void kpn_leave(struct kpn_network *network, unsigned sink) {
  struct kpn_channel *channel = &network->channels[sink];
  channel->is_shut = true;
  channel->reader_waits = false;
  if (network->history) {
    kpn_record(network, KPN_LEAVE, KPN_OUTSIDE, sink, 0);
  }
  kpn_taken(network, sink);
}

/* ---- what a run has come to */

unsigned kpn_verdict_of(const struct kpn_network *network) {
  unsigned found = KPN_ENDED;
  if (network->ready_count || network->stalled_count) {
    return KPN_GOING;
  }
  for (size_t p = 0; p < network->plan->process_count; p++) {
    if (smallest_of_cycle(network, (unsigned)p) != KPN_OUTSIDE) {
      return KPN_JAMMED;
    }
    if (is_waiting(&network->processes[p]) && network->processes[p].why == KPN_FULL) {
      found = KPN_CLOGGED;
    }
  }
  return found;
}

static bool is_finished(const struct kpn_network *network, const struct kpn_process *process) {
  bool is_still = process->being == KPN_STALLED || process->being == KPN_WAITING;
  return process->being == KPN_OVER ||
         (is_still && process->why == KPN_EMPTY && network->channels[process->channel].is_complete);
}

/* A channel gets no more if it is a source that is closed, or its writer is finished. A process is finished if it has
   ended, or waits for an item of a channel that gets no more. Those that are not finished are found one by one. */
void kpn_find_complete(struct kpn_network *network) {
  const struct kpn_plan *plan = network->plan;
  bool has_changed = true;
  for (size_t c = 0; c < plan->channel_count; c++) {
    network->channels[c].is_complete = plan->channels[c].kind != KPN_SOURCE || network->channels[c].is_shut;
  }
  while (has_changed) {
    has_changed = false;
    for (size_t c = 0; c < plan->channel_count; c++) {
      struct kpn_channel *channel = &network->channels[c];
      if (channel->writer != KPN_OUTSIDE && channel->is_complete &&
          !is_finished(network, &network->processes[channel->writer])) {
        channel->is_complete = false;
        has_changed = true;
      }
    }
  }
}
