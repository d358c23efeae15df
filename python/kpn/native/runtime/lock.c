/* lock.c: when a session goes in lock step with its caller, and when its processes make turns. */
#include "network.h"

enum { MOST_PATIENCE = 1023, MOST_AHEAD = 4 };

/* The row of a table for a phase. */
static size_t row_of(size_t phase, size_t width) {
  return phase * width;
}

static bool is_inside(const struct kpn_network *network, size_t c) {
  return network->plan->channels[c].kind == KPN_CHANNEL;
}

/* Where an item inside lies between phases. */
static int64_t *slot_of(const struct kpn_network *network, size_t c, size_t place) {
  const struct kpn_lock_plan *plan = network->plan->lock;
  return network->variables + plan->base + plan->slots[c] + place;
}

static bool is_at(const struct kpn_network *network, size_t phase) {
  const struct kpn_plan *plan = network->plan;
  const uint16_t *rows = plan->lock->rows + row_of(phase, plan->process_count);
  const uint16_t *unread = plan->lock->unread + row_of(phase, plan->channel_count);
  for (size_t p = 0; p < plan->process_count; p++) {
    const struct kpn_process *process = &network->processes[p];
    if (process->at != rows[p] || process->being != KPN_WAITING || process->why != KPN_EMPTY) {
      return false;
    }
  }
  for (size_t c = 0; c < plan->channel_count; c++) {
    const struct kpn_channel *channel = &network->channels[c];
    if (channel->is_shut || (plan->channels[c].kind != KPN_SINK && channel->put - channel->got != unread[c])) {
      return false;
    }
  }
  return true;
}

void kpn_lock_begin(struct kpn_network *network) {
  const struct kpn_plan *plan = network->plan;
  struct kpn_lock *lock = &network->lock;
  size_t phase = 0;
  if (!plan->lock || network->history || network->taker || network->still_count < plan->process_count) {
    return;
  }
  if (lock->left > 0) {
    lock->left--;
    return;
  }
  while (phase < plan->lock->phase_count && !is_at(network, phase)) {
    phase++;
  }
  if (phase == plan->lock->phase_count) {
    return;
  }
  lock->is_on = true;
  lock->phase = lock->entry = (uint16_t)phase;
  lock->made = 0;
  for (size_t c = 0; c < plan->channel_count; c++) {
    struct kpn_channel *channel = &network->channels[c];
    channel->reader_waits = false;
    for (size_t k = 0; is_inside(network, c) && channel->got + k != channel->put; k++) {
      *slot_of(network, c, k) = channel->ring[(channel->got + k) & channel->mask];
    }
  }
}

/* What a table has for all phases since the beginning. Its rows count from the first phase on. */
static uint64_t since_entry(const struct kpn_network *network, const uint16_t *table, size_t width, size_t place) {
  const struct kpn_lock *lock = &network->lock;
  size_t count = network->plan->lock->phase_count;
  uint64_t whole = (lock->entry + lock->made) / count;
  return whole * table[row_of(count, width) + place] + table[row_of(lock->phase, width) + place] -
         table[row_of(lock->entry, width) + place];
}

/* Puts what lies inside a channel back into its ring. */
static void restore(struct kpn_network *network, size_t c) {
  const struct kpn_plan *plan = network->plan;
  struct kpn_channel *channel = &network->channels[c];
  size_t count = plan->lock->unread[row_of(network->lock.phase, plan->channel_count) + c];
  channel->got += (size_t)since_entry(network, plan->lock->gots, plan->channel_count, c);
  channel->put = channel->got + count;
  for (size_t k = 0; k < count; k++) {
    channel->ring[(channel->got + k) & channel->mask] = *slot_of(network, c, k);
  }
}

void kpn_lock_end(struct kpn_network *network) {
  const struct kpn_plan *plan = network->plan;
  struct kpn_lock *lock = &network->lock;
  if (!lock->is_on) {
    return;
  }
  for (size_t c = 0; c < plan->channel_count; c++) {
    if (is_inside(network, c)) {
      restore(network, c);
    }
  }
  for (size_t p = 0; p < plan->process_count; p++) {
    struct kpn_process *process = &network->processes[p];
    size_t place = row_of(lock->phase, plan->process_count) + p;
    process->at = plan->lock->rows[place];
    process->channel = plan->lock->waits[place];
    process->lap += since_entry(network, plan->lock->laps, plan->process_count, p);
    network->channels[process->channel].reader_waits = true;
  }
  lock->is_on = false;
  lock->patience = lock->made > 0 ? 0 : lock->patience < MOST_PATIENCE ? 2 * lock->patience + 1 : MOST_PATIENCE;
  lock->left = lock->patience;
  for (unsigned c = 0; c < plan->channel_count; c++) {
    if (plan->channels[c].kind == KPN_SOURCE) {
      kpn_fed(network, c);
    }
  }
}

bool kpn_lock_has_work(const struct kpn_network *network) {
  const struct kpn_lock_plan *plan = network->plan->lock;
  const uint16_t *unread = plan->unread + row_of(network->lock.phase, network->plan->channel_count);
  for (size_t k = 0; k < plan->source_count; k++) {
    const struct kpn_channel *channel = &network->channels[plan->sources[k]];
    if (channel->put - channel->got != unread[plan->sources[k]]) {
      return true;
    }
  }
  return false;
}

bool kpn_lock_run(struct kpn_network *network, uint64_t most) {
  struct kpn_lock *lock = &network->lock;
  const struct kpn_lock_plan *plan = network->plan->lock;
  for (unsigned made = 0; made < MOST_AHEAD && network->commits < most; made++) {
    if (!plan->step(network, lock->phase)) {
      break;
    }
    lock->made++;
    lock->phase = (uint16_t)(lock->phase + 1 == plan->phase_count ? 0 : lock->phase + 1);
    if (!kpn_lock_has_work(network)) {
      return true;
    }
  }
  if (network->commits < most && kpn_lock_has_work(network)) {
    kpn_lock_end(network);
    return false;
  }
  return true;
}
