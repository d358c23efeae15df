/* session.c: the session of kpn.h for a compiled network. */
#include "session.h"

#include <string.h>

static bool is_of_kind(const struct kpn_network *network, size_t c, enum kpn_kind kind) {
  return c < network->plan->channel_count && network->plan->channels[c].kind == kind;
}

/* The answer of a call that may have lacked memory. What was lost of the trace stays lost. */
static uint32_t answer(struct kpn_own_session *session) {
  bool has_lacked = session->network.lacks_memory;
  session->has_begun = true;
  session->has_lost_events = session->has_lost_events || (has_lacked && session->network.history);
  session->network.lacks_memory = false;
  return has_lacked ? KPN_NO_MEMORY : KPN_OK;
}

static bool is_text_of_plan(const char *text, size_t length) {
  uint64_t hash = KPN_OFFSET;
  for (size_t k = 0; k < length; k++) {
    hash = (hash ^ (unsigned char)text[k]) * KPN_PRIME;
  }
  for (size_t k = 0; k < 2; k++) {
    if (kpn_plan.texts[k].length == length && kpn_plan.texts[k].hash == hash) {
      return true;
    }
  }
  return false;
}

uint32_t kpn_open(const char *text, size_t length, kpn_session *session, kpn_place *place) {
  if (LACKS(text, length) || !session || !place) return KPN_NULL;
  *place = (kpn_place){false, 0};
  session->at = NULL;
  if (length > 0 && !is_text_of_plan(text, length)) return KPN_OTHER_TEXT;
  struct kpn_own_session *made = kpn_make_session();
  if (!made) return KPN_NO_MEMORY;
  session->at = made;
  kpn_begin(&made->network);
  if (!kpn_reserve_all(&made->network, true)) {
    kpn_free(session);
    return KPN_NO_MEMORY;
  }
  return KPN_OK;
}

/* Nobody may ask for its trace. */
uint32_t kpn_open_forgetting(const char *text, size_t length, kpn_session *session, kpn_place *place) {
  uint32_t fault = kpn_open(text, length, session, place);
  if (fault == KPN_OK) ((struct kpn_own_session *)session->at)->has_begun = true;
  return fault;
}

uint32_t kpn_channel(kpn_session *session, const char *name, size_t length, size_t *channel) {
  if (!session || LACKS(name, length) || !channel) return KPN_NULL;
  *channel = 0;
  if (!session->at) return KPN_NO_SESSION;
  const struct kpn_plan *plan = kpn_network_of(session)->plan;
  for (size_t c = 0; c < plan->channel_count; c++) {
    if (strlen(plan->channels[c].name) == length && memcmp(plan->channels[c].name, name, length) == 0) {
      *channel = c;
      return KPN_OK;
    }
  }
  return KPN_NO_CHANNEL;
}

uint32_t kpn_feed(kpn_session *session, size_t source, const int64_t *items, size_t count, size_t *fed) {
  if (!session || LACKS(items, count) || !fed) return KPN_NULL;
  *fed = 0;
  if (!session->at) return KPN_NO_SESSION;
  struct kpn_network *network = kpn_network_of(session);
  if (!is_of_kind(network, source, KPN_SOURCE)) return KPN_NO_SUCH_END;
  if (network->channels[source].is_shut) return KPN_SOURCE_CLOSED;
  while (*fed < count && !network->lacks_memory) {
    if (kpn_feed_item(network, (unsigned)source, items[*fed])) {
      ++*fed;
    } else {
      network->lacks_memory = true;
    }
  }
  kpn_fed(network, (unsigned)source);
  return answer(session->at);
}

uint32_t kpn_close_source(kpn_session *session, size_t source) {
  if (!session) return KPN_NULL;
  if (!session->at) return KPN_NO_SESSION;
  struct kpn_network *network = kpn_network_of(session);
  if (!is_of_kind(network, source, KPN_SOURCE)) return KPN_NO_SUCH_END;
  if (network->channels[source].is_shut) return KPN_SOURCE_CLOSED;
  kpn_lock_end(network);
  kpn_close(network, (unsigned)source);
  return answer(session->at);
}

/* Steps a session that is open. */
static uint32_t step(struct kpn_own_session *session, uint64_t most, uint64_t *commits) {
  struct kpn_network *network = &session->network;
  uint64_t before = network->commits, limit = most < UINT64_MAX - before ? before + most : UINT64_MAX;
  size_t faults = network->fault_count;
  if (network->lock.is_on && kpn_lock_run(network, limit)) {
    *commits = network->commits - before;
    return KPN_OK;
  }
  kpn_go(network, limit);
  kpn_lock_begin(network);
  *commits = network->commits - before;
  uint32_t fault = answer(session);
  return fault == KPN_OK && network->fault_count > faults ? (uint32_t)KPN_PROCESS_FAULTED : fault;
}

uint32_t kpn_step(kpn_session *session, uint64_t most, uint64_t *commits) {
  if (!session || !commits) return KPN_NULL;
  *commits = 0;
  if (!session->at) return KPN_NO_SESSION;
  return step(session->at, most, commits);
}

uint32_t kpn_take(kpn_session *session, size_t sink, int64_t *items, size_t room, size_t *taken) {
  if (!session || LACKS(items, room) || !taken) return KPN_NULL;
  *taken = 0;
  if (!session->at) return KPN_NO_SESSION;
  struct kpn_network *network = kpn_network_of(session);
  if (!is_of_kind(network, sink, KPN_SINK)) return KPN_NO_SUCH_END;
  if (network->channels[sink].is_shut) return KPN_SINK_LEFT;
  struct kpn_channel *channel = &network->channels[sink];
  while (*taken < room && channel->got != channel->put && !network->lacks_memory) {
    int64_t item = channel->ring[channel->got & channel->mask];
    if (network->history) {
      kpn_record(network, KPN_TAKE, KPN_OUTSIDE, (unsigned)sink, item);
    }
    channel->got++;
    items[(*taken)++] = item;
    kpn_taken(network, (unsigned)sink);
  }
  return answer(session->at);
}

uint32_t kpn_leave_sink(kpn_session *session, size_t sink) {
  if (!session) return KPN_NULL;
  if (!session->at) return KPN_NO_SESSION;
  struct kpn_network *network = kpn_network_of(session);
  if (!is_of_kind(network, sink, KPN_SINK)) return KPN_NO_SUCH_END;
  kpn_lock_end(network);
  if (!network->channels[sink].is_shut) {
    kpn_leave(network, (unsigned)sink);
  }
  return answer(session->at);
}

/* Feeds items in lock step, where no process waits for them, and tells how many: up to one that takes the long way. */
static size_t feed_in_step(const struct kpn_network *network, const kpn_item *items, size_t count) {
  struct kpn_channel *const channels = network->channels;
  const size_t channel_count = network->plan->channel_count;
  size_t k = 0;
  for (; k < count && items[k].channel < channel_count; k++) {
    struct kpn_channel *channel = &channels[items[k].channel];
    if (channel->writer != KPN_OUTSIDE || channel->put - channel->got > channel->mask) {
      break;
    }
    channel->ring[channel->put++ & channel->mask] = items[k].item;
  }
  return k;
}

/* Takes items in lock step, where no process waits for room, and tells how many places are served. */
static size_t take_in_step(const struct kpn_network *network, kpn_wanted *places, size_t count) {
  struct kpn_channel *const channels = network->channels;
  const size_t channel_count = network->plan->channel_count;
  size_t k = 0;
  for (; k < count && places[k].channel < channel_count; k++) {
    struct kpn_channel *channel = &channels[places[k].channel];
    if (channel->reader != KPN_OUTSIDE) {
      break;
    }
    places[k].has_item = channel->got != channel->put;
    if (places[k].has_item) {
      places[k].item = channel->ring[channel->got++ & channel->mask];
    }
  }
  return k;
}

uint32_t kpn_move(kpn_session *session, const kpn_item *items, size_t count, uint64_t most, kpn_wanted *places,
                  size_t place_count, kpn_amounts *amounts) {
  if (!session || LACKS(items, count) || LACKS(places, place_count) || !amounts) return KPN_NULL;
  *amounts = (kpn_amounts){0};
  if (!session->at) return KPN_NO_SESSION;
  struct kpn_network *network = kpn_network_of(session);
  size_t moved = 0, fed = network->lock.is_on ? feed_in_step(network, items, count) : 0, served = 0;
  uint32_t fault = KPN_OK;
  for (; fed < count && !fault; fed += moved) {
    fault = kpn_feed(session, items[fed].channel, &items[fed].item, 1, &moved);
  }
  amounts->fed = fed;
  fault = fault ? fault : step(session->at, most, &amounts->commits);
  bool has_faulted = fault == KPN_PROCESS_FAULTED; /* which is told once all is done */
  fault = has_faulted ? (uint32_t)KPN_OK : fault;
  served = network->lock.is_on && !fault ? take_in_step(network, places, place_count) : 0;
  for (; served < place_count && !fault; served += !fault) {
    fault = kpn_take(session, places[served].channel, &places[served].item, 1, &moved);
    places[served].has_item = moved > 0;
  }
  amounts->served = served;
  return has_faulted && !fault ? (uint32_t)KPN_PROCESS_FAULTED : fault;
}

uint32_t kpn_is_complete(kpn_session *session, size_t channel, bool *complete) {
  if (!session || !complete) return KPN_NULL;
  *complete = false;
  if (!session->at) return KPN_NO_SESSION;
  if (channel >= kpn_network_of(session)->plan->channel_count) return KPN_NO_CHANNEL;
  kpn_lock_end(kpn_network_of(session));
  kpn_find_complete(kpn_network_of(session));
  *complete = kpn_network_of(session)->channels[channel].is_complete;
  return KPN_OK;
}

/* Whether the caller has done all: each source is closed, and each sink is empty or left. */
static bool is_outside_done(const struct kpn_network *network) {
  for (size_t c = 0; c < network->plan->channel_count; c++) {
    const struct kpn_channel *own = &network->channels[c];
    if ((is_of_kind(network, c, KPN_SOURCE) && !own->is_shut) ||
        (is_of_kind(network, c, KPN_SINK) && !own->is_shut && own->put != own->got)) {
      return false;
    }
  }
  return true;
}

uint32_t kpn_verdict(kpn_session *session, uint32_t *verdict) {
  if (!session || !verdict) return KPN_NULL;
  *verdict = 0;
  if (!session->at) return KPN_NO_SESSION;
  const struct kpn_network *network = kpn_network_of(session);
  bool is_going = !is_outside_done(network) || (network->lock.is_on && kpn_lock_has_work(network));
  *verdict = is_going ? (uint32_t)KPN_GOING : kpn_verdict_of(network);
  return KPN_OK;
}

uint32_t kpn_free(kpn_session *session) {
  if (!session) return KPN_NULL;
  if (!session->at) return KPN_NO_SESSION;
  kpn_drop_session(session->at);
  session->at = NULL;
  return KPN_OK;
}
