/* session_tell.c: what a session of kpn.h tells of its parts. */
#include <string.h>

#include "session.h"

const char *kpn_fault_name(uint32_t fault) {
  static const char names[][16] = {[KPN_NO_MEMORY - KPN_NO_MEMORY] = "NoMemory",
                                   [KPN_NO_SUCH_END - KPN_NO_MEMORY] = "NoSuchEnd",
                                   [KPN_SOURCE_CLOSED - KPN_NO_MEMORY] = "SourceClosed",
                                   [KPN_SINK_LEFT - KPN_NO_MEMORY] = "SinkLeft",
                                   [KPN_TOO_SMALL - KPN_NO_MEMORY] = "TooSmall",
                                   [KPN_NO_SESSION - KPN_NO_MEMORY] = "NoSession",
                                   [KPN_NULL - KPN_NO_MEMORY] = "Null",
                                   [KPN_NO_CHANNEL - KPN_NO_MEMORY] = "NoChannel",
                                   [KPN_OTHER_TEXT - KPN_NO_MEMORY] = "OtherText",
                                   [KPN_NO_TRACE - KPN_NO_MEMORY] = "NoTrace",
                                   [KPN_NO_PROCESS - KPN_NO_MEMORY] = "NoProcess",
                                   [KPN_PROCESS_FAULTED - KPN_NO_MEMORY] = "ProcessFaulted"};
  size_t place = fault - (size_t)KPN_NO_MEMORY;
  return fault >= KPN_NO_MEMORY && place < sizeof names / sizeof *names ? names[place] : "";
}

uint32_t kpn_count(kpn_session *session, kpn_counts *counts) {
  if (!session || !counts) return KPN_NULL;
  *counts = (kpn_counts){0, 0};
  if (!session->at) return KPN_NO_SESSION;
  *counts = (kpn_counts){kpn_network_of(session)->plan->process_count, kpn_network_of(session)->plan->channel_count};
  return KPN_OK;
}

/* Writes a name if there is room for it. */
static uint32_t put_name(const char *name, char *to, size_t room, size_t *length) {
  *length = strlen(name);
  if (*length > room) return KPN_TOO_SMALL;
  if (*length > 0) memcpy(to, name, *length);
  return KPN_OK;
}

uint32_t kpn_channel_name(kpn_session *session, size_t channel, char *name, size_t room, size_t *length) {
  if (!session || LACKS(name, room) || !length) return KPN_NULL;
  *length = 0;
  if (!session->at) return KPN_NO_SESSION;
  const struct kpn_plan *plan = kpn_network_of(session)->plan;
  return channel < plan->channel_count ? put_name(plan->channels[channel].name, name, room, length) : KPN_NO_CHANNEL;
}

uint32_t kpn_process_name(kpn_session *session, size_t process, char *name, size_t room, size_t *length) {
  if (!session || LACKS(name, room) || !length) return KPN_NULL;
  *length = 0;
  if (!session->at) return KPN_NO_SESSION;
  const struct kpn_plan *plan = kpn_network_of(session)->plan;
  return process < plan->process_count ? put_name(plan->processes[process].name, name, room, length) : KPN_NO_PROCESS;
}

/* A process that can't go on waits, also if that is no event yet. */
static kpn_process_state state_of(const struct kpn_process *process) {
  switch (process->being) {
  case KPN_STALLED:
  case KPN_WAITING:
    return (kpn_process_state){process->why == KPN_FULL ? KPN_STATE_WAITS_FULL : KPN_STATE_WAITS_EMPTY,
                               process->channel};
  case KPN_OVER:
    return (kpn_process_state){KPN_STATE_DONE + (uint32_t)(process->why - KPN_DONE), 0};
  default:
    return (kpn_process_state){KPN_STATE_READY, 0};
  }
}

uint32_t kpn_tell_processes(kpn_session *session, kpn_process_state *states, size_t room, size_t *count) {
  if (!session || LACKS(states, room) || !count) return KPN_NULL;
  *count = 0;
  if (!session->at) return KPN_NO_SESSION;
  struct kpn_network *network = kpn_network_of(session);
  kpn_lock_end(network);
  *count = network->plan->process_count;
  if (room < *count) return KPN_TOO_SMALL;
  for (size_t p = 0; p < *count; p++) {
    states[p] = state_of(&network->processes[p]);
  }
  return KPN_OK;
}

uint32_t kpn_tell_channel(kpn_session *session, size_t channel, kpn_channel_state *state) {
  if (!session || !state) return KPN_NULL;
  *state = (kpn_channel_state){0};
  if (!session->at) return KPN_NO_SESSION;
  struct kpn_network *network = kpn_network_of(session);
  if (channel >= network->plan->channel_count) return KPN_NO_CHANNEL;
  kpn_lock_end(network);
  const struct kpn_channel *own = &network->channels[channel];
  bool is_source = own->writer == KPN_OUTSIDE;
  *state = (kpn_channel_state){
      .writer = is_source ? KPN_CALLER : own->writer,
      .reader = own->reader == KPN_OUTSIDE ? KPN_CALLER : own->reader,
      .got = own->got + (size_t)kpn_carried_inside(network, channel),
      .unread = own->put - own->got,
      .is_closed = is_source && own->is_shut,
      .is_left = is_source ? network->processes[own->reader].being == KPN_OVER : own->is_shut};
  return KPN_OK;
}

uint32_t kpn_look(kpn_session *session, size_t channel, int64_t *items, size_t room, size_t *count) {
  if (!session || LACKS(items, room) || !count) return KPN_NULL;
  *count = 0;
  if (!session->at) return KPN_NO_SESSION;
  const struct kpn_network *network = kpn_network_of(session);
  kpn_channel_state state;
  uint32_t fault = kpn_tell_channel(session, channel, &state);
  const struct kpn_channel *own = &network->channels[channel];
  while (fault == KPN_OK && !state.is_left && *count < room && *count < state.unread) {
    items[*count] = own->ring[(own->got + *count) & own->mask];
    ++*count;
  }
  return fault;
}
