/* session_memory.c: a session that takes memory as it needs it, and its trace. */
#include <stdlib.h>
#include <string.h>

#include "session.h"

struct kpn_own_session *kpn_make_session(void) {
  struct kpn_own_session *made = calloc(1, sizeof *made);
  if (made && !kpn_make_network(&made->network, &kpn_plan)) {
    free(made);
    return NULL;
  }
  return made;
}

void kpn_drop_session(struct kpn_own_session *session) {
  kpn_drop_rings(&session->network);
  kpn_history_free(&session->history);
  free(session->network.channels);
  free(session);
}

uint32_t kpn_keep_trace(kpn_session *session) {
  if (!session) return KPN_NULL;
  if (!session->at) return KPN_NO_SESSION;
  struct kpn_own_session *own = session->at;
  if (own->has_begun) return KPN_NO_TRACE;
  own->history.most = UINT64_MAX;
  own->network.history = &own->history;
  return KPN_OK;
}

/* Where a trace is written; without a place its length is counted. */
struct room {
  char *text;
  size_t length;
};

static bool write_to(void *to, const char *text, size_t length) {
  struct room *room = to;
  if (room->text) {
    memcpy(room->text + room->length, text, length);
  }
  room->length += length;
  return true;
}

uint32_t kpn_trace(kpn_session *session, char *text, size_t room, size_t *length) {
  if (!session || LACKS(text, room) || !length) return KPN_NULL;
  *length = 0;
  if (!session->at) return KPN_NO_SESSION;
  const struct kpn_own_session *own = session->at;
  const struct kpn_plan *plan = own->network.plan;
  struct room counted = {NULL, 0}, written = {text, 0};
  if (!own->network.history || own->network.has_differed) return KPN_NO_TRACE;
  if (own->has_lost_events) return KPN_NO_MEMORY;
  kpn_history_write(&own->history, plan->is_policy_all, plan->is_growth_double, write_to, &counted);
  *length = counted.length;
  if (counted.length > room) return KPN_TOO_SMALL;
  kpn_history_write(&own->history, plan->is_policy_all, plan->is_growth_double, write_to, &written);
  return KPN_OK;
}
