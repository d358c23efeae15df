/* session.h: a session of kpn.h as it lies in memory. */
#ifndef KPN_SESSION_H
#define KPN_SESSION_H

#include "kpn_native.h"
#include "network.h"

#define LACKS(pointer, length) (!(pointer) && (length) > 0)

struct kpn_own_session {
  struct kpn_network network;
  struct kpn_history history;
  bool has_begun, has_lost_events;
};

extern const struct kpn_plan kpn_plan;

/* The network of a session that is open. */
static inline struct kpn_network *kpn_network_of(kpn_session *session) {
  return &((struct kpn_own_session *)session->at)->network;
}

/* A session whose network has its arrays and nothing in them, or null. */
struct kpn_own_session *kpn_make_session(void);
void kpn_drop_session(struct kpn_own_session *session);

#endif
