/* How ranks send words to one another: over MPI, or in one process over wires that hold messages back. */
#ifndef KPN_MPI_TRANSPORT_H
#define KPN_MPI_TRANSPORT_H

#include "common.h"

/* Messages from one rank to another come once, whole and in order. */
struct kpn_transport {
  /* Sends a message, and takes its words: an empty list is left. It does not wait. */
  void (*send)(struct kpn_transport *over, int to, struct kpn_words *message);
  /* Receives a message in place of what the list had, and returns whether one was there. It does not wait. */
  bool (*receive)(struct kpn_transport *over, int *from, struct kpn_words *message);
  /* Seconds since some moment. */
  double (*now)(struct kpn_transport *over);
};

#endif
