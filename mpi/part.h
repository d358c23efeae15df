/* A part of a network: a session of libkpn with the processes of one rank. A cut channel is a sink of the part of its
   writer and a source of the part of its reader. */
#ifndef KPN_MPI_PART_H
#define KPN_MPI_PART_H

#include "../include/kpn.h"
#include "cut.h"

enum { NOWHERE = -1 };

struct kpn_part {
  const struct kpn_network *net;
  const struct kpn_cut *cut;
  int rank;
  bool keeps;       /* whether it keeps its history, which a growth and a trace want */
  size_t *channels; /* its channels by their numbers in the whole */
  size_t *instances;
  size_t channel_count, instance_count;
  int *local;   /* the number in the part by the one in the whole, or NOWHERE */
  size_t *caps; /* the capacities at which the session was opened, by number in the whole */
  kpn_session session;
};

/* Opens the part of a rank. */
void kpn_open_part(struct kpn_part *made, const struct kpn_network *net, const struct kpn_cut *of, int rank,
                   bool keeps);
void kpn_close_part(struct kpn_part *of);

/* Whether the part writes this sink: one of the network or a cut channel. */
bool kpn_is_sink_of(const struct kpn_part *of, size_t channel);

/* The part as a description. */
void kpn_print_part(const struct kpn_part *of, struct kpn_text *into);

/* What has happened in the part, as `kpn audit` reads it. The part has to keep its history. */
void kpn_print_trace(struct kpn_part *of, struct kpn_text *into);

/* Gives a channel more room: opens the part anew at the capacities of now, and does all again that the outside had
   done, each thing only once the part has put on its sinks and got from its sources as much as it had before. So nobody
   outside can tell. */
void kpn_grow_part(struct kpn_part *of, size_t channel, size_t cap);

#endif
