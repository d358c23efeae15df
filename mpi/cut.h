/* Which rank has which instance, and what that means for the channels between ranks. */
#ifndef KPN_MPI_CUT_H
#define KPN_MPI_CUT_H

#include "network.h"

enum { MOST_RANKS = 256, USUAL_ROOM = 1024 };

struct kpn_cut {
  int ranks;
  int *rank_of; /* of each instance */
};

/* Each of these makes a cut in place of the one before.

   Cuts a network into parts of nearly equal numbers of instances, so that few channels are cut and no loop. */
void kpn_choose_cut(const struct kpn_network *net, int ranks, struct kpn_cut *made);

/* Reads lines INSTANCE=RANK, one for each instance. Returns the number of the first line that is wrong, with the number
   of lines + 1 if an instance has none; 0 if all is right. */
size_t kpn_read_cut(const struct kpn_network *net, const char *lines, size_t length, int ranks, struct kpn_cut *made);

/* Whether the ends of a channel are at different ranks. */
bool kpn_is_cut(const struct kpn_network *net, const struct kpn_cut *of, size_t number);

/* The rank with the writer of a channel or, of a source, with its reader. */
int kpn_home_of(const struct kpn_network *net, const struct kpn_cut *of, size_t number);

/* Gives the cut channels this room, if the limit of the network allows it and they have less. */
void kpn_raise_capacities(struct kpn_network *net, const struct kpn_cut *of, size_t room);

/* Whether processes at different ranks can come to wait for one another in a cycle, or channels grow at stops. */
bool kpn_may_grow_over_ranks(const struct kpn_network *net, const struct kpn_cut *of);

/* Writes the cut, the capacities over it, where each file has to lie, which loops are cut, and whether ranks keep their
   history. */
void kpn_print_plan(const struct kpn_network *net, const struct kpn_cut *of, struct kpn_text *into);

/* Writes the cut as read_cut reads it. */
void kpn_print_cut(const struct kpn_network *net, const struct kpn_cut *of, struct kpn_text *into);

#endif
