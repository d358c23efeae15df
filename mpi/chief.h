/* The chief, at rank 0: finds artificial deadlocks over parts and the end of the run, from what the ranks report. */
#ifndef KPN_MPI_CHIEF_H
#define KPN_MPI_CHIEF_H

#include "../include/kpn.h"
#include "cut.h"

enum kpn_outcome {
  NO_OUTCOME = 0,
  ENDED = KPN_ENDED,
  CLOGGED = KPN_CLOGGED,
  JAMMED = KPN_JAMMED,
  ENOUGH = KPN_ENOUGH,
  STOPPED = KPN_STOPPED
};

/* What the ends of a cut channel have reported. */
struct kpn_ends {
  size_t sent, credited, put;
  bool is_left; /* at its writer */
  size_t received, got;
  bool has_left; /* at its reader */
};

/* What a process has reported. */
struct kpn_standing {
  uint32_t state;
  size_t channel, unread; /* on which it waits, and how many items are unread there; of a full one its capacity */
};

struct kpn_chief {
  const struct kpn_network *net;
  const struct kpn_cut *cut;
  bool is_at_rest[MOST_RANKS], is_known[MOST_RANKS];
  size_t grows[MOST_RANKS]; /* how many growths were asked of each rank */
  bool has_enough[MOST_RANKS];
  bool wants_enough, has_stopped;
  struct kpn_ends *ends;
  struct kpn_standing *standings;
  struct kpn_words *items; /* of the sinks, at the end */
  struct kpn_text traces[MOST_RANKS], parts[MOST_RANKS]; /* what the ranks hand over for a certificate */
  int handed_count;
};

/* What the chief wants next. */
struct kpn_verdict {
  enum kpn_outcome outcome; /* if it is not NO_OUTCOME, the run is over */
  bool grows;               /* else a channel may have to grow */
  size_t channel, cap;
};

void kpn_open_chief(struct kpn_chief *made, const struct kpn_network *net, const struct kpn_cut *of, bool wants_enough);
void kpn_free_chief(struct kpn_chief *of);

/* How many words a rank reports, and what they are: the number of its growths, for each of its processes its standing,
   for each cut channel in order of number four words if its writer is there, or three if its reader is. */
size_t kpn_length_of_report(const struct kpn_network *net, const struct kpn_cut *of, int rank);
void kpn_hear_report(struct kpn_chief *of, int rank, bool is_at_rest, const int64_t *words);

/* What follows from all that was heard. Call it again after a growth. */
struct kpn_verdict kpn_judge(struct kpn_chief *of);

#endif
