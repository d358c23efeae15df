/* What a rank does: it steps its part, sends what was put on cut channels, and takes what others have got. */
#ifndef KPN_MPI_RANK_H
#define KPN_MPI_RANK_H

#include "chief.h"
#include "files.h"
#include "part.h"
#include "transport.h"

struct kpn_settings {
  bool has_take;
  uint64_t take, most_commits;
  size_t window;  /* the most items of a channel on the way, while its writer works */
  uint64_t steps; /* the commits of a round; 0: as the cut channels want it */
  double timeout; /* after this many seconds without a word from a rank all end; 0: never */
};

/* The end of a cut channel at its writer. */
struct kpn_outgoing {
  size_t channel, local;
  int to;
  size_t put, sent, credited;
  bool is_left;
};

/* The end of a cut channel at its reader. */
struct kpn_incoming {
  size_t channel, local;
  int from;
  size_t received, got;
  bool is_left;
};

/* A sink of the network. */
struct kpn_own_sink {
  size_t channel, local;
  struct kpn_words items;
};

/* The first option, in order of the reading, whose file is refused. */
struct kpn_refused_option {
  size_t option; /* SIZE_MAX: none is */
  struct kpn_refusal why;
};

enum kpn_phase { STARTING, WORKING, ENDING, REFUSED };

struct kpn_rank {
  const struct kpn_network *net;
  const struct kpn_cut *cut;
  int number;
  struct kpn_settings settings;
  struct kpn_transport *transport;
  struct kpn_chief *chief; /* at rank 0 */
  bool must_judge, has_ruled;
  struct kpn_part part;
  enum kpn_phase phase;
  enum kpn_outcome outcome; /* once it ends */
  size_t *place; /* of a cut channel, by its number in the whole: where it is among these */
  struct kpn_outgoing *outs;
  struct kpn_incoming *ins;
  struct kpn_own_sink *sinks;
  size_t out_count, in_count, sink_count;
  uint64_t steps, commits; /* of a round; of all */
  size_t share;            /* the most that a cut channel moved in this round */
  size_t grows;            /* how many growths the chief has asked for and got */
  bool may_step;           /* whether a process may be ready */
  bool has_told_enough, has_told_stopped;
  int rounds_at_rest;
  double told_at, beaten_at, looked_at, heard_of[MOST_RANKS];
  int ready_count; /* at rank 0: how many ranks have opened all they need, or could not */
  struct kpn_refused_option refused;
  bool has_ended[MOST_RANKS], has_results;
  int worst_status;                /* of all ranks that have ended */
  bool has_handed, has_verdict;    /* of a certificate */
  int verdict;                     /* of the chief: 0, or the status with which the run fails */
  struct kpn_words to[MOST_RANKS]; /* what goes out at the end of the round */
  struct kpn_words message, self, scratch;
};

/* Makes a rank with an open part. Then its sources are fed and closed. */
void kpn_open_rank(struct kpn_rank *made, const struct kpn_network *net, const struct kpn_cut *of, int number,
                   const struct kpn_settings *given, struct kpn_transport *over, bool keeps);
void kpn_feed_source(struct kpn_rank *of, size_t channel, const int64_t *items, size_t count);
void kpn_free_rank(struct kpn_rank *of);

/* Says that this rank has opened all that it needs, or what is refused. The ranks work once all have said so, and none
   if anything is refused. */
void kpn_say_ready(struct kpn_rank *of, const struct kpn_refused_option *refused);

/* Lets others know that this rank is there, if it is time. What takes long does so in between. */
void kpn_beat(struct kpn_rank *of);

/* Makes a round, and returns whether it has done anything. */
bool kpn_make_round(struct kpn_rank *of);

/* In phase ENDING, if the run is to be certified: hands the items of the sinks, the trace and the part to rank 0, once.
   Rank 0 says to all what came of it. */
void kpn_hand_over(struct kpn_rank *of);
void kpn_say_verdict(struct kpn_rank *of, int status);

/* In phase ENDING: sends the items of the sinks if they are wanted and were not handed over, and the status of what was
   stored. Then rounds are made until it is over. */
void kpn_send_results(struct kpn_rank *of, int status);
bool kpn_is_over(const struct kpn_rank *of);

/* The items of a sink as far as they are wanted. */
size_t kpn_wanted_of(const struct kpn_rank *of, const struct kpn_own_sink *sink);

#endif
