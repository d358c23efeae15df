/* network.h: the state of a compiled network, and what its processes do to it.

   The generated C has a constant `struct kpn_plan` and a function for the turns of each kind of process. A turn begins
   with the positions of the process's channels in locals, and puts them back at its end. A process that cannot go on
   leaves the queue at once. Its wait becomes an event later, before the run can come to a stop: until then it counts as
   ready, which each legal history allows. All items lie in rings; the item of position k is `ring[k & mask]`. */
#ifndef KPN_NETWORK_H
#define KPN_NETWORK_H

#include <stdbool.h>
#include <stddef.h>
#include <stdint.h>

#include "history.h"
#include "kpn.h"

/* Without optimisation no copies are wanted: such programs are only tests, and compile faster. */
#ifdef __OPTIMIZE__
#define KPN_INLINE static inline __attribute__((always_inline, unused))
#else
#define KPN_INLINE static inline __attribute__((unused))
#endif

/* Where lock step is the usual way and memory is small, turns are made for their size, and what they do at a channel is
   a call. */
#ifndef KPN_SMALL_TURNS
#define KPN_OF_TURN KPN_INLINE
#define KPN_TURN static
#else
#define KPN_OF_TURN static __attribute__((noinline, unused))
#if defined(__OPTIMIZE__) && defined(__clang__)
#define KPN_TURN static __attribute__((minsize))
#elif defined(__OPTIMIZE__) && defined(__GNUC__)
#define KPN_TURN static __attribute__((optimize("Os")))
#else
#define KPN_TURN static
#endif
#endif

/* For loops without checks: gcc makes no vectors of them under -O2. */
#if defined(__OPTIMIZE__) && defined(__GNUC__) && !defined(__clang__)
#define KPN_VECTORS __attribute__((optimize("O3"), noinline))
#else
#define KPN_VECTORS __attribute__((noinline))
#endif

enum {
  KPN_MOST_CHANNELS = 16384, /* of a description of language 2 */
  KPN_OUTSIDE = 0xffff,   /* in place of a process: the writer of a source, the reader of a sink */
  KPN_FUEL = 16384,       /* the most turns of loops in a turn of a process */
  KPN_MOST_ITEMS = 4096,  /* the most items that a turn of a process gets from a channel, or puts there */
  KPN_LEAST_VECTORS = 16, /* the least periods of a loop without checks */
  KPN_LATE = 1024         /* after this many turns waits become events, also while a process is ready */
};

enum kpn_kind { KPN_CHANNEL, KPN_SOURCE, KPN_SINK };

/* Where a process is. A stalled one waits, and its wait is no event yet. A parked one is ready in a history; it stands
   at the head of its loop, and its region makes its laps, or gathers. */
enum kpn_being { KPN_READY, KPN_STALLED, KPN_WAITING, KPN_OVER, KPN_PARKED };

/* How a turn has ended: with fuel used up, after a talk (only if a turn has one talk), without an item, without room,
   with the last lap that the process may make, or with the end of the process. */
enum kpn_stop {
  KPN_PAUSED, KPN_TALKED, KPN_EMPTY, KPN_FULL, KPN_LAPPED,
  KPN_DONE, KPN_OVERFLOW, KPN_ZERO_DIVISOR, KPN_INDEX, KPN_SHIFT
};

/* The word for the end of a process: `done`, or that of its fault. */
const char *kpn_end_word(enum kpn_stop end);

/* Beside the outcomes of kpn.h: there is none yet. */
enum { KPN_GOING = 0 };

struct kpn_channel {
  int64_t *ring;
  size_t mask;
  size_t got, put;         /* the positions of the next get and the next put */
  size_t room;             /* the most items that may lie here now: those of the ring, and at most the capacity */
  uint32_t capacity;
  uint16_t writer, reader;
  bool reader_waits, writer_waits; /* whether somebody has to know of the next put, of the next get */
  bool is_shut;            /* a source that is closed, a sink that was left, a channel whose reader has ended */
  bool is_complete;        /* as kpn_find_complete has found it */
};

struct kpn_process {
  uint16_t at;             /* the row where it is */
  uint16_t channel;        /* what it waits on */
  uint8_t being;
  uint8_t why;             /* KPN_EMPTY or KPN_FULL of a wait, and else how the process has ended */
  uint16_t region;         /* KPN_OUTSIDE if there is none */
  bool is_listed;          /* among those whose waits are to become events */
  uint64_t lap, last_lap;  /* of a member of a region: the turns of its loop since the region was apart, and at most */
};

/* A region is apart while its members make turns of their own; it gathers while each of them goes on to the head of its
   loop, until all have made the same number of periods; then it is together, and makes whole periods in one
   function. */
enum kpn_way { KPN_APART, KPN_GATHERING, KPN_TOGETHER };

struct kpn_region {
  uint8_t way;
  bool is_ready, is_over;   /* in the queue; never together again, since a member has ended or will fault */
  uint16_t gathered;        /* members that are parked */
  uint32_t patience, left;  /* how many times it does not gather, since it was of no use; how many are left */
  uint64_t periods, before; /* made in all, and before it came together */
};

/* Whether phases are made: then processes and what lies inside have to be asked for in lock.c. */
struct kpn_lock {
  bool is_on;
  uint16_t phase, entry;   /* now, and the one at which it began */
  uint32_t patience, left; /* how many times it does not begin, since it was of no use; how many are left */
  uint64_t made;           /* phases since it began */
};

struct kpn_network;
typedef enum kpn_stop kpn_turn(struct kpn_network *network, unsigned self);

/* What a period of a region gets from a channel that others write, or puts on one that others read. */
struct kpn_need {
  uint16_t channel;
  bool is_put;
  uint32_t count;
};

struct kpn_member {
  uint16_t process;
  uint32_t laps;           /* in a period */
};

/* A channel between members, how many items it carries in a period, and how many are unread there at most. */
struct kpn_inside {
  uint16_t channel;
  uint32_t count, most;
};

struct kpn_region_plan {
  kpn_turn *turn, *traced_turn;
  const struct kpn_member *members;
  const struct kpn_need *needs;
  const struct kpn_inside *inside;
  uint16_t member_count, need_count, inside_count;
};

struct kpn_channel_plan {
  const char *name;
  enum kpn_kind kind;
  uint32_t capacity;
  uint16_t writer, reader;
};

struct kpn_process_plan {
  const char *name;
  kpn_turn *turn, *traced_turn;
  const uint16_t *ports;   /* the channels of its in ports, then of its out ports */
  uint16_t in_count, out_count;
  uint32_t variables;      /* where its variables begin */
};

/* Lock step: what follows one more item of each source, in phases that recur (lock_text.py). The tables have, for each
   phase and in the order of numbers: the rows at which processes wait, the channels on which they do, and the unread
   items; and what was done from the first phase on, also after the last one: laps of processes, gets from channels. */
struct kpn_lock_plan {
  bool (*step)(struct kpn_network *network, unsigned phase); /* false: it can't be made, and nothing was changed */
  const uint16_t *rows, *waits, *unread;
  const uint16_t *laps, *gots;
  const uint16_t *slots;   /* of each channel: where its items lie between phases, from `base` on among the variables */
  const uint16_t *sources; /* the numbers of the sources */
  uint32_t base;
  uint16_t phase_count, source_count;
};

/* A text, by its length and a hash: each byte is xored to it, and then it is multiplied by KPN_PRIME. */
struct kpn_text {
  size_t length;
  uint64_t hash;
};

#define KPN_OFFSET UINT64_C(14695981039346656037)
#define KPN_PRIME UINT64_C(1099511628211)

/* A network as it was compiled. */
struct kpn_plan {
  const char *text;         /* the canonical description; null in static memory */
  struct kpn_text texts[2]; /* it, and the description that was compiled */
  const struct kpn_channel_plan *channels;
  const struct kpn_process_plan *processes;
  const int64_t *variables; /* as they are at the beginning */
  const struct kpn_region_plan *regions;
  const struct kpn_lock_plan *lock; /* null without lock step */
  size_t channel_count, process_count, variable_count, region_count;
  uint32_t limit;
  bool is_policy_all, is_growth_double;
  bool is_one_talk;        /* a turn is a commit of `kpn run`: one talk, or its steps used up; waits are events
                              immediately */
  const uint32_t *periods; /* the items of each channel in a period of all that is connected with it, 0 if that is not
                              known; null in static memory */
};

/* Takes what has come to a sink. */
typedef void kpn_taker(struct kpn_network *network, unsigned channel);

struct kpn_network {
  const struct kpn_plan *plan;
  struct kpn_channel *channels;
  struct kpn_process *processes;
  int64_t *variables;
  struct kpn_region *regions;
  struct kpn_lock lock;
  uint16_t *queue, *stalled;   /* who is ready, in a ring, where regions come after processes; whose waits are to become
                                  events */
  size_t first_ready, ready_count, stalled_count, still_count; /* still: waiting or over */
  size_t turns;                /* since waits became events */
  size_t fault_count;          /* of the processes that have ended by a fault */
  uint64_t commits;
  kpn_taker *taker;            /* who takes from the sinks at once; null if the owner does so when it likes */
  void *owner;
  struct kpn_history *history; /* null without a trace */
  bool lacks_memory;
  bool has_differed;           /* a loop without checks has given other items than the periods one by one */
};

/* ---- what a turn needs */

/* How many items a turn may get. */
KPN_OF_TURN size_t kpn_unread(const struct kpn_channel *channel) {
  size_t count = channel->put - channel->got;
  return count < KPN_MOST_ITEMS ? count : KPN_MOST_ITEMS;
}

/* How many items a turn may put. Nobody reads after the reader has ended: then the ring is written round and
   round. */
KPN_INLINE size_t kpn_room_now(const struct kpn_channel *channel) {
  if (channel->is_shut) {
    return KPN_MOST_ITEMS;
  }
  size_t count = channel->room - (channel->put - channel->got);
  return count < KPN_MOST_ITEMS ? count : KPN_MOST_ITEMS;
}

KPN_OF_TURN size_t kpn_free_room(const struct kpn_channel *channel) {
  return kpn_room_now(channel);
}

void kpn_serve_reader(struct kpn_network *network, struct kpn_channel *channel);
void kpn_serve_writer(struct kpn_network *network, struct kpn_channel *channel);
void kpn_make_ready(struct kpn_network *network, unsigned process);

/* Publishes what a turn has put up to a position. */
KPN_OF_TURN void kpn_publish_put(struct kpn_network *network, struct kpn_channel *channel, size_t put) {
  if (put != channel->put) {
    network->commits += put - channel->put;
    channel->put = put;
    if (channel->reader_waits) {
      kpn_serve_reader(network, channel);
    }
  }
}

/* The least of a count of periods, and of those for which a channel has items or room. */
KPN_INLINE size_t kpn_periods(size_t most, size_t items, size_t needed) {
  return items / needed < most ? items / needed : most;
}

/* Publishes what a turn has got up to a position. */
KPN_OF_TURN void kpn_publish_got(struct kpn_network *network, struct kpn_channel *channel, size_t got) {
  if (got != channel->got) {
    network->commits += got - channel->got;
    channel->got = got;
    if (channel->writer_waits) {
      kpn_serve_writer(network, channel);
    }
  }
}

#ifdef KPN_FIXED /* the network has static memory, and no history */
KPN_INLINE void kpn_record(struct kpn_network *network, enum kpn_event_kind kind, unsigned process, unsigned channel,
                           int64_t item) {
  (void)network, (void)kind, (void)process, (void)channel, (void)item;
}

KPN_INLINE void kpn_drop_events(struct kpn_network *network, struct kpn_history_mark mark) {
  (void)network, (void)mark;
}
#else
KPN_INLINE void kpn_record(struct kpn_network *network, enum kpn_event_kind kind, unsigned process, unsigned channel,
                           int64_t item) {
  if (!kpn_history_add(network->history, kind, process, channel, item)) {
    network->lacks_memory = true;
  }
}

KPN_INLINE void kpn_drop_events(struct kpn_network *network, struct kpn_history_mark mark) {
  kpn_history_cut(network->history, mark);
}
#endif

KPN_INLINE void kpn_record_put(struct kpn_network *network, unsigned process, unsigned channel, int64_t item) {
  kpn_record(network, KPN_PUT, process, channel, item);
  if (network->taker && network->channels[channel].reader == KPN_OUTSIDE && !network->channels[channel].is_shut) {
    kpn_record(network, KPN_TAKE, KPN_OUTSIDE, channel, item);
  }
}

/* A sum, a difference, a product; and whether it is out of range. */
KPN_INLINE bool kpn_add_overflows(int64_t a, int64_t b, int64_t *sum) {
  return __builtin_add_overflow(a, b, sum);
}

KPN_INLINE bool kpn_sub_overflows(int64_t a, int64_t b, int64_t *rest) {
  return __builtin_sub_overflow(a, b, rest);
}

KPN_INLINE bool kpn_mul_overflows(int64_t a, int64_t b, int64_t *made) {
  return __builtin_mul_overflow(a, b, made);
}

/* A quotient and a remainder whose divisor is neither 0 nor -1. Narrow divisions take less time. */
KPN_INLINE int64_t kpn_quotient(int64_t a, int64_t b) {
  if ((((uint64_t)a | (uint64_t)b) >> 32) == 0) {
    return (int64_t)((uint32_t)a / (uint32_t)b);
  }
  return a / b;
}

KPN_INLINE int64_t kpn_remainder(int64_t a, int64_t b) {
  if ((((uint64_t)a | (uint64_t)b) >> 32) == 0) {
    return (int64_t)((uint32_t)a % (uint32_t)b);
  }
  return a % b;
}

/* ---- regions, unless a network in static memory has none */

#ifndef KPN_NO_REGIONS
void kpn_gather(struct kpn_network *network);
bool kpn_scatter_idle(struct kpn_network *network);
void kpn_park(struct kpn_network *network, unsigned process);
void kpn_region_turn(struct kpn_network *network, unsigned region);
void kpn_wake_region(struct kpn_network *network, unsigned region);
void kpn_end_region(struct kpn_network *network, unsigned region);

/* How many items a channel inside a region has carried beside those of its positions: the region counts periods. */
uint64_t kpn_carried_inside(const struct kpn_network *network, size_t channel);
#else
KPN_INLINE void kpn_gather(struct kpn_network *network) {
  (void)network;
}

KPN_INLINE bool kpn_scatter_idle(struct kpn_network *network) {
  (void)network;
  return false;
}

KPN_INLINE void kpn_park(struct kpn_network *network, unsigned process) {
  (void)network;
  (void)process;
}

KPN_INLINE void kpn_region_turn(struct kpn_network *network, unsigned region) {
  (void)network;
  (void)region;
}

KPN_INLINE void kpn_wake_region(struct kpn_network *network, unsigned region) {
  (void)network;
  (void)region;
}

KPN_INLINE void kpn_end_region(struct kpn_network *network, unsigned region) {
  (void)network;
  (void)region;
}

KPN_INLINE uint64_t kpn_carried_inside(const struct kpn_network *network, size_t channel) {
  (void)network;
  (void)channel;
  return 0;
}
#endif

/* ---- lock step, unless a network in static memory has none */

/* Begins it if all processes wait as at the beginning of a phase; ends it; makes some phases, up to `most` commits in
   all. False says that it has ended, since there is work which takes the long way. */
#ifndef KPN_NO_LOCK
void kpn_lock_begin(struct kpn_network *network);
void kpn_lock_end(struct kpn_network *network);
bool kpn_lock_run(struct kpn_network *network, uint64_t most);

/* Whether a source has more items than at the beginning of its phase. */
bool kpn_lock_has_work(const struct kpn_network *network);
#else
KPN_INLINE void kpn_lock_begin(struct kpn_network *network) {
  (void)network;
}

KPN_INLINE void kpn_lock_end(struct kpn_network *network) {
  (void)network;
}

KPN_INLINE bool kpn_lock_run(struct kpn_network *network, uint64_t most) {
  (void)network;
  (void)most;
  return false;
}

KPN_INLINE bool kpn_lock_has_work(const struct kpn_network *network) {
  (void)network;
  return false;
}
#endif

/* ---- loops without checks. The items of a ring from a position on, as numbers of 32 bits; false if one has more than
   16 bits. And what they have put, from a place in the array up to another one, in a ring whose position is that of the
   array's first item. */

bool kpn_copy_small(int32_t *to, const int64_t *ring, size_t at, size_t mask, size_t count);
void kpn_widen(const int32_t *from, int64_t *ring, size_t at, size_t mask, size_t first, size_t end);
bool kpn_are_same(const int32_t *from, const int64_t *ring, size_t at, size_t mask, size_t first, size_t end);

/* ---- what the owner of a network calls. A bool that is false says that memory was refused. */

/* The arrays of a network in one block, which begins with its channels; or null. */
void *kpn_make_network(struct kpn_network *network, const struct kpn_plan *plan);

/* Begins: each process is ready, the sources are open, all rings are empty. The arrays have the sizes of the plan. */
void kpn_begin(struct kpn_network *network);

/* Gives a channel a larger ring, for at least this many items. */
bool kpn_reserve(struct kpn_network *network, unsigned channel, size_t items);

/* Gives each channel its first ring. A sink that is taken from at once has room for more than its capacity. */
bool kpn_reserve_all(struct kpn_network *network, bool with_sources);
void kpn_drop_rings(struct kpn_network *network);

/* Makes turns until `most` commits were made in all, none is ready, or memory lacks. */
void kpn_go(struct kpn_network *network, uint64_t most);

/* One turn, if a process is ready. */
void kpn_go_once(struct kpn_network *network);

/* Lets the waits of those that cannot go on become events, with the growths that they owe. */
void kpn_write_waits(struct kpn_network *network);

/* The outside: feeds an item, has fed items, closes a source, has taken from a sink up to a position, leaves a sink. */
bool kpn_feed_item(struct kpn_network *network, unsigned source, int64_t item);
void kpn_fed(struct kpn_network *network, unsigned source);
void kpn_close(struct kpn_network *network, unsigned source);
void kpn_taken(struct kpn_network *network, unsigned sink);
void kpn_leave(struct kpn_network *network, unsigned sink);

/* How the run has come to a stop; KPN_GOING while a process is ready. */
unsigned kpn_verdict_of(const struct kpn_network *network);

/* Finds the channels to which nothing more is ever put, whatever the capacities. */
void kpn_find_complete(struct kpn_network *network);

#endif
