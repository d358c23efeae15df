/* kpn.h: Kahn process networks in a C program. README.md says how to link it.

   Each call does all that it is asked for and returns KPN_OK, or returns the number of a fault. Channels go by number,
   in the order in which a description declares them. `kpn_channel` finds the number of a name. Texts are bytes with a
   length, and need no 0 at their end.

   What there is

     kpn_check     says whether a text describes a network
     kpn_explain   why it does not, in words; kpn_fault_name has the name of a fault
     kpn_run       runs a network on whole lists: the items of all sinks, the outcome and the trace from one call
     kpn_open      opens a session: a run that you feed, step and take from, in your own loop
     kpn_open_forgetting    opens a session without a trace, whose memory does not grow with time
     kpn_channel   the number of a channel
     kpn_feed      feeds items to a source; any number may wait there
     kpn_close_source    says that nothing more comes to a source
     kpn_step      lets processes go on, for a number of commits or until none is ready
     kpn_take      takes what came to a sink
     kpn_leave_sink    says that nobody takes from a sink any more
     kpn_move      feeds, steps and takes in one call: the fastest way in lock step with a simulator
     kpn_is_complete     whether nothing more ever comes to a channel
     kpn_verdict   how the run has come to a stop, if it has
     kpn_count     how many processes and channels there are, with the numbers from 0 on
     kpn_channel_name, kpn_process_name    the name that the description gives to one
     kpn_tell_processes    the state of each process: whether it is ready, for which channel it waits, how it ended
     kpn_tell_channel    what is at the ends of a channel, how many items were got and how many are unread
     kpn_look      the unread items of a channel, which stay there
     kpn_trace     what has happened so far, as the text that `kpn audit` reads
     kpn_free      frees a session

   What you can rely on

     - The same items come to the sinks as under `kpn run` and every other order of steps.
     - No call keeps a pointer of yours once it has returned. What is told as a text has no 0 at its end.
     - A null pointer, a wrong number and a session that was freed are faults, also if there is nothing to feed or take.
       (A pointer to 0 items may be null.)
     - A buffer that is too small is a fault. The call then changes no buffer, and tells the sizes that are needed.
     - Memory that is refused is a fault. `kpn_feed`, `kpn_step`, `kpn_take` and `kpn_move` tell how much they had done
       before; all other calls leave the session as it was. A process whose commit was refused is ready again.
     - No call waits, starts a thread or writes anywhere but to its buffers. No call takes longer than its work: in a
       session a process makes at most 1,000 steps in a commit, and in `kpn_run` at most the quota of its limits.

   What you owe

     - A session is used by one thread at a time, and not from a signal handler.
     - `kpn_open` begins with a `kpn_session` that is not open, or that was freed. You neither write to it nor use a
       copy of it once it was freed. `kpn_free` ends it.
     - A call has 144 KiB of stack. What the deepest description needs is measured, not proved.
     - A pointer points to as many elements as the length beside it says. The buffers that a call writes do not overlap,
       and do not overlap what it reads.
     - malloc, realloc and free come from one allocator, which aligns a block to each power of two up to 16 that divides
       its size.
*/
#ifndef KPN_H
#define KPN_H

#include <stdbool.h>
#include <stddef.h>
#include <stdint.h>

#ifdef __cplusplus
extern "C" {
#endif

/* ---- faults. 1 to 24 are those of descriptions, with a place: a process, an instance, a channel or a byte */

enum {
  KPN_OK = 0,
  KPN_TEXT_NO_MEMORY = 28, /* no memory for a description */
  KPN_NO_MEMORY = 42,      /* no memory */
  KPN_NO_SUCH_END = 43,    /* no source, or no sink, has this number */
  KPN_SOURCE_CLOSED = 44,
  KPN_SINK_LEFT = 46,
  KPN_LISTS = 60,          /* not one length for each source, or the lengths do not sum up to the items */
  KPN_TOO_SMALL = 61,      /* a buffer is too small */
  KPN_NO_SESSION = 62,     /* the session was not opened, or was freed */
  KPN_NULL = 63,           /* a pointer is null */
  KPN_NO_CHANNEL = 64,     /* no channel has this name or number */
  KPN_OTHER_TEXT = 65,     /* of a compiled network: not the text that was compiled */
  KPN_NO_TRACE = 66,       /* the session keeps no trace */
  KPN_NO_PROCESS = 67,     /* no process has this number */
  KPN_PROCESS_FAULTED = 68 /* of a compiled network: a process has ended by a fault; all that was asked for is done */
};

typedef struct {
  bool has_place;
  size_t place;
} kpn_place;

/* The name of a fault, as the program and docs/ERRORS.md have it, or an empty text. It lasts, and ends with a 0. */
const char *kpn_fault_name(uint32_t fault);

/* ---- descriptions */

/* Reads a description. If it is none, the place says where. */
uint32_t kpn_check(const char *text, size_t length, kpn_place *place);

/* Writes in words why a text is no description: the fault, its name, and where it is, as
   `22 UnknownName at byte 145, line 7, column 12` or `13 NoWriter at channel 0`. It tells their length, also if there
   is no room for them: 0 if the text is a description. Lines and columns count from 1, all else from 0. If memory is
   refused, it tells no words, and returns KPN_TEXT_NO_MEMORY or KPN_NO_MEMORY. */
uint32_t kpn_explain(const char *text, size_t length, char *words, size_t room, size_t *count);

/* ---- a run on whole lists */

enum { KPN_ENDED = 1, KPN_CLOGGED = 2, KPN_JAMMED = 3, KPN_ENOUGH = 4, KPN_STOPPED = 5 };

typedef struct {
  uint64_t commits; /* the most commits */
  bool has_take;    /* whether `take` items of each sink are enough */
  uint64_t take;
  uint32_t quota;   /* the most steps of a process in a commit; 0 counts as 1 */
} kpn_limits;

/* The lists of the sources, list by list, in order of channel number. */
typedef struct {
  const int64_t *items;
  size_t item_count;
  const size_t *lengths; /* of each list */
  size_t source_count;
} kpn_lists;

/* Where a run puts what it tells: the items of the sinks, sink by sink, how many are of each sink, and the trace. If
   `take` items are enough, it tells no more of any sink. The trace may have more. */
typedef struct {
  int64_t *items;
  size_t item_room;
  size_t *lengths;
  size_t sink_room;
  char *trace;
  size_t trace_room;
} kpn_room;

/* What a run has come to, and the sizes of what it tells. */
typedef struct {
  uint32_t outcome;
  uint64_t commits;
  size_t item_count;
  size_t sink_count;
  size_t trace_length;
} kpn_ran;

uint32_t kpn_run(const char *text, size_t length, const kpn_lists *lists, const kpn_limits *limits,
                 const kpn_room *room, kpn_ran *ran, kpn_place *place);

/* ---- sessions */

typedef struct {
  void *at; /* null if it is not open */
} kpn_session;

uint32_t kpn_open(const char *text, size_t length, kpn_session *session, kpn_place *place);

/* Opens a session that keeps nothing of what has happened: it has no trace (KPN_NO_TRACE). All else is as in other
   sessions. Its memory grows with what is unread, and not with time. */
uint32_t kpn_open_forgetting(const char *text, size_t length, kpn_session *session, kpn_place *place);
uint32_t kpn_channel(kpn_session *session, const char *name, size_t length, size_t *channel);

/* Feeds items, and tells how many: all of them, unless it returns a fault. A source that was closed is one, also if
   there are no items. */
uint32_t kpn_feed(kpn_session *session, size_t source, const int64_t *items, size_t count, size_t *fed);
uint32_t kpn_close_source(kpn_session *session, size_t source);

/* Makes this many commits, or fewer if no process is ready, and tells how many. */
uint32_t kpn_step(kpn_session *session, uint64_t most, uint64_t *commits);

/* Takes as many items as there are and as there is room for, and tells how many. */
uint32_t kpn_take(kpn_session *session, size_t sink, int64_t *items, size_t room, size_t *taken);

/* Leaves a sink: nothing is taken from it any more, and no process waits because it is full. What is unread there stays
   unread. A second call changes nothing. */
uint32_t kpn_leave_sink(kpn_session *session, size_t sink);

/* An item for a source. */
typedef struct {
  size_t channel;
  int64_t item;
} kpn_item;

/* A place for the next item of a sink. `has_item` is told: whether one was there. */
typedef struct {
  size_t channel;
  int64_t item;
  bool has_item;
} kpn_wanted;

typedef struct {
  size_t fed;       /* how many items were fed */
  uint64_t commits; /* how many commits were made */
  size_t served;    /* how many places have an item, or the note that none was there */
} kpn_amounts;

/* Feeds each item to its source, steps, and serves each place, all in order: what kpn_feed, kpn_step and kpn_take do in
   several calls. At a fault it stops where it is, and what it had done stays. */
uint32_t kpn_move(kpn_session *session, const kpn_item *items, size_t count, uint64_t most, kpn_wanted *places,
                  size_t place_count, kpn_amounts *amounts);
uint32_t kpn_is_complete(kpn_session *session, size_t channel, bool *complete);

/* KPN_ENDED, KPN_CLOGGED or KPN_JAMMED once each process has ended or waits, each source is closed, and each sink is
   empty or left; 0 before. So of a session that only waits for items of open sources it is 0; `kpn_tell_processes` says
   who waits or has faulted. */
uint32_t kpn_verdict(kpn_session *session, uint32_t *verdict);

typedef struct {
  size_t processes;
  size_t channels;
} kpn_counts;

/* The processes of a session are the instances of its network, in the order in which a description has them. */
uint32_t kpn_count(kpn_session *session, kpn_counts *counts);

/* Writes a name, and tells its length, also if there is no room for it. No name has more than 32 bytes. */
uint32_t kpn_channel_name(kpn_session *session, size_t channel, char *name, size_t room, size_t *length);
uint32_t kpn_process_name(kpn_session *session, size_t process, char *name, size_t room, size_t *length);

/* The states of a process. 3 to 7: it has ended, at the end of its body or by a fault. */
enum {
  KPN_STATE_READY = 0,
  KPN_STATE_WAITS_EMPTY = 1,    /* until an item is put on its channel */
  KPN_STATE_WAITS_FULL = 2,     /* until an item is got from its channel, or nobody reads that any more */
  KPN_STATE_DONE = 3,
  KPN_STATE_OVERFLOW = 4,       /* a value was outside of -2^63 to 2^63 - 1 */
  KPN_STATE_ZERO_DIVISOR = 5,   /* a divisor was 0 */
  KPN_STATE_INDEX = 6,          /* an array or a table had no such cell */
  KPN_STATE_SHIFT = 7           /* the count of a shift was below 0 or above 63 */
};

typedef struct {
  uint32_t state;
  size_t channel; /* on which it waits; else 0 */
} kpn_process_state;

/* Writes the state of each process in order, and tells how many there are, also if there is no room for them. */
uint32_t kpn_tell_processes(kpn_session *session, kpn_process_state *states, size_t room, size_t *count);

/* In place of a process: your program, which writes a source or reads a sink. */
#define KPN_CALLER SIZE_MAX

typedef struct {
  size_t writer;  /* the process that writes it, or KPN_CALLER */
  size_t reader;  /* the process that reads it, or KPN_CALLER */
  size_t got;     /* how many items its reader has got so far. So `got + unread` were put */
  size_t unread;  /* how many were put and not got */
  bool is_closed; /* whether it is a source that was closed */
  bool is_left;   /* whether its reader has ended, or it is a sink that was left */
} kpn_channel_state;

uint32_t kpn_tell_channel(kpn_session *session, size_t channel, kpn_channel_state *state);

/* Copies the unread items of a channel, oldest first, as many as there is room for, and tells how many. They stay unread.
   Where nobody reads any more there are none. */
uint32_t kpn_look(kpn_session *session, size_t channel, int64_t *items, size_t room, size_t *count);

/* Writes the trace, and tells its length, also if there is no room for it. */
uint32_t kpn_trace(kpn_session *session, char *text, size_t room, size_t *length);
uint32_t kpn_free(kpn_session *session);

#ifdef __cplusplus
}
#endif

#endif
