/* arrays.h: a compiled network as a shared object, which runs on arrays of the process that has loaded it. */
#ifndef KPN_ARRAYS_H
#define KPN_ARRAYS_H

#include <stddef.h>
#include <stdint.h>

struct kpn_array {
  int64_t *items;
  size_t count;
};

struct kpn_run;

/* Begins a run on an array for each channel, which is read in place if that is a source, and must stay there until the
   end. The run is over once each sink has given `take` items; 0 stands for no such end. Null says that memory was
   refused. */
struct kpn_run *kpn_arrays_begin(const struct kpn_array *sources, uint64_t take);

/* Runs on until this many commits were made in all. Gives the outcome of kpn.h, KPN_STOPPED if there is none yet, and 0
   if memory was refused. */
uint32_t kpn_arrays_go(struct kpn_run *run, uint64_t most);

/* Writes the faults, the waits and the outcome as the report of `kpn run` has them, and gives the length; 0 if there is
   no room. */
size_t kpn_arrays_report(const struct kpn_run *run, char *text, size_t size);

/* Gives the items of the sinks, an array for each channel. They are the caller's, who frees them one by one. */
void kpn_arrays_take(struct kpn_run *run, struct kpn_array *sinks);
void kpn_arrays_free(int64_t *items);

void kpn_arrays_end(struct kpn_run *run);

/* ---- runs that are fed and read while they go on (live.c) */

struct kpn_live;

/* A run, or null without memory; and its end. */
struct kpn_live *kpn_live_begin(void);
void kpn_live_end(struct kpn_live *live);

/* Feeds a source; 0 says that memory was refused. Closes a source; leaves a sink. */
uint32_t kpn_live_feed(struct kpn_live *live, size_t source, const int64_t *items, size_t count);
void kpn_live_close(struct kpn_live *live, size_t source);
void kpn_live_leave(struct kpn_live *live, size_t sink);

/* Goes on for this many commits, or until no process is ready; gives the outcome so far, 0 while a process is ready. */
enum { KPN_LIVE_LACKS_MEMORY = 42 };
uint32_t kpn_live_go(struct kpn_live *live, uint64_t commits);

/* How many items have come to a sink and were not read; whether no more come; reads this many of them. */
size_t kpn_live_came(const struct kpn_live *live, size_t sink);
uint32_t kpn_live_is_complete(struct kpn_live *live, size_t channel);
void kpn_live_read(struct kpn_live *live, size_t sink, int64_t *items, size_t count);

/* Writes who has faulted or waits, and the outcome; gives the length. */
size_t kpn_live_report(const struct kpn_live *live, char *text, size_t size);

#endif
