/* The frames of which messages consist: a kind, a number and a count, and then that many words. */
#ifndef KPN_MPI_FRAMES_H
#define KPN_MPI_FRAMES_H

#include <string.h>

#include "common.h"

enum {
  FRAME_TEXT,    /* rank 0 to others: the description as bytes in words; the number is its length */
  FRAME_CUT,     /* rank 0 to others: the file of --cut, likewise */
  FRAME_READY,   /* to rank 0: the inputs were read, or which option is refused and why */
  FRAME_GO,      /* rank 0 to others: the number is a status; 0: go */
  FRAME_ITEMS,   /* writer's rank to reader's: items of the channel with this number */
  FRAME_CREDIT,  /* reader's rank to writer's: how many items of the channel were got in all */
  FRAME_LEFT,    /* likewise, and nobody reads it any more */
  FRAME_REPORT,  /* to rank 0: what the chief judges; the number is 1 if the rank is at rest */
  FRAME_ENOUGH,  /* to rank 0: each sink there has as many items as are wanted */
  FRAME_STOPPED, /* to rank 0: the last commit was made */
  FRAME_GROW,    /* rank 0 to others: the channel gets the capacity that follows */
  FRAME_STOP,    /* rank 0 to others: the number is the outcome */
  FRAME_SINK,    /* to rank 0: items of the sink with this number */
  FRAME_TRACE,   /* to rank 0: the trace of a rank as bytes in words; the number is its length */
  FRAME_PART,    /* to rank 0: its part, likewise; it has handed over all then */
  FRAME_VERDICT, /* rank 0 to others: whether the run is certified; the number is a status */
  FRAME_END,     /* each to each: the last frame; the number is the status of what was stored */
  FRAME_BEAT     /* nothing: the rank is there */
};

enum { HEAD = 3 };

/* Appends a frame with room for this many words, and returns the place of the first one. */
static inline int64_t *kpn_add_frame(struct kpn_words *message, int64_t kind, int64_t number, size_t count) {
  int64_t *at = kpn_extend(message, HEAD + count);
  at[0] = kind;
  at[1] = number;
  at[2] = (int64_t)count;
  return at + HEAD;
}

/* Appends a frame with a text, and reads one. */
static inline void kpn_add_text(struct kpn_words *message, int64_t kind, const struct kpn_text *of) {
  int64_t *at = kpn_add_frame(message, kind, (int64_t)of->length, (of->length + 7) / 8);
  if (!of->length) {
    return;
  }
  at[(of->length - 1) / 8] = 0; /* no byte is unset */
  memcpy(at, of->at, of->length);
}

static inline void kpn_read_text(struct kpn_text *into, const int64_t *at, size_t length) {
  kpn_free_text(into);
  memcpy(kpn_extend_text(into, length), at, length);
}

#endif
