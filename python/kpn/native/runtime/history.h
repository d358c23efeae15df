/* history.h: the events of a run in order, and their text. */
#ifndef KPN_HISTORY_H
#define KPN_HISTORY_H

#include <stdbool.h>
#include <stddef.h>
#include <stdint.h>

enum kpn_event_kind {
  KPN_GET, KPN_PUT, KPN_WAIT_EMPTY, KPN_WAIT_FULL, KPN_END, KPN_FEED, KPN_CLOSE, KPN_TAKE, KPN_LEAVE, KPN_GROW
};

struct kpn_event {
  uint16_t kind, process, channel;
  int64_t item; /* of a growth the new capacity, of an end the `kpn_stop` */
};

enum { KPN_PIECE = 65536 };

/* The events lie in pieces, so that none is ever moved. */
struct kpn_piece {
  struct kpn_piece *next;
  struct kpn_event events[KPN_PIECE];
};

struct kpn_history {
  struct kpn_piece *first, *last;
  size_t used;             /* events in the last piece */
  uint64_t count, most;    /* of the events, and how many are kept at most */
};

bool kpn_history_add_slowly(struct kpn_history *history, struct kpn_event event);

/* Adds an event, or says that memory was refused. */
static inline bool kpn_history_add(struct kpn_history *history, enum kpn_event_kind kind, unsigned process,
                                   unsigned channel, int64_t item) {
  struct kpn_event event = {(uint16_t)kind, (uint16_t)process, (uint16_t)channel, item};
  if (history->last && history->used < KPN_PIECE && history->count < history->most) {
    history->last->events[history->used++] = event;
    history->count++;
    return true;
  }
  return kpn_history_add_slowly(history, event);
}

/* A place in a history, and what is added after it is dropped. Nothing is known of events that were not kept. */
struct kpn_history_mark {
  struct kpn_piece *last;
  size_t used;
  uint64_t count;
};

static inline struct kpn_history_mark kpn_history_mark(const struct kpn_history *history) {
  return (struct kpn_history_mark){history->last, history->used, history->count};
}

void kpn_history_cut(struct kpn_history *history, struct kpn_history_mark mark);
void kpn_history_free(struct kpn_history *history);

/* Takes a text in pieces; false says that it could not. */
typedef bool kpn_writer(void *to, const char *text, size_t length);

/* Writes a history as a trace of version 2. */
bool kpn_history_write(const struct kpn_history *history, bool is_policy_all, bool is_growth_double,
                       kpn_writer *writer, void *to);

/* Writes a number without leading zeros, and gives its end. It takes 20 bytes at most. */
char *kpn_digits(char *to, int64_t number);

#endif
