#include "history.h"

#include <stdlib.h>
#include <string.h>

#include "network.h"

bool kpn_history_add_slowly(struct kpn_history *history, struct kpn_event event) {
  if (history->count >= history->most) {
    history->count++;
    return true;
  }
  if (!history->last || history->used == KPN_PIECE) {
    struct kpn_piece *piece = malloc(sizeof *piece);
    if (!piece) {
      return false;
    }
    piece->next = NULL;
    if (history->last) {
      history->last->next = piece;
    } else {
      history->first = piece;
    }
    history->last = piece;
    history->used = 0;
  }
  history->last->events[history->used++] = event;
  history->count++;
  return true;
}

static void free_pieces(struct kpn_piece *piece) {
  while (piece) {
    struct kpn_piece *next = piece->next;
    free(piece);
    piece = next;
  }
}

void kpn_history_cut(struct kpn_history *history, struct kpn_history_mark mark) {
  free_pieces(mark.last ? mark.last->next : history->first);
  if (mark.last) {
    mark.last->next = NULL;
  } else {
    history->first = NULL;
  }
  history->last = mark.last;
  history->used = mark.used;
  history->count = mark.count;
}

void kpn_history_free(struct kpn_history *history) {
  free_pieces(history->first);
  history->first = history->last = NULL;
}

char *kpn_digits(char *to, int64_t number) {
  char digits[20];
  size_t count = 0;
  uint64_t left = number < 0 ? -(uint64_t)number : (uint64_t)number;
  if (number < 0) {
    *to++ = '-';
  }
  do {
    digits[count++] = (char)('0' + left % 10);
    left /= 10;
  } while (left);
  while (count) {
    *to++ = digits[--count];
  }
  return to;
}

static char *word(char *to, const char *text) {
  size_t length = strlen(text);
  memcpy(to, text, length);
  return to + length;
}

static char *number(char *to, int64_t value) {
  *to++ = ' ';
  return kpn_digits(to, value);
}

const char *kpn_end_word(enum kpn_stop end) {
  static const char *const ends[] = {[KPN_DONE] = "done", [KPN_OVERFLOW] = "overflow",
                                     [KPN_ZERO_DIVISOR] = "zero-divisor", [KPN_INDEX] = "index", [KPN_SHIFT] = "shift"};
  return ends[end];
}

/* The line of an event, which takes 64 bytes at most. */
static char *line_of(char *to, const struct kpn_event *event) {
  static const char *const words[] = {"get", "put", "wait-empty", "wait-full", "end",
                                      "feed", "close", "take", "leave", "grow"};
  to = word(to, words[event->kind]);
  if (event->process != KPN_OUTSIDE) {
    to = number(to, event->process);
  }
  if (event->kind == KPN_END) {
    *to++ = ' ';
    to = word(to, kpn_end_word((enum kpn_stop)event->item));
  } else {
    to = number(to, event->channel);
  }
  if (event->kind == KPN_GET || event->kind == KPN_PUT || event->kind == KPN_FEED || event->kind == KPN_TAKE ||
      event->kind == KPN_GROW) {
    to = number(to, event->item);
  }
  *to++ = '\n';
  return to;
}

bool kpn_history_write(const struct kpn_history *history, bool is_policy_all, bool is_growth_double,
                       kpn_writer *writer, void *to) {
  enum { BUFFER = 65536, LINE = 64 };
  static const char head[] = "kpn-trace 2\npolicy ";
  char buffer[BUFFER], *at = word(buffer, head);
  at = word(at, is_policy_all ? "all" : "cycles");
  at = word(at, is_growth_double ? " grow double\n" : " grow one\n");
  for (const struct kpn_piece *piece = history->first; piece; piece = piece->next) {
    size_t count = piece == history->last ? history->used : KPN_PIECE;
    for (size_t k = 0; k < count; k++) {
      if (at - buffer > BUFFER - LINE) {
        if (!writer(to, buffer, (size_t)(at - buffer))) {
          return false;
        }
        at = buffer;
      }
      at = line_of(at, &piece->events[k]);
    }
  }
  return writer(to, buffer, (size_t)(at - buffer));
}
