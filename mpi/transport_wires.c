/* A wire for each pair of ranks. Each time that a rank asks for a message it hears of a random wire, or of none. */
#include "transport_wires.h"

#include <stdlib.h>

enum { MOST_HELD_BACK = 8 };

/* The messages from one rank to another, oldest first. */
struct wire {
  struct kpn_words *messages;
  size_t first, count, room;
};

struct wires_end {
  struct kpn_transport base;
  int number, ranks;
  uint64_t *state;    /* of chance; shared by all */
  struct wire *wires; /* of all pairs, those from rank 0 first */
  unsigned patience;  /* a message is heard in one of this many rounds */
  double time;
};

unsigned long kpn_chance(uint64_t *state, unsigned long below) {
  *state += 0x9E3779B97F4A7C15u;
  uint64_t mixed = (*state ^ (*state >> 30)) * 0xBF58476D1CE4E5B9u;
  mixed = (mixed ^ (mixed >> 27)) * 0x94D049BB133111EBu;
  return (unsigned long)((mixed ^ (mixed >> 31)) % below);
}

static void send(struct kpn_transport *base, int to, struct kpn_words *message) {
  struct wires_end *over = (struct wires_end *)base;
  struct wire *on = &over->wires[over->number * over->ranks + to];
  if (on->first + on->count == on->room) {
    const size_t room = 2 * on->room + 4;
    struct kpn_words *made = kpn_memory(room * sizeof *made);
    for (size_t k = 0; k < on->count; k++) {
      made[k] = on->messages[on->first + k];
    }
    free(on->messages);
    *on = (struct wire){made, 0, on->count, room};
  }
  on->messages[on->first + on->count++] = *message;
  *message = (struct kpn_words){0};
}

static bool receive(struct kpn_transport *base, int *from, struct kpn_words *message) {
  struct wires_end *over = (struct wires_end *)base;
  const int wanted = (int)kpn_chance(over->state, (unsigned long)over->ranks);
  struct wire *on = &over->wires[wanted * over->ranks + over->number];
  if (!on->count || kpn_chance(over->state, over->patience)) {
    return false;
  }
  kpn_free_words(message);
  *message = on->messages[on->first++];
  on->count--;
  *from = wanted;
  return true;
}

/* A moment for each time that somebody asks. */
static double now(struct kpn_transport *base) {
  struct wires_end *over = (struct wires_end *)base;
  return over->time += 0.004;
}

struct kpn_transport **kpn_open_wires(int ranks, unsigned long seed) {
  struct kpn_transport **ends = kpn_memory((size_t)ranks * sizeof *ends);
  uint64_t *state = kpn_memory(sizeof *state);
  struct wire *wires = kpn_memory((size_t)ranks * (size_t)ranks * sizeof *wires);
  *state = seed;
  const unsigned patience = 1 + (unsigned)kpn_chance(state, MOST_HELD_BACK);
  for (int rank = 0; rank < ranks; rank++) {
    struct wires_end *made = kpn_memory(sizeof *made);
    *made = (struct wires_end){{send, receive, now}, rank, ranks, state, wires, patience, 0};
    ends[rank] = &made->base;
  }
  return ends;
}

void kpn_close_wires(struct kpn_transport **ends, int ranks) {
  const struct wires_end *first = (struct wires_end *)ends[0];
  for (int k = 0; k < ranks * ranks; k++) {
    const struct wire *on = &first->wires[k];
    for (size_t m = 0; m < on->count; m++) {
      kpn_free_words(&on->messages[on->first + m]);
    }
    free(on->messages);
  }
  free(first->wires);
  free(first->state);
  for (int rank = 0; rank < ranks; rank++) {
    free(ends[rank]);
  }
  free(ends);
}
