/* Networks by hand: state machines over rings, which one thread steps in turn, each as far as it can go.

   usage: rings row COPIES CAPACITY ITEMS | split 0 CAPACITY ITEMS | sieve FILTERS CAPACITY LARGEST | kahn 0 1 ITEMS

   It prints the sum of what comes out. Capacities are powers of two. */
#include <inttypes.h>
#include <stdbool.h>
#include <stdint.h>
#include <stdio.h>
#include <stdlib.h>
#include <string.h>

enum { MOST = 512 };

struct ring {
  int64_t *items;
  size_t mask, got, put;
};

struct machine {
  void (*turn)(struct machine *machine);
  struct ring *in[2], *out[2];
  int64_t k, n;
  int at;
};

static struct ring rings[MOST];
static struct machine machines[MOST];
static size_t ring_count, machine_count;
static uint64_t sum;

static inline bool has_item(const struct ring *ring) { return ring->got != ring->put; }
static inline bool has_room(const struct ring *ring) { return ring->put - ring->got <= ring->mask; }
static inline int64_t get(struct ring *ring) { return ring->items[ring->got++ & ring->mask]; }
static inline void put(struct ring *ring, int64_t item) { ring->items[ring->put++ & ring->mask] = item; }

static struct ring *ring_of(size_t capacity) {
  struct ring *ring = &rings[ring_count++];
  *ring = (struct ring){malloc(capacity * sizeof(int64_t)), capacity - 1, 0, 0};
  if (!ring->items) exit(1);
  return ring;
}

static void add(void (*turn)(struct machine *), struct ring *in, struct ring *out, int64_t k, int64_t n) {
  machines[machine_count++] = (struct machine){turn, {in, NULL}, {out, NULL}, k, n, 0};
}

static void count(struct machine *m) {
  while (m->k <= m->n && has_room(m->out[0])) put(m->out[0], m->k++);
}

static void copy(struct machine *m) {
  while (has_item(m->in[0]) && has_room(m->out[0])) put(m->out[0], get(m->in[0]));
}

static void add_up(struct machine *m) {
  for (; has_item(m->in[0]); m->k++) sum += (uint64_t)get(m->in[0]);
}

static void split(struct machine *m) {
  for (; has_item(m->in[0]) && has_room(m->out[m->at]); m->at = !m->at) put(m->out[m->at], get(m->in[0]));
}

static void join(struct machine *m) {
  for (; has_item(m->in[m->at]) && has_room(m->out[0]); m->at = !m->at) put(m->out[0], get(m->in[m->at]));
}

/* Keeps its first item in `n`, and in `k` one that has no room yet. */
static void filter(struct machine *m) {
  if (m->n == 0 && has_item(m->in[0])) m->n = get(m->in[0]);
  for (;;) {
    while (m->k == 0) {
      if (!has_item(m->in[0])) return;
      int64_t x = get(m->in[0]);
      m->k = x % m->n ? x : 0;
    }
    if (!has_room(m->out[0])) return;
    put(m->out[0], m->k);
    m->k = 0;
  }
}

/* Merges two rings by turns, and writes each item twice. */
static void merge(struct machine *m) {
  while (has_item(m->in[m->at]) && has_room(m->out[0]) && has_room(m->out[1])) {
    int64_t x = get(m->in[m->at]);
    put(m->out[0], x);
    put(m->out[1], x);
    m->at = !m->at;
  }
}

static void second_in(struct ring *in) { machines[machine_count - 1].in[1] = in; }
static void second_out(struct ring *out) { machines[machine_count - 1].out[1] = out; }

static void make(const char *kind, size_t many, size_t capacity, int64_t items) {
  struct ring *first = ring_of(capacity), *last = first;
  if (strcmp(kind, "kahn") == 0) {
    struct ring *y = ring_of(1), *z = ring_of(1), *t1 = ring_of(1), *t2 = ring_of(1);
    last = ring_of(1);
    put(y, 0);
    put(z, 1);
    add(merge, y, first, 0, 0), second_in(z), second_out(last);
    add(split, first, t1, 0, 0), second_out(t2);
    add(copy, t1, y, 0, 0);
    add(copy, t2, z, 0, 0);
  } else {
    bool is_sieve = strcmp(kind, "sieve") == 0;
    add(count, NULL, first, is_sieve ? 2 : 0, is_sieve ? items : items - 1);
  }
  if (strcmp(kind, "split") == 0) {
    struct ring *a = ring_of(capacity), *b = ring_of(capacity), *c = ring_of(capacity), *d = ring_of(capacity);
    last = ring_of(capacity);
    add(split, first, a, 0, 0), second_out(b);
    add(copy, a, c, 0, 0);
    add(copy, b, d, 0, 0);
    add(join, c, last, 0, 0), second_in(d);
  }
  for (size_t k = 0; k < many; k++) {
    struct ring *next = ring_of(capacity);
    add(strcmp(kind, "sieve") == 0 ? filter : copy, last, next, 0, 0);
    last = next;
  }
  add(add_up, last, NULL, 0, items);
}

/* Whether something is left to do: items wait, or are still to be counted. */
static bool goes_on(const char *kind) {
  if (strcmp(kind, "kahn") == 0) return machines[machine_count - 1].k < machines[machine_count - 1].n;
  if (machines[0].k <= machines[0].n) return true;
  for (size_t r = 0; r < ring_count; r++) {
    if (has_item(&rings[r])) return true;
  }
  return false;
}

int main(int words, char **word) {
  if (words != 5) return 2;
  make(word[1], strtoull(word[2], NULL, 10), strtoull(word[3], NULL, 10), strtoll(word[4], NULL, 10));
  while (goes_on(word[1])) {
    for (size_t k = 0; k < machine_count; k++) machines[k].turn(&machines[k]);
  }
  printf("sink z: %" PRIu64 "\n", sum);
  return 0;
}
