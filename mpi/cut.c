/* Cuts a network into parts. A loop is kept whole: at a cut each turn of it would cost a round trip. The loops and the
   instances in none are laid in a row along the channels, and the row is cut into pieces. So items go from one rank to
   later ones, and none comes back. */
#include "cut.h"

#include <stdlib.h>
#include <string.h>

/* How far the largest part may be above the mean. */
#define LARGEST_SHARE 1.15

static bool is_inner(const struct kpn_channel *it) {
  return it->writer != OUTSIDE && it->reader != OUTSIDE;
}

/* The channels that lead from one group of instances to another, listed for both, in order of number. A group has the
   number of an instance. */
struct lists {
  size_t *from; /* where the list of each group begins, and the last one ends */
  size_t *channels;
};

static struct lists lists_of(const struct kpn_network *net, const size_t *group_of) {
  struct lists made = {kpn_memory((net->instance_count + 2) * sizeof *made.from),
                       kpn_memory(2 * net->channel_count * sizeof *made.channels)};
  for (int pass = 0; pass < 2; pass++) {
    for (size_t c = 0; c < net->channel_count; c++) {
      const struct kpn_channel *it = &net->channels[c];
      if (!is_inner(it) || group_of[it->writer] == group_of[it->reader]) {
        continue;
      }
      const size_t groups[] = {group_of[it->writer], group_of[it->reader]};
      for (int k = 0; k < 2; k++) {
        if (pass) {
          made.channels[made.from[groups[k] + 1]++] = c;
        } else {
          made.from[groups[k] + 2]++;
        }
      }
    }
    for (size_t p = 0; !pass && p < net->instance_count; p++) {
      made.from[p + 2] += made.from[p + 1];
    }
  }
  return made;
}

static void free_lists(struct lists *of) {
  free(of->from);
  free(of->channels);
}

struct loops {
  const struct kpn_network *net;
  size_t *loop_of;        /* the first instance of its loop, or itself */
  size_t *size;           /* of a loop, by its first instance */
  size_t *row, row_count; /* the first instances of loops along the channels */
  bool *is_laid;
  struct lists lists;
};

/* Lays a loop into the row after all that it reaches. */
static void lay(struct loops *of, size_t loop) {
  of->is_laid[loop] = true;
  for (size_t k = of->lists.from[loop]; k < of->lists.from[loop + 1]; k++) {
    const struct kpn_channel *it = &of->net->channels[of->lists.channels[k]];
    if (of->loop_of[it->writer] == loop && !of->is_laid[of->loop_of[it->reader]]) {
      lay(of, of->loop_of[it->reader]);
    }
  }
  of->row[of->row_count++] = loop;
}

static void lay_all(struct loops *of) {
  of->row_count = 0;
  memset(of->is_laid, false, of->net->instance_count * sizeof *of->is_laid);
  for (size_t p = 0; p < of->net->instance_count; p++) {
    if (of->loop_of[p] == p && !of->is_laid[p]) {
      lay(of, p);
    }
  }
}

/* Puts an instance that is laid, and all laid ones that reach it, into a loop. */
static void gather(struct loops *of, size_t instance, size_t loop) {
  of->is_laid[instance] = false;
  of->loop_of[instance] = loop;
  for (size_t k = of->lists.from[instance]; k < of->lists.from[instance + 1]; k++) {
    const struct kpn_channel *it = &of->net->channels[of->lists.channels[k]];
    if ((size_t)it->reader == instance && of->is_laid[it->writer]) {
      gather(of, (size_t)it->writer, loop);
    }
  }
}

/* Finds the loops by S. R. Kosaraju's two searches: the last of the row that is in no loop yet, and all that reach it,
   make one. */
static void find_loops(struct loops *of) {
  const size_t count = of->net->instance_count;
  size_t *first = kpn_memory(count * sizeof *first);
  for (size_t p = 0; p < count; p++) {
    of->loop_of[p] = first[p] = p;
  }
  of->lists = lists_of(of->net, first);
  lay_all(of);
  for (size_t k = count; k > 0; k--) {
    if (of->is_laid[of->row[k - 1]]) {
      gather(of, of->row[k - 1], of->row[k - 1]);
    }
  }
  for (size_t p = count; p > 0; p--) {
    first[of->loop_of[p - 1]] = p - 1;
  }
  for (size_t p = 0; p < count; p++) {
    of->loop_of[p] = first[of->loop_of[p]];
    of->size[of->loop_of[p]]++;
  }
  free_lists(&of->lists);
  free(first);
}

static struct loops *loops_of(const struct kpn_network *net) {
  struct loops *found = kpn_memory(sizeof *found);
  const size_t count = net->instance_count;
  *found = (struct loops){.net = net,
                          .loop_of = kpn_memory(count * sizeof *found->loop_of),
                          .size = kpn_memory(count * sizeof *found->size),
                          .row = kpn_memory(count * sizeof *found->row),
                          .is_laid = kpn_memory(count * sizeof *found->is_laid)};
  find_loops(found);
  found->lists = lists_of(net, found->loop_of);
  lay_all(found);
  for (size_t k = 0; 2 * k + 1 < found->row_count; k++) {
    const size_t other = found->row_count - 1 - k, first = found->row[k];
    found->row[k] = found->row[other];
    found->row[other] = first;
  }
  return found;
}

static void free_loops(struct loops *of) {
  free(of->loop_of);
  free(of->size);
  free(of->row);
  free(of->is_laid);
  free_lists(&of->lists);
  free(of);
}

/* What moving a loop has to look at: the ranks at the other ends of its channels. */
struct surroundings {
  int least, most;               /* between which it may lie, so that no item comes back */
  size_t neighbours[MOST_RANKS]; /* how many of its channels lead to each rank */
};

static void look_around(const struct loops *of, const struct kpn_cut *made, size_t loop, struct surroundings *around) {
  *around = (struct surroundings){.least = 0, .most = made->ranks - 1};
  for (size_t k = of->lists.from[loop]; k < of->lists.from[loop + 1]; k++) {
    const struct kpn_channel *it = &of->net->channels[of->lists.channels[k]];
    const bool is_out = of->loop_of[it->writer] == loop;
    const int other = made->rank_of[is_out ? it->reader : it->writer];
    around->neighbours[other]++;
    if (is_out && other < around->most) {
      around->most = other;
    }
    if (!is_out && other > around->least) {
      around->least = other;
    }
  }
}

static void put_loop(const struct loops *of, struct kpn_cut *made, size_t loop, int rank) {
  for (size_t p = 0; p < of->net->instance_count; p++) {
    if (of->loop_of[p] == loop) {
      made->rank_of[p] = rank;
    }
  }
}

/* Moves a loop to a rank with more of its neighbours, if the parts stay nearly equal. Returns whether it has. */
static bool move_loop(const struct loops *of, struct kpn_cut *made, size_t loop, size_t *sizes) {
  const int now = made->rank_of[loop];
  const size_t size = of->size[loop];
  const double most = LARGEST_SHARE * (double)of->net->instance_count / made->ranks;
  struct surroundings around;
  look_around(of, made, loop, &around);
  int best = now;
  for (int rank = around.least; rank <= around.most; rank++) {
    const bool fits = (double)(sizes[rank] + size) <= most || sizes[rank] + size <= sizes[now];
    if (rank != now && fits && around.neighbours[rank] > around.neighbours[best]) {
      best = rank;
    }
  }
  if (best == now || sizes[now] == size) {
    return false;
  }
  put_loop(of, made, loop, best);
  sizes[now] -= size;
  sizes[best] += size;
  return true;
}

static void start_cut(const struct kpn_network *net, int ranks, struct kpn_cut *made) {
  free(made->rank_of);
  *made = (struct kpn_cut){ranks, kpn_memory(net->instance_count * sizeof *made->rank_of)};
}

void kpn_choose_cut(const struct kpn_network *net, int ranks, struct kpn_cut *made) {
  enum { TURNS = 20 };
  struct loops *of = loops_of(net);
  size_t sizes[MOST_RANKS] = {0}, before = 0;
  start_cut(net, ranks, made);
  for (size_t k = 0; k < of->row_count; k++) {
    const size_t size = of->size[of->row[k]];
    const int rank = (int)(((2 * before + size) * (size_t)ranks - 1) / (2 * net->instance_count));
    put_loop(of, made, of->row[k], rank);
    sizes[rank] += size;
    before += size;
  }
  bool has_moved = true;
  for (int turn = 0; turn < TURNS && has_moved; turn++) {
    has_moved = false;
    for (size_t k = 0; k < of->row_count; k++) {
      has_moved |= move_loop(of, made, of->row[k], sizes);
    }
  }
  free_loops(of);
}

size_t kpn_read_cut(const struct kpn_network *net, const char *lines, size_t length, int ranks, struct kpn_cut *made) {
  enum { NO_RANK = -1 };
  size_t number = 0;
  start_cut(net, ranks, made);
  for (size_t p = 0; p < net->instance_count; p++) {
    made->rank_of[p] = NO_RANK;
  }
  for (const char *at = lines, *end = lines + length; at < end; number++) {
    const char *stop = memchr(at, '\n', (size_t)(end - at));
    if (!stop) {
      stop = end;
    }
    const char *equals = memchr(at, '=', (size_t)(stop - at));
    const int found = equals ? kpn_find_instance(net, at, (size_t)(equals - at)) : -1;
    char *rest;
    const long rank = equals ? strtol(equals + 1, &rest, 10) : -1;
    if (found < 0 || made->rank_of[found] != NO_RANK || rank < 0 || rank >= ranks || rest != stop ||
        rest == equals + 1) {
      return number + 1;
    }
    made->rank_of[found] = (int)rank;
    at = stop + 1;
  }
  for (size_t p = 0; p < net->instance_count; p++) {
    if (made->rank_of[p] == NO_RANK) {
      return number + 1;
    }
  }
  return 0;
}

bool kpn_is_cut(const struct kpn_network *net, const struct kpn_cut *of, size_t number) {
  const int writer = net->channels[number].writer, reader = net->channels[number].reader;
  return writer != OUTSIDE && reader != OUTSIDE && of->rank_of[writer] != of->rank_of[reader];
}

int kpn_home_of(const struct kpn_network *net, const struct kpn_cut *of, size_t number) {
  const struct kpn_channel *it = &net->channels[number];
  return of->rank_of[it->writer == OUTSIDE ? it->reader : it->writer];
}

void kpn_raise_capacities(struct kpn_network *net, const struct kpn_cut *of, size_t room) {
  const size_t wanted = room < net->limit ? room : net->limit;
  for (size_t c = 0; c < net->channel_count; c++) {
    if (kpn_is_cut(net, of, c) && net->channels[c].cap < wanted) {
      net->channels[c].cap = wanted;
    }
  }
}

/* The first instance that is joined to this one. */
static size_t head_of(size_t *heads, size_t of) {
  while (heads[of] != of) {
    of = heads[of] = heads[heads[of]];
  }
  return of;
}

/* Joins the ends of the channels within ranks, or of the cut ones. Returns whether a cut one had joined ends before. */
static bool join_ends(const struct kpn_network *net, const struct kpn_cut *of, bool is_cut, size_t *heads) {
  bool found = false;
  for (size_t c = 0; c < net->channel_count; c++) {
    if (!is_inner(&net->channels[c]) || kpn_is_cut(net, of, c) != is_cut) {
      continue;
    }
    const size_t writer = head_of(heads, (size_t)net->channels[c].writer);
    const size_t reader = head_of(heads, (size_t)net->channels[c].reader);
    found |= is_cut && writer == reader;
    heads[writer] = reader;
  }
  return found;
}

bool kpn_may_grow_over_ranks(const struct kpn_network *net, const struct kpn_cut *of) {
  if (of->ranks == 1) {
    return false;
  }
  if (net->grows_at_stops) {
    return true;
  }
  size_t *heads = kpn_memory(net->instance_count * sizeof *heads);
  for (size_t p = 0; p < net->instance_count; p++) {
    heads[p] = p;
  }
  /* Processes can wait in a cycle only along channels that make a ring, whatever their directions. */
  join_ends(net, of, false, heads);
  const bool found = join_ends(net, of, true, heads);
  free(heads);
  return found;
}

static void print_loops(const struct kpn_network *net, const struct kpn_cut *of, struct kpn_text *into) {
  struct loops *found = loops_of(net);
  for (size_t first = 0; first < net->instance_count; first++) {
    bool is_whole = true;
    for (size_t p = 0; p < net->instance_count; p++) {
      is_whole &= found->loop_of[p] != first || of->rank_of[p] == of->rank_of[first];
    }
    if (is_whole) {
      continue;
    }
    kpn_print_to(into, "warning: a loop is cut, and each turn of it costs a round trip:");
    for (size_t p = 0; p < net->instance_count; p++) {
      if (found->loop_of[p] == first) {
        kpn_print_to(into, " %.*s", SHOWN(net->instances[p].name));
      }
    }
    kpn_print_to(into, "\n");
  }
  free_loops(found);
}

void kpn_print_plan(const struct kpn_network *net, const struct kpn_cut *of, struct kpn_text *into) {
  for (int rank = 0; rank < of->ranks; rank++) {
    kpn_print_to(into, "rank %d:", rank);
    for (size_t p = 0; p < net->instance_count; p++) {
      if (of->rank_of[p] == rank) {
        kpn_print_to(into, " %.*s", SHOWN(net->instances[p].name));
      }
    }
    kpn_print_to(into, "\n");
  }
  for (size_t c = 0; c < net->channel_count; c++) {
    const struct kpn_channel *it = &net->channels[c];
    if (kpn_is_cut(net, of, c)) {
      kpn_print_to(into, "cut %.*s cap %zu from %d to %d\n", SHOWN(it->name), it->cap, of->rank_of[it->writer],
                   of->rank_of[it->reader]);
    }
    if (it->kind != CHANNEL) {
      kpn_print_to(into, "%s %.*s at %d\n", it->kind == SOURCE ? "source" : "sink", SHOWN(it->name),
                   kpn_home_of(net, of, c));
    }
  }
  print_loops(net, of, into);
  if (kpn_may_grow_over_ranks(net, of)) {
    kpn_print_to(into, "channels may grow for several ranks: each keeps its history\n");
  }
}

void kpn_print_cut(const struct kpn_network *net, const struct kpn_cut *of, struct kpn_text *into) {
  for (size_t p = 0; p < net->instance_count; p++) {
    kpn_print_to(into, "%.*s=%d\n", SHOWN(net->instances[p].name), of->rank_of[p]);
  }
}
