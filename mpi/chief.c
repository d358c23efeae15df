/* The chief. A report of a rank counts only if the rank has done all growths that were asked of it. A wait over a cut
   stands if the other end has not ended it by what its rank reports. If all waits of a cycle stand, no process in it
   has moved since: whichever moved first was woken by an event that its neighbour's report contradicts. So a cycle over
   parts is found while other parts run on. */
#include "chief.h"

#include <stdlib.h>

void kpn_open_chief(struct kpn_chief *made, const struct kpn_network *net, const struct kpn_cut *of,
                    bool wants_enough) {
  *made = (struct kpn_chief){.net = net,
                             .cut = of,
                             .wants_enough = wants_enough,
                             .ends = kpn_memory(net->channel_count * sizeof *made->ends),
                             .standings = kpn_memory(net->instance_count * sizeof *made->standings),
                             .items = kpn_memory(net->channel_count * sizeof *made->items)};
  /* A rank without a sink has enough from the start. */
  for (int rank = 0; rank < of->ranks; rank++) {
    made->has_enough[rank] = true;
  }
  for (size_t c = 0; c < net->channel_count; c++) {
    if (net->channels[c].kind == SINK) {
      made->has_enough[kpn_home_of(net, of, c)] = false;
    }
  }
}

void kpn_free_chief(struct kpn_chief *of) {
  for (size_t c = 0; c < of->net->channel_count; c++) {
    kpn_free_words(&of->items[c]);
  }
  free(of->ends);
  free(of->standings);
  free(of->items);
  for (int rank = 0; rank < of->cut->ranks; rank++) {
    kpn_free_text(&of->traces[rank]);
    kpn_free_text(&of->parts[rank]);
  }
}

/* ---- reports */

/* Whether the writer, or the reader, of a cut channel is at a rank. */
static bool writes(const struct kpn_network *net, const struct kpn_cut *of, size_t number, int rank) {
  return kpn_is_cut(net, of, number) && of->rank_of[net->channels[number].writer] == rank;
}

static bool reads(const struct kpn_network *net, const struct kpn_cut *of, size_t number, int rank) {
  return kpn_is_cut(net, of, number) && of->rank_of[net->channels[number].reader] == rank;
}

size_t kpn_length_of_report(const struct kpn_network *net, const struct kpn_cut *of, int rank) {
  size_t length = 1;
  for (size_t p = 0; p < net->instance_count; p++) {
    length += of->rank_of[p] == rank ? 3 : 0;
  }
  for (size_t c = 0; c < net->channel_count; c++) {
    length += writes(net, of, c, rank) ? 4 : reads(net, of, c, rank) ? 3 : 0;
  }
  return length;
}

void kpn_hear_report(struct kpn_chief *of, int rank, bool is_at_rest, const int64_t *words) {
  of->is_known[rank] = (size_t)*words++ == of->grows[rank];
  of->is_at_rest[rank] = is_at_rest;
  for (size_t p = 0; p < of->net->instance_count; p++) {
    if (of->cut->rank_of[p] != rank) {
      continue;
    }
    of->standings[p] = (struct kpn_standing){(uint32_t)words[0], (size_t)words[1], (size_t)words[2]};
    words += 3;
  }
  for (size_t c = 0; c < of->net->channel_count; c++) {
    struct kpn_ends *it = &of->ends[c];
    if (writes(of->net, of->cut, c, rank)) {
      it->put = (size_t)words[0];
      it->sent = (size_t)words[1];
      it->credited = (size_t)words[2];
      it->is_left = words[3];
      words += 4;
    } else if (reads(of->net, of->cut, c, rank)) {
      it->received = (size_t)words[0];
      it->got = (size_t)words[1];
      it->has_left = words[2];
      words += 3;
    }
  }
}

/* ---- waits */

static bool is_waiting(const struct kpn_standing *it) {
  return it->state == KPN_STATE_WAITS_EMPTY || it->state == KPN_STATE_WAITS_FULL;
}

/* The process for which another one waits, if the wait stands and it is a process; else OUTSIDE. */
static int awaited(const struct kpn_chief *of, int waiting) {
  const struct kpn_standing *it = &of->standings[waiting];
  if (!of->is_known[of->cut->rank_of[waiting]] || !is_waiting(it)) {
    return OUTSIDE;
  }
  const struct kpn_channel *on = &of->net->channels[it->channel];
  const struct kpn_ends *two = &of->ends[it->channel];
  const bool is_full = it->state == KPN_STATE_WAITS_FULL;
  const int other = is_full ? on->reader : on->writer;
  if (other == OUTSIDE || !kpn_is_cut(of->net, of->cut, it->channel)) {
    return other;
  }
  if (!of->is_known[of->cut->rank_of[other]]) {
    return OUTSIDE;
  }
  const bool stands = is_full ? !two->has_left && two->put >= two->got + it->unread : two->put == two->got;
  return stands ? other : OUTSIDE;
}

/* The smaller of two awaited full channels, by the processes that wait there; on a tie the one of least number. */
static int smaller(const struct kpn_chief *of, int first, int second) {
  if (first == OUTSIDE || second == OUTSIDE) {
    return first == OUTSIDE ? second : first;
  }
  const struct kpn_standing *a = &of->standings[first], *b = &of->standings[second];
  const bool is_first = a->unread < b->unread || (a->unread == b->unread && a->channel < b->channel);
  return is_first ? first : second;
}

static int if_full(const struct kpn_chief *of, int process) {
  return of->standings[process].state == KPN_STATE_WAITS_FULL ? process : OUTSIDE;
}

/* Marks each process with the first one of the cycle in which it waits, and with OUTSIDE if it waits in none. */
static void find_cycles(const struct kpn_chief *of, int *cycle_of) {
  const int count = (int)of->net->instance_count;
  int *seen_from = kpn_memory((size_t)count * sizeof *seen_from);
  for (int p = 0; p < count; p++) {
    seen_from[p] = cycle_of[p] = OUTSIDE;
  }
  for (int p = 0; p < count; p++) {
    int q = p;
    while (q != OUTSIDE && seen_from[q] == OUTSIDE) {
      seen_from[q] = p;
      q = awaited(of, q);
    }
    if (q == OUTSIDE || seen_from[q] != p || cycle_of[q] != OUTSIDE) {
      continue;
    }
    for (int r = q; cycle_of[r] == OUTSIDE; r = awaited(of, r)) {
      cycle_of[r] = q;
    }
  }
  free(seen_from);
}

/* The process of a cycle that waits on its smallest full channel; OUTSIDE if there is none. */
static int smallest_of_cycle(const struct kpn_chief *of, const int *cycle_of, int cycle) {
  int best = OUTSIDE;
  for (int p = 0; p < (int)of->net->instance_count; p++) {
    if (cycle_of[p] == cycle) {
      best = smaller(of, best, if_full(of, p));
    }
  }
  return best;
}

static bool grow_for(struct kpn_chief *of, int process, struct kpn_verdict *wanted) {
  if (process == OUTSIDE || of->standings[process].unread >= of->net->limit) {
    return false;
  }
  const struct kpn_standing *it = &of->standings[process];
  const int rank = of->cut->rank_of[process];
  *wanted = (struct kpn_verdict){NO_OUTCOME, true, it->channel, kpn_next_capacity(of->net, it->unread)};
  of->grows[rank]++;
  of->is_known[rank] = false;
  return true;
}

/* ---- the verdict */

/* Whether all ranks are at rest and nothing is on the way. */
static bool is_quiet(const struct kpn_chief *of) {
  for (int rank = 0; rank < of->cut->ranks; rank++) {
    if (!of->is_known[rank] || !of->is_at_rest[rank]) {
      return false;
    }
  }
  for (size_t c = 0; c < of->net->channel_count; c++) {
    const struct kpn_ends *it = &of->ends[c];
    if (it->sent != it->received || it->got != it->credited || it->is_left != it->has_left) {
      return false;
    }
  }
  return true;
}

static bool is_enough(const struct kpn_chief *of) {
  bool all = of->wants_enough;
  for (int rank = 0; rank < of->cut->ranks; rank++) {
    all = all && of->has_enough[rank];
  }
  return all;
}

static enum kpn_outcome outcome_of_waits(const struct kpn_chief *of, const int *cycle_of) {
  enum kpn_outcome found = ENDED;
  for (int p = 0; p < (int)of->net->instance_count; p++) {
    if (if_full(of, p) == OUTSIDE) {
      continue;
    }
    if (cycle_of[p] != OUTSIDE) {
      return JAMMED;
    }
    found = CLOGGED;
  }
  return found;
}

/* The verdict on a run that has not enough yet. */
static struct kpn_verdict judge_waits(struct kpn_chief *of, int *cycle_of) {
  struct kpn_verdict wanted = {0};
  int smallest = OUTSIDE;
  const int count = (int)of->net->instance_count;
  const bool is_alone = of->cut->ranks == 1;
  find_cycles(of, cycle_of);
  for (int p = 0; p < count && !is_alone; p++) {
    if (cycle_of[p] == p && grow_for(of, smallest_of_cycle(of, cycle_of, p), &wanted)) {
      return wanted;
    }
  }
  if (is_quiet(of)) {
    for (int p = 0; p < count; p++) {
      smallest = smaller(of, smallest, if_full(of, p));
    }
    if (!is_alone && of->net->grows_at_stops && grow_for(of, smallest, &wanted)) {
      return wanted;
    }
    return (struct kpn_verdict){.outcome = outcome_of_waits(of, cycle_of)};
  }
  if (of->has_stopped) {
    wanted.outcome = STOPPED;
  }
  return wanted;
}

struct kpn_verdict kpn_judge(struct kpn_chief *of) {
  if (is_enough(of)) {
    return (struct kpn_verdict){.outcome = ENOUGH};
  }
  int *cycle_of = kpn_memory(of->net->instance_count * sizeof *cycle_of);
  const struct kpn_verdict found = judge_waits(of, cycle_of);
  free(cycle_of);
  return found;
}
