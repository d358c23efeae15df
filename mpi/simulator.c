/* The program kpn-mpi-simulator: all ranks in one process, over wires that hold messages back at random. It has the
   options, the plan and the report of kpn-mpi, and `--ranks` and `--seed`. The seed chooses which rank is next, how
   long messages are held back, how many commits a round has, and how many items may be on the way. It says so if a cut
   channel ever holds more than its capacity. */
#include <stdio.h>
#include <stdlib.h>

#include "run.h"
#include "transport_wires.h"

/* Looks whether each cut channel that was not left holds no more than its capacity. */
static void look_at_capacities(struct kpn_site **sites, const struct kpn_plan *of) {
  for (size_t c = 0; c < of->net.channel_count; c++) {
    if (!kpn_is_cut(&of->net, &of->cut, c)) {
      continue;
    }
    struct kpn_part *first = &sites[of->cut.rank_of[of->net.channels[c].writer]]->rank.part;
    struct kpn_part *second = &sites[of->cut.rank_of[of->net.channels[c].reader]]->rank.part;
    kpn_channel_state here, there;
    kpn_expect(kpn_tell_channel(&first->session, (size_t)first->local[c], &here), "kpn_tell_channel");
    kpn_expect(kpn_tell_channel(&second->session, (size_t)second->local[c], &there), "kpn_tell_channel");
    if (!here.is_left && !there.is_left && here.got + here.unread > there.got + first->caps[c]) {
      kpn_give_up(STATUS_WRONG, "kpn-mpi: a channel holds more than its capacity");
    }
  }
}

/* Lets a random rank make a round. */
static void go_on(struct kpn_site **sites, const struct kpn_plan *of, uint64_t *state) {
  struct kpn_site *next = sites[kpn_chance(state, (unsigned long)of->cut.ranks)];
  if (next->rank.phase != REFUSED) {
    kpn_make_round_at(next);
  }
}

static bool are_over(struct kpn_site **sites, int ranks) {
  for (int k = 0; k < ranks; k++) {
    if (sites[k]->rank.phase != REFUSED && !kpn_is_over(&sites[k]->rank)) {
      return false;
    }
  }
  return true;
}

static int simulate(const struct kpn_plan *of) {
  const int ranks = of->cut.ranks;
  uint64_t state = of->options->seed ^ 0x5DEECE66Du;
  struct kpn_site **sites = kpn_memory((size_t)ranks * sizeof *sites);
  struct kpn_transport **ends = kpn_open_wires(ranks, of->options->seed);
  for (int k = 0; k < ranks; k++) {
    kpn_open_site(sites[k] = kpn_memory(sizeof **sites), of, k, ends[k]);
  }
  while (!are_over(sites, ranks)) {
    go_on(sites, of, &state);
    look_at_capacities(sites, of);
  }
  const int status = kpn_report_run(sites[0]);
  for (int k = 0; k < ranks; k++) {
    kpn_close_site(sites[k]);
    free(sites[k]);
  }
  kpn_close_wires(ends, ranks);
  free(sites);
  return status;
}

static int run(int count, char **given) {
  struct kpn_options asked;
  struct kpn_plan *made = kpn_memory(sizeof *made);
  int status = kpn_read_options(SIMULATION, count, given, true, &asked) ? 0 : STATUS_USAGE;
  if (!asked.ranks) {
    asked.ranks = 1;
  }
  uint64_t state = asked.seed;
  asked.settings.steps = 1 + kpn_chance(&state, 1 + kpn_chance(&state, 100));
  asked.settings.window = 1 + kpn_chance(&state, 1 + kpn_chance(&state, 20));
  if (!status) {
    status = kpn_load_plan(made, &asked);
  }
  if (!status) {
    kpn_lay_out(made, asked.ranks);
    status = simulate(made);
  }
  kpn_free_plan(made);
  kpn_free_options(&asked);
  return status;
}

int main(int count, char **given) {
  kpn_begin();
  return kpn_asks_for_plan(count, given) ? kpn_show_plan(count, given) : run(count, given);
}
