/* The program kpn-mpi: a network over the ranks of MPI, or the plan of one. README.md says how to start it. */
#define _POSIX_C_SOURCE 200809L
#include <sched.h>
#include <signal.h>
#include <stdio.h>
#include <stdlib.h>
#include <string.h>
#include <time.h>
#include <unistd.h>

#include "frames.h"
#include "run.h"
#include "transport_mpi.h"

/* A rank that has done nothing for some rounds leaves the processor to others, and after many it naps. */
enum { ROUNDS_BEFORE_YIELD = 100, ROUNDS_BEFORE_NAP = 2000, NAP_IN_NANOSECONDS = 50000 };

/* MPI ends the other ranks by this signal if one has died. */
static void tell_of_end(int signal) {
  static const char line[] = "kpn-mpi: the run was ended from outside: a rank has died, or somebody has ended it\n";
  (void)signal;
  if (write(STDERR_FILENO, line, sizeof line - 1) < 0) {
    _exit(STATUS_RANK_DIED);
  }
  _exit(STATUS_RANK_DIED);
}

static void rest(int *rounds) {
  static const struct timespec nap = {0, NAP_IN_NANOSECONDS};
  if (++*rounds > ROUNDS_BEFORE_NAP) {
    nanosleep(&nap, NULL);
  } else if (*rounds > ROUNDS_BEFORE_YIELD) {
    sched_yield();
  }
}

/* ---- the texts, from rank 0 to the others */

static void send_texts(struct kpn_transport *over, const struct kpn_plan *of, int ranks, bool is_refused) {
  for (int other = 1; other < ranks; other++) {
    struct kpn_words message = {0};
    if (is_refused) {
      kpn_add_frame(&message, FRAME_GO, 1, 0);
    } else {
      kpn_add_text(&message, FRAME_TEXT, &of->description);
      kpn_add_text(&message, FRAME_CUT, &of->cut_lines);
    }
    over->send(over, other, &message);
    kpn_free_words(&message);
  }
}

/* Waits for the texts. Returns false if rank 0 has refused them. */
static bool hear_texts(struct kpn_transport *over, struct kpn_plan *into) {
  struct kpn_words message = {0};
  int from, rounds = 0;
  while (!over->receive(over, &from, &message)) {
    rest(&rounds);
  }
  const bool is_right = message.at[0] == FRAME_TEXT;
  if (is_right) {
    const int64_t *cut = message.at + HEAD + message.at[2];
    kpn_read_text(&into->description, message.at + HEAD, (size_t)message.at[1]);
    kpn_read_text(&into->cut_lines, cut + HEAD, (size_t)cut[1]);
  }
  kpn_free_words(&message);
  return is_right;
}

/* ---- the run */

static struct kpn_rank *only; /* in this process */

static void beat_here(void) {
  kpn_beat(only);
}

static int run_site(const struct kpn_plan *of, int number, struct kpn_transport *over) {
  int rounds = 0;
  struct kpn_site *made = kpn_memory(sizeof *made);
  only = &made->rank;
  kpn_still_here = beat_here;
  kpn_open_site(made, of, number, over);
  while (made->rank.phase != REFUSED && !kpn_is_over(&made->rank)) {
    if (kpn_make_round_at(made)) {
      rounds = 0;
    } else {
      rest(&rounds);
    }
  }
  const int status = number ? 0 : kpn_report_run(made);
  kpn_close_site(made);
  free(made);
  return status;
}

static int run(int count, char **given) {
  int number, ranks;
  struct kpn_options asked;
  struct kpn_plan *made = kpn_memory(sizeof *made);
  struct kpn_transport *over = kpn_open_transport(&count, &given, &number, &ranks);
  int status = kpn_read_options(RUN, count, given, number == 0, &asked) ? 0 : STATUS_USAGE;
  if (!status && ranks > MOST_RANKS) {
    if (!number) {
      fprintf(stderr, "kpn: usage: at most %d ranks\n", MOST_RANKS);
    }
    status = STATUS_USAGE;
  }
  signal(SIGTERM, tell_of_end);
  if (!status) {
    asked.ranks = ranks;
    made->options = &asked;
    if (number == 0) {
      status = kpn_load_plan(made, &asked);
      send_texts(over, made, ranks, status != 0);
    } else if (!hear_texts(over, made)) {
      status = STATUS_REFUSED;
    }
  }
  if (!status) {
    kpn_lay_out(made, ranks);
    status = run_site(made, number, over);
  }
  /* The run is over. A status of rank 0 makes Open MPI end the others, if they are slower to go. */
  signal(SIGTERM, SIG_IGN);
  kpn_close_transport(over);
  kpn_free_plan(made);
  kpn_free_options(&asked);
  return number ? 0 : status;
}

int main(int count, char **given) {
  kpn_begin();
  return kpn_asks_for_plan(count, given) ? kpn_show_plan(count, given) : run(count, given);
}
