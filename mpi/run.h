/* A run from its files to its report, as far as it is the same over MPI and in the simulator. */
#ifndef KPN_MPI_RUN_H
#define KPN_MPI_RUN_H

#include "options.h"

struct kpn_plan {
  const struct kpn_options *options;
  struct kpn_text description, cut_lines;
  struct kpn_network net;
  struct kpn_cut cut;
};

/* The first thing that a program does: no file gets the number of a standard descriptor that is closed, and a reader
   that has gone, or a file that may not grow, is a write that fails. */
void kpn_begin(void);

/* Reads the description and the cut, and checks the names of the options. Returns a status; if it is not 0, a line on
   standard error says why. */
int kpn_load_plan(struct kpn_plan *into, const struct kpn_options *given);

void kpn_free_plan(struct kpn_plan *of);

/* Reads the texts of a plan once they are there, and cuts the network. They are right. */
void kpn_lay_out(struct kpn_plan *of, int ranks);

/* Does what `plan` asks: writes how a network is cut. Returns the status. */
int kpn_show_plan(int count, char **given);

/* What is stored in the folder of --traces: of each rank the trace, and the part at the capacities that it has come to;
   of rank 0 the cut, and how many ranks there were. */
enum { KEPT_TRACE, KEPT_PART, KEPT_CUT, KEPT_RANKS, MOST_KEPT };

/* The part of a plan at a rank, with the files that lie there. */
struct kpn_site {
  const struct kpn_plan *plan;
  struct kpn_rank rank;
  struct kpn_file *outputs; /* by channel */
  bool *has_output;
  struct kpn_file kept[MOST_KEPT]; /* in the folder of --traces */
  struct kpn_text kept_names[MOST_KEPT];
  int kept_count;
};

/* Opens the part, reads its sources, and makes its outputs ready. Then the rank says so. */
void kpn_open_site(struct kpn_site *made, const struct kpn_plan *of, int number, struct kpn_transport *over);
void kpn_close_site(struct kpn_site *of);

/* Makes a round, and returns whether it has done anything. Once the ranks go, the traces of an earlier run are removed:
   none is taken for one of this run, and a run that is refused removes none. Once the run is over, the rank stores what
   is asked for. */
bool kpn_make_round_at(struct kpn_site *of);

/* At rank 0, once the run is over: writes the report, or why there is none. Returns the status. */
int kpn_report_run(struct kpn_site *of);

#endif
