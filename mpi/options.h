/* The words of the command line. */
#ifndef KPN_MPI_OPTIONS_H
#define KPN_MPI_OPTIONS_H

#include "rank.h"

/* NAME=FILE */
struct kpn_named_file {
  const char *name, *file;
  size_t length; /* of the name */
};

/* What a program does: a run over MPI, the plan of one, or one in the simulator. Each option goes with some of them. */
enum kpn_command { RUN = 1, PLAN = 2, SIMULATION = 4 };

struct kpn_options {
  const char *file, *cut, *traces;
  bool certifies;
  struct kpn_named_file *sources, *sinks;
  size_t source_count, sink_count;
  size_t room;
  int ranks; /* of `plan` and `simulate`; 0 if it is not given */
  unsigned long seed;
  struct kpn_settings settings;
};

/* Whether the words ask for a plan. */
bool kpn_asks_for_plan(int count, char **given);

/* Reads the words of a command. If they are wrong it writes a line, if `tells`, and returns false. */
bool kpn_read_options(enum kpn_command of, int count, char **given, bool tells, struct kpn_options *into);
void kpn_free_options(struct kpn_options *of);

/* Whether a file, or the part file beside it, is one that the run reads, or that is standard input, output or error, by
   any name of that. */
bool kpn_is_input(const struct kpn_options *of, const char *path);

/* Whether two sources have one pipe, terminal or other device, whose bytes go to one reader only. */
bool kpn_shares_input(const struct kpn_options *of);

/* Whether the file of a sink, or the part file beside it, is an input or another output, by any names of them. */
bool kpn_has_no_output(const struct kpn_options *of);

#endif
