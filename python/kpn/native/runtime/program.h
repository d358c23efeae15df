/* program.h: a compiled network as a program. */
#ifndef KPN_PROGRAM_H
#define KPN_PROGRAM_H

#include "files.h"
#include "formats.h"
#include "items.h"
#include "network.h"

/* The statuses beside those of outcomes. */
enum { KPN_REFUSED = 1, KPN_USAGE = 2, KPN_LACKS_MEMORY = 6, KPN_FAULTED = 8, KPN_HAS_RING = 9, KPN_NOT_CERTIFIED = 9 };

/* The most commits of `kpn run` without --max-commits. */
enum { KPN_USUAL_COMMITS = 10000000 };

/* What is told of a run with a trace whose loops without checks give other items. */
#define KPN_DIFFERED "not certified: two ways of the program give other items; please report the network and its input"

/* A word NAME=FILE, or with --sound NAME=FILE:PICKED. */
struct kpn_end {
  const char *name;
  char *file;
  unsigned channel, picked;
  bool is_picked;
};

/* A word FORMAT or NAME=FORMAT. */
struct kpn_format_word {
  const char *name; /* of the only end that it is for; null if it is for all */
  struct kpn_format format;
};

/* What the words of the command line ask for. */
struct kpn_words {
  struct kpn_end *sources, *sinks;
  struct kpn_format_word *formats;
  size_t source_count, sink_count, format_count;
  const char *trace;
  bool has_take, is_certified, is_checked, has_most_commits, is_quiet, is_strict, clips, has_stats, is_sound;
  uint64_t take, most_commits, events, rate, channels;
};

/* Where a sink's items go in a run. */
struct kpn_run_sink {
  struct kpn_text_items list;
  size_t count; /* of all that came */
};

struct kpn_run {
  struct kpn_network network;
  struct kpn_history history;
  struct kpn_words words;
  const char *program;         /* the program `kpn` that judges runs */
  struct kpn_text_items *lists;     /* of each channel: what a source is fed */
  struct kpn_run_sink *sinks;  /* of each channel */
  size_t sinks_short;          /* sinks that have not given as many as --take says */
  unsigned outcome;
  struct kpn_file trace, *files; /* of each channel: where a sink is stored */
};

/* Whether all words are UTF-8 text. If not it says so. */
bool kpn_are_texts(int count, char **words);

/* Reads the words after the command. If they are wrong it says so and gives false. */
bool kpn_read_words(struct kpn_words *words, bool is_stream, int count, char **given);

/* Finds the channels of the ends of a kind. If a name is wrong it says so and gives false. */
bool kpn_find_ends(const struct kpn_plan *plan, enum kpn_kind kind, struct kpn_end *ends, size_t count);

/* Whether each format is for all ends or for one that the network has, and no two are for the same. If not it says
   so. */
bool kpn_check_formats(const struct kpn_plan *plan, const struct kpn_words *words);

/* How the items of an end are written. */
struct kpn_format kpn_format_of_end(const struct kpn_words *words, const char *name);

/* Refuses outputs that would be written over other files; 0, or the status. `-` is a standard end of a stream. */
int kpn_check_outputs(const struct kpn_words *words, bool is_stream);

/* Says something on standard error; says what is wrong, in the form of `kpn`, and gives the status. */
void kpn_tell(const char *format, ...) __attribute__((format(printf, 1, 2)));
int kpn_refuse(int status, const char *format, ...) __attribute__((format(printf, 2, 3)));

/* The whole program, with the path of `kpn`. */
int kpn_main(const struct kpn_plan *plan, const char *program, int count, char **words);
int kpn_commands(struct kpn_run *run);
int kpn_command_stream(struct kpn_run *run);

/* Begins a run on the lists of the sources, which stay where they are; false says that memory was refused. */
bool kpn_begin_run(struct kpn_run *run);

/* Begins a run that is fed while it goes on. */
bool kpn_begin_live(struct kpn_run *run);

/* Runs on until this many commits were made in all. Gives the outcome; KPN_GOING if memory was refused. */
unsigned kpn_run_on(struct kpn_run *run, uint64_t most);

/* Frees what lies between the sources and the sinks. */
void kpn_end_run(struct kpn_run *run);

/* Writes the report of a run, or one without the lists of the sinks that have a file. */
bool kpn_report(const struct kpn_run *run, bool is_quiet, kpn_writer *writer, void *to);

/* Writes which processes have faulted or wait, as a stream has it also each ring of them, and the outcome if there is
   one. Under `enough` processes may be ahead of what was asked for, so it says nothing of them. */
bool kpn_report_end(const struct kpn_run *run, bool has_rings, kpn_writer *writer, void *to);

/* The status for a process that has faulted, or else for a ring; 0 without one. */
int kpn_strict_status(const struct kpn_network *network);

/* Has `kpn audit` judge the history, or `kpn run` give the same report. 0, or the status with which the run fails. */
int kpn_certify(struct kpn_run *run);
int kpn_compare_runs(struct kpn_run *run);

#endif
