/* main.c: which command the words name. */
#define _GNU_SOURCE
#include <signal.h>
#include <stdio.h>
#include <stdlib.h>
#include <string.h>
#include <unistd.h>

#include "program.h"

static const char HELP[] =
    "usage: PROGRAM run [--source NAME=FILE].. [--sink NAME=OUT].. [--take K] [--max-commits N] [--trace OUT]\n"
    "                   [--quiet] [--strict] [--certify] [--events N] [--check items]\n"
    "       PROGRAM stream [--source NAME=IN].. [--sink NAME=OUT].. [--format F].. [--format NAME=F].. [--clip]\n"
    "                   [--rate N] [--channels N] [--take K] [--max-commits N] [--trace OUT] [--quiet] [--stats]\n"
    "                   [--check items] [--sound]\n"
    "\n"
    "Runs the network that this program was compiled from. The commands and options are those of `kpn run` and\n"
    "`kpn stream`, and so are the reports. Nothing is proved of this program. But `kpn`, which is proved, can judge\n"
    "each of its runs:\n"
    "\n"
    "  --certify      has `kpn audit` judge all events of the run, and compares its items with the report\n"
    "  --events N     keeps only the first N events for that, and for --trace\n"
    "  --check items  has `kpn run` run the same network on the same items, and compares the reports\n"
    "\n"
    "The program `kpn` is the one that compiled the network, or that of the variable KPN_PROGRAM. A run that is not\n"
    "found right writes no report. Without --max-commits a run has no limit.\n"
    "\n"
    "Statuses: those of `kpn run`, and 9 if the run is not certified.\n";

static bool asks_for_help(int count, char **words) {
  for (int k = 0; k < count; k++) {
    if (strcmp(words[k], "--help") == 0 || strcmp(words[k], "-h") == 0) {
      return true;
    }
  }
  return false;
}

/* Runs the network as the words after the command ask for. */
static int run_words(struct kpn_run *run, const struct kpn_plan *plan, bool is_stream, int count, char **words) {
  if (!kpn_read_words(&run->words, is_stream, count, words)) {
    return KPN_USAGE;
  }
  if (!kpn_make_network(&run->network, plan)) {
    return kpn_refuse(KPN_LACKS_MEMORY, "42 NoMemory");
  }
  if (!is_stream || !run->words.is_quiet) {
    kpn_refuse(0, "compiled: nothing is proved of the program that runs here");
  }
  int status = is_stream ? kpn_command_stream(run) : kpn_commands(run);
  free(run->network.channels);
  return status;
}

int kpn_main(const struct kpn_plan *plan, const char *program, int count, char **words) {
  kpn_fill_standard();
  signal(SIGXFSZ, SIG_IGN); /* a file that may not grow is a failed write, and so is a pipe that nobody reads */
  signal(SIGPIPE, SIG_IGN);
  if (!kpn_are_texts(count - 1, words + 1)) {
    return KPN_USAGE;
  }
  if (asks_for_help(count - 1, words + 1)) {
    return kpn_write_all(STDOUT_FILENO, HELP, strlen(HELP)) ? 0 : kpn_refuse(KPN_REFUSED, "27 Write");
  }
  bool is_stream = count > 1 && strcmp(words[1], "stream") == 0;
  if (!is_stream && (count < 2 || strcmp(words[1], "run") != 0)) {
    kpn_tell("%s", HELP);
    return KPN_USAGE;
  }
  struct kpn_run *run = calloc(1, sizeof *run);
  struct kpn_end *ends = calloc(2 * (size_t)count, sizeof *ends);
  struct kpn_format_word *formats = calloc((size_t)count, sizeof *formats);
  int status = KPN_LACKS_MEMORY;
  if (run && ends && formats) {
    run->program = getenv("KPN_PROGRAM") ? getenv("KPN_PROGRAM") : program;
    run->words.sources = ends;
    run->words.sinks = ends + count;
    run->words.formats = formats;
    status = run_words(run, plan, is_stream, count - 2, words + 2);
  } else {
    kpn_refuse(status, "42 NoMemory");
  }
  free(formats);
  free(ends);
  free(run);
  return status;
}
