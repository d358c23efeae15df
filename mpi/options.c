/* Reads the words of the command line. */
#include "options.h"

#include <errno.h>
#include <math.h>
#include <stdio.h>
#include <stdlib.h>
#include <string.h>

#define MOST_NUMBER 1000000000
#define USAGE                                                                                                          \
  "mpirun -n RANKS kpn-mpi FILE [--source NAME=FILE].. [--sink NAME=OUT].. [--take K] [--max-commits N]\n"             \
  "    [--cut FILE] [--room N] [--traces FOLDER] [--certify] [--timeout S]\n"                                          \
  "kpn-mpi plan FILE --ranks N [--cut FILE] [--room N]\n"                                                              \
  "kpn-mpi-simulator FILE --ranks N --seed S [the options of a run]"

enum { OF_RUNS = RUN | SIMULATION, OF_ALL = RUN | PLAN | SIMULATION };

enum option { SOURCES, SINKS, TAKE, COMMITS, ROOM, RANKS, SEED, CUT, TRACES, CERTIFY, TIMEOUT, OPTION_COUNT };

/* The options, the commands that they go with, and what is said of a wrong value. */
static const struct {
  const char *name;
  int commands;
  const char *wrong;
} known[OPTION_COUNT] = {
    [SOURCES] = {"--source", OF_RUNS, "--source NAME=FILE"},
    [SINKS] = {"--sink", OF_RUNS, NO_OUTPUT_TEXT},
    [TAKE] = {"--take", OF_RUNS, "--take K, 1 to 1000000000"},
    [COMMITS] = {"--max-commits", OF_RUNS, "--max-commits N, 1 to 1000000000"},
    [ROOM] = {"--room", OF_ALL, "--room N, 1 to 1048576"},
    [RANKS] = {"--ranks", PLAN | SIMULATION, "--ranks N, 1 to 256"},
    [SEED] = {"--seed", SIMULATION, "--seed S, 0 to 1000000000"},
    [CUT] = {"--cut", OF_ALL, USAGE},
    [TRACES] = {"--traces", OF_RUNS, USAGE},
    [CERTIFY] = {"--certify", OF_RUNS, USAGE},
    [TIMEOUT] = {"--timeout", OF_RUNS, "--timeout S, seconds above 0"},
};

struct reader {
  enum kpn_command command;
  char **words;
  int count, at;
  bool is_given[OPTION_COUNT];
  const char *value; /* of the option that is read */
  const char *wrong; /* what is wrong, if anything is */
};

/* The option that the next word names; OPTION_COUNT if it names none of the command. */
static enum option option_at(const struct reader *in) {
  const char *word = in->words[in->at];
  const size_t length = strcspn(word, "=");
  int found = 0;
  while (found < OPTION_COUNT && (strlen(known[found].name) != length || strncmp(word, known[found].name, length) ||
                                  !(in->command & known[found].commands))) {
    found++;
  }
  return (enum option)found;
}

/* Goes past an option, and reads its value: after `=` in the word, or the next word. Only ends are named again, and
   only `--certify` has no value. */
static void pass_option(struct reader *in, enum option which) {
  const char *equals = strchr(in->words[in->at++], '=');
  if (which == CERTIFY) {
    in->value = equals ? NULL : "";
  } else {
    in->value = equals ? equals + 1 : in->at < in->count ? in->words[in->at++] : NULL;
  }
  if (!in->value || (which == TRACES && !*in->value) || (in->is_given[which] && which != SOURCES && which != SINKS)) {
    in->wrong = USAGE;
  }
  in->is_given[which] = true;
}

static uint64_t number(struct reader *in, enum option which, uint64_t least, uint64_t most) {
  char *rest;
  errno = 0;
  const unsigned long long found = strtoull(in->value, &rest, 10);
  if (errno || rest == in->value || *rest || *in->value == '-' || found < least || found > most) {
    in->wrong = known[which].wrong;
  }
  return found;
}

static double seconds(struct reader *in) {
  char *rest;
  const double found = strtod(in->value, &rest);
  if (rest == in->value || *rest || !(found > 0) || isinf(found)) {
    in->wrong = known[TIMEOUT].wrong;
  }
  return found;
}

static void name_file(struct reader *in, enum option which, struct kpn_named_file *into, size_t *count) {
  const char *equals = strchr(in->value, '=');
  if (!equals) {
    in->wrong = known[which].wrong;
    return;
  }
  into[(*count)++] = (struct kpn_named_file){in->value, equals + 1, (size_t)(equals - in->value)};
}

static void read_value(struct reader *in, enum option which, struct kpn_options *into) {
  struct kpn_settings *given = &into->settings;
  switch (which) {
  case SOURCES:
    name_file(in, which, into->sources, &into->source_count);
    break;
  case SINKS:
    name_file(in, which, into->sinks, &into->sink_count);
    break;
  case TAKE:
    given->has_take = true;
    given->take = number(in, which, 1, MOST_NUMBER);
    break;
  case COMMITS:
    given->most_commits = number(in, which, 1, MOST_NUMBER);
    break;
  case ROOM:
    into->room = (size_t)number(in, which, 1, 1048576);
    break;
  case RANKS:
    into->ranks = (int)number(in, which, 1, MOST_RANKS);
    break;
  case SEED:
    into->seed = (unsigned long)number(in, which, 0, MOST_NUMBER);
    break;
  case CUT:
    into->cut = in->value;
    break;
  case TRACES:
    into->traces = in->value;
    break;
  case CERTIFY:
    into->certifies = true;
    break;
  default:
    given->timeout = seconds(in);
    break;
  }
}

static void read_word(struct reader *in, struct kpn_options *into) {
  const enum option which = option_at(in);
  if (which < OPTION_COUNT) {
    pass_option(in, which);
    if (!in->wrong) {
      read_value(in, which, into);
    }
  } else if (!into->file && in->words[in->at][0] != '-') {
    into->file = in->words[in->at++];
  } else {
    in->wrong = USAGE;
  }
}

/* An output is no input, and no other output. Here words are compared, since other ranks have other files. */
static void compare_words(struct reader *in, const struct kpn_options *of) {
  for (size_t k = 0; k < of->sink_count; k++) {
    const char *out = of->sinks[k].file;
    bool is_taken = !strcmp(out, of->file) || (of->cut && !strcmp(out, of->cut));
    for (size_t j = 0; j < of->source_count; j++) {
      is_taken |= !strcmp(out, of->sources[j].file);
    }
    for (size_t j = 0; j < k; j++) {
      is_taken |= !strcmp(out, of->sinks[j].file);
    }
    if (is_taken) {
      in->wrong = NO_OUTPUT_TEXT;
    }
  }
}

bool kpn_is_input(const struct kpn_options *of, const char *path) {
  const char *const others[] = {of->file, of->cut};
  bool found = kpn_file_clashes(path, others, of->cut ? 2 : 1, false) || kpn_file_is_standard(path);
  for (size_t k = 0; !found && k < of->source_count; k++) {
    found = kpn_file_clashes(path, &of->sources[k].file, 1, false);
  }
  return found;
}

bool kpn_has_no_output(const struct kpn_options *of) {
  bool found = false;
  for (size_t k = 0; !found && k < of->sink_count; k++) {
    found = kpn_is_input(of, of->sinks[k].file);
    for (size_t j = 0; !found && j < k; j++) {
      found = kpn_file_clashes(of->sinks[k].file, &of->sinks[j].file, 1, true);
    }
  }
  return found;
}

bool kpn_shares_input(const struct kpn_options *of) {
  bool found = false;
  for (size_t k = 0; !found && k < of->source_count; k++) {
    for (size_t j = 0; !found && j < k; j++) {
      found = kpn_file_is_one_device(of->sources[k].file, of->sources[j].file);
    }
  }
  return found;
}

bool kpn_asks_for_plan(int count, char **given) {
  return count > 1 && !strcmp(given[1], "plan");
}

bool kpn_read_options(enum kpn_command of, int count, char **given, bool tells, struct kpn_options *into) {
  enum { USUAL_COMMITS = 10000000, USUAL_WINDOW = 8192 };
  struct reader in = {.command = of, .words = given, .count = count, .at = of == PLAN ? 2 : 1};
  *into = (struct kpn_options){.room = USUAL_ROOM};
  into->settings = (struct kpn_settings){.most_commits = USUAL_COMMITS, .window = USUAL_WINDOW};
  into->sources = kpn_memory((size_t)count * sizeof *into->sources);
  into->sinks = kpn_memory((size_t)count * sizeof *into->sinks);
  while (in.at < in.count && !in.wrong) {
    read_word(&in, into);
  }
  if (!in.wrong && !into->file) {
    in.wrong = USAGE;
  }
  if (!in.wrong && !into->ranks && of == PLAN) {
    in.wrong = known[RANKS].wrong;
  }
  if (!in.wrong) {
    compare_words(&in, into);
  }
  if (in.wrong && tells) {
    fprintf(stderr, "kpn: usage: %s\n", in.wrong);
  }
  return !in.wrong;
}

void kpn_free_options(struct kpn_options *of) {
  free(of->sources);
  free(of->sinks);
}
