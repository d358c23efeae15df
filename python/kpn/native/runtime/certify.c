/* certify.c: the proved `kpn` judges a run. */
#define _GNU_SOURCE
#include <stdio.h>
#include <stdlib.h>
#include <string.h>
#include <unistd.h>

#include "judge.h"
#include "program.h"

/* A name has 32 bytes at most. */
enum { MOST_COMMITS = 1000000000, WORD = 96 };

static bool write_to(void *to, const char *text, size_t length) {
  return kpn_write_all(*(int *)to, text, length);
}

/* Stores the history for the judge; -1 says that it can't. */
static int store_history(const struct kpn_run *run) {
  const struct kpn_plan *plan = run->network.plan;
  int to = kpn_open_nameless();
  if (to >= 0 && !kpn_history_write(&run->history, plan->is_policy_all, plan->is_growth_double, write_to, &to)) {
    close(to);
    return -1;
  }
  return to;
}

/* Whether a sink gave the items of its journal: all, or as many as --take says. If only the first events were judged,
   the journal begins what the run gave. */
static bool is_given(const struct kpn_run *run, size_t given, struct kpn_compared found) {
  bool is_cut = run->history.count > run->history.most, is_enough = run->words.has_take && given == run->words.take;
  return (found.same == found.length && (is_cut || given == found.length)) || (found.same == given && is_enough);
}

/* Reads what `kpn audit` says after its first line. */
static bool are_all_given(FILE *from, const struct kpn_run *run, bool *is_exact, const char **wrong) {
  char word[64];
  bool is_there = true;
  kpn_next_word(from, word, sizeof word);
  kpn_next_word(from, word, sizeof word);
  *is_exact = strcmp(word, "yes") == 0;
  for (size_t c = 0; c < run->network.plan->channel_count && is_there; c++) {
    const struct kpn_text_items *list = &run->sinks[c].list;
    struct kpn_compared found;
    is_there = kpn_compare_journal(from, list->items, list->count, &found);
    if (run->network.plan->channels[c].kind == KPN_SINK && !(is_there && is_given(run, list->count, found))) {
      *wrong = run->network.plan->channels[c].name;
      return false;
    }
  }
  return is_there;
}

/* Judges the answer of `kpn audit`. */
static int judge(FILE *from, const struct kpn_run *run) {
  char line[64] = "";
  bool is_exact = false, is_cut = run->history.count > run->history.most;
  const char *wrong = NULL;
  if (!fgets(line, sizeof line, from)) {
    return kpn_refuse(KPN_NOT_CERTIFIED, "not certified: `kpn audit` gives no answer%s",
                      run->history.count > 8000000 ? "; a trace has at most 268435456 bytes: give --events N" : "");
  }
  line[strcspn(line, "\n")] = 0;
  if (strcmp(line, "legal") != 0) {
    return kpn_refuse(KPN_NOT_CERTIFIED, "not certified: %s; please report the network and its input", line);
  }
  if (!are_all_given(from, run, &is_exact, &wrong)) {
    return kpn_refuse(KPN_NOT_CERTIFIED, "not certified: the items of the sink `%s` are not those of the history",
                      wrong ? wrong : "?");
  }
  if (!is_cut && is_exact != (run->outcome == KPN_ENDED) && run->outcome != KPN_ENOUGH && run->outcome != KPN_STOPPED) {
    return kpn_refuse(KPN_NOT_CERTIFIED, "not certified: the outcome is not that of the history");
  }
  if (is_cut) {
    return kpn_refuse(0, "certified: legal, the first %llu of %llu events", (unsigned long long)run->history.most,
                      (unsigned long long)run->history.count);
  }
  return kpn_refuse(0, "certified: legal, %sexact", is_exact ? "" : "not ");
}

int kpn_certify(struct kpn_run *run) {
  pid_t child;
  const char *text = run->network.plan->text;
  char net_word[KPN_NAMELESS], trace_word[KPN_NAMELESS];
  int status = KPN_NOT_CERTIFIED, net = kpn_store_nameless(text, strlen(text)), trace = store_history(run);
  kpn_name_nameless(net, net_word);
  kpn_name_nameless(trace, trace_word);
  char *words[] = {(char *)run->program, "audit", net_word, trace_word, "--steps", "1000000000", NULL};
  FILE *from = net >= 0 && trace >= 0 ? kpn_start_judge(words, &child) : NULL;
  if (from) {
    status = judge(from, run);
    if (kpn_finish_judge(from, child) != 0 && status == 0) {
      status = kpn_refuse(KPN_NOT_CERTIFIED, "not certified: `kpn audit` has failed");
    }
  } else {
    kpn_refuse(status, "not certified: the trace cannot be stored in TMPDIR, or `kpn` cannot be started");
  }
  kpn_close_nameless(net);
  kpn_close_nameless(trace);
  return status;
}

/* ---- the same run by `kpn run` */

/* Compares what a report writes with what `kpn` writes. */
struct comparison {
  FILE *from;
  bool is_same;
};

static bool compare(void *to, const char *text, size_t length) {
  struct comparison *comparison = to;
  for (size_t k = 0; k < length && comparison->is_same; k++) {
    comparison->is_same = getc_unlocked(comparison->from) == (unsigned char)text[k];
  }
  return true;
}

/* Stores items for the judge; -1 says that it can't. */
static int store_items(const struct kpn_text_items *list) {
  char line[32];
  int to = kpn_open_nameless(), copy = to >= 0 ? dup(to) : -1;
  FILE *file = copy >= 0 ? fdopen(copy, "w") : NULL;
  bool is_stored = file != NULL;
  for (size_t k = 0; is_stored && k < list->count; k++) {
    char *end = kpn_digits(line, list->items[k]);
    *end++ = '\n';
    is_stored = fwrite(line, 1, (size_t)(end - line), file) == (size_t)(end - line);
  }
  if ((file && fclose(file) != 0) || !is_stored) {
    kpn_close_nameless(to);
    return -1;
  }
  return to;
}

/* The most commits that `kpn run` may make for a run. This one counts its commits in its own way, unless a turn is one
   of them; and it is over, or not compared. */
static uint64_t most_commits(const struct kpn_run *run) {
  if (!run->network.plan->is_one_talk) {
    return MOST_COMMITS;
  }
  return run->words.has_most_commits ? run->words.most_commits : KPN_USUAL_COMMITS;
}

/* The words of `kpn run` for a run, and the files that they name. */
struct question {
  char *words[2 * KPN_MOST_CHANNELS + 16];
  int files[KPN_MOST_CHANNELS + 1];
  size_t count, file_count;
  bool is_right;
};

static void add_word(struct question *to, const char *text) {
  char *copy = strdup(text);
  to->is_right = to->is_right && copy;
  to->words[to->count++] = copy;
}

static void add_number(struct question *to, const char *option, uint64_t number) {
  char text[32];
  *kpn_digits(text, (int64_t)number) = 0;
  add_word(to, option);
  add_word(to, text);
}

static void add_file(struct question *to, const char *before, int file) {
  char text[WORD], name[KPN_NAMELESS];
  snprintf(text, sizeof text, "%s%s", before, kpn_name_nameless(file, name));
  add_word(to, text);
  to->is_right = to->is_right && file >= 0;
  to->files[to->file_count++] = file;
}

static void ask(struct question *to, const struct kpn_run *run) {
  char before[WORD / 2];
  add_word(to, run->program);
  add_word(to, "run");
  add_file(to, "", kpn_store_nameless(run->network.plan->text, strlen(run->network.plan->text)));
  for (size_t k = 0; k < run->words.source_count; k++) {
    const struct kpn_end *source = &run->words.sources[k];
    snprintf(before, sizeof before, "%s=", source->name);
    add_word(to, "--source");
    add_file(to, before, store_items(&run->lists[source->channel]));
  }
  add_number(to, "--max-commits", most_commits(run));
  if (run->words.has_take) {
    add_number(to, "--take", run->words.take);
  }
}

static void free_question(struct question *of) {
  for (size_t k = 0; k < of->count; k++) {
    free(of->words[k]);
  }
  for (size_t k = 0; k < of->file_count; k++) {
    kpn_close_nameless(of->files[k]);
  }
  free(of);
}

int kpn_compare_runs(struct kpn_run *run) {
  pid_t child;
  struct question *question = calloc(1, sizeof *question);
  struct comparison comparison = {.is_same = true};
  if (run->outcome == KPN_STOPPED && !run->network.plan->is_one_talk) {
    free(question);
    return kpn_refuse(0, "not checked: the run was stopped, and reports no items");
  }
  if (question) {
    question->is_right = true;
    ask(question, run);
    comparison.from = question->is_right ? kpn_start_judge(question->words, &child) : NULL;
    free_question(question);
  }
  if (!comparison.from) {
    return kpn_refuse(KPN_NOT_CERTIFIED,
                      "not checked: its items cannot be stored in TMPDIR, or `kpn` cannot be started");
  }
  kpn_report(run, false, compare, &comparison);
  comparison.is_same = comparison.is_same && getc_unlocked(comparison.from) == EOF;
  kpn_finish_judge(comparison.from, child);
  if (!comparison.is_same) {
    return kpn_refuse(KPN_NOT_CERTIFIED, "not checked: `kpn run` does not give this report");
  }
  return kpn_refuse(0, "checked: the report is that of `kpn run`");
}
