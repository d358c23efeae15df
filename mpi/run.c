/* Reads what a run needs, stores what it gives, and writes its report, as `kpn run` does. */
#define _XOPEN_SOURCE 700
#include "run.h"

#include <signal.h>
#include <stdio.h>
#include <stdlib.h>
#include <string.h>
#include <unistd.h>

#include "certify.h"

static const struct kpn_refusal CLASH = {NO_OUTPUT, false, 0}, SHARED = {SHARED_INPUT, false, 0},
                                CANT_WRITE = {27, false, 0};

enum { LONGEST_TEXT = 268435456, LONGEST_CUT = 1048576 };

void kpn_begin(void) {
  kpn_fill_standard();
  signal(SIGPIPE, SIG_IGN);
  signal(SIGXFSZ, SIG_IGN);
}

/* Writes a text to standard output, and empties it. Returns whether that worked. */
static bool say(struct kpn_text *said) {
  const bool works = kpn_write_all(STDOUT_FILENO, said->at, said->length);
  said->length = 0;
  return works;
}

/* ---- before the run */

/* Looks up the names of sources or of sinks. */
static struct kpn_refusal look_up(const struct kpn_network *net, const struct kpn_named_file *files, size_t count,
                                  enum kpn_kind kind) {
  for (size_t k = 0; k < count; k++) {
    const int found = kpn_find_channel(net, files[k].name, files[k].length);
    if (found < 0 || net->channels[found].kind != kind) {
      return (struct kpn_refusal){22, true, k};
    }
    for (size_t j = 0; j < k; j++) {
      if (files[j].length == files[k].length && !memcmp(files[j].name, files[k].name, files[k].length)) {
        return (struct kpn_refusal){23, true, k};
      }
    }
  }
  return (struct kpn_refusal){0};
}

static struct kpn_refusal check_text(const struct kpn_text *of) {
  kpn_place place;
  const uint32_t fault = kpn_check(of->at, of->length, &place);
  return (struct kpn_refusal){fault, place.has_place, place.place};
}

int kpn_load_plan(struct kpn_plan *into, const struct kpn_options *given) {
  *into = (struct kpn_plan){.options = given};
  struct kpn_refusal refused = kpn_has_no_output(given) ? CLASH : (struct kpn_refusal){0};
  if (!refused.number) {
    refused = kpn_read_file(given->file, LONGEST_TEXT, &into->description);
  }
  if (!refused.number) {
    refused = check_text(&into->description);
  }
  if (refused.number) {
    return kpn_tell_refusal(refused);
  }
  if (kpn_is_second(into->description.at, into->description.length) && !kpn_make_canonical(&into->description)) {
    return STATUS_REFUSED;
  }
  kpn_read_network(&into->net, into->description.at, into->description.length);
  refused = look_up(&into->net, given->sources, given->source_count, SOURCE);
  if (!refused.number) {
    refused = look_up(&into->net, given->sinks, given->sink_count, SINK);
  }
  if (!refused.number && kpn_shares_input(given)) {
    refused = SHARED;
  }
  if (!refused.number && given->cut) {
    refused = kpn_read_file(given->cut, LONGEST_CUT, &into->cut_lines);
  }
  if (refused.number) {
    return kpn_tell_refusal(refused);
  }
  const size_t line =
      !given->cut ? 0 : kpn_read_cut(&into->net, into->cut_lines.at, into->cut_lines.length, given->ranks, &into->cut);
  if (line) {
    fprintf(stderr, "kpn: usage: --cut FILE, a line INSTANCE=RANK for each instance; see line %zu\n", line);
  }
  return line ? STATUS_USAGE : 0;
}

void kpn_free_plan(struct kpn_plan *of) {
  kpn_free_text(&of->description);
  kpn_free_text(&of->cut_lines);
  kpn_free_network(&of->net);
  free(of->cut.rank_of);
  free(of);
}

void kpn_lay_out(struct kpn_plan *of, int ranks) {
  kpn_read_network(&of->net, of->description.at, of->description.length);
  if (of->options->cut) {
    kpn_read_cut(&of->net, of->cut_lines.at, of->cut_lines.length, ranks, &of->cut);
  } else {
    kpn_choose_cut(&of->net, ranks, &of->cut);
  }
  kpn_raise_capacities(&of->net, &of->cut, of->options->room);
}

int kpn_show_plan(int count, char **given) {
  struct kpn_options asked;
  struct kpn_text shown = {0};
  struct kpn_plan *made = kpn_memory(sizeof *made);
  int status = kpn_read_options(PLAN, count, given, true, &asked) ? kpn_load_plan(made, &asked) : STATUS_USAGE;
  if (!status) {
    kpn_lay_out(made, asked.ranks);
    kpn_print_plan(&made->net, &made->cut, &shown);
    status = say(&shown) ? 0 : kpn_tell_refusal(CANT_WRITE);
  }
  kpn_free_text(&shown);
  kpn_free_plan(made);
  kpn_free_options(&asked);
  return status;
}

/* The option of these that names a channel; as many as there are if none does. */
static size_t option_of(const struct kpn_named_file *files, size_t count, struct kpn_span name) {
  size_t k = 0;
  while (k < count && (files[k].length != name.length || memcmp(files[k].name, name.at, name.length))) {
    k++;
  }
  return k;
}

/* Keeps what is refused first in order of the options: 0 is for all names, then come sources, sinks and traces. */
static void refuse_option(struct kpn_refused_option *first, size_t option, struct kpn_refusal why) {
  if (why.number && option < first->option) {
    *first = (struct kpn_refused_option){option, why};
  }
}

static void open_source(struct kpn_site *of, size_t channel, struct kpn_refused_option *first) {
  const struct kpn_options *given = of->plan->options;
  const size_t k = option_of(given->sources, given->source_count, of->plan->net.channels[channel].name);
  struct kpn_words items = {0};
  if (k < given->source_count) {
    refuse_option(first, 1 + k, kpn_read_items(given->sources[k].file, &items));
  }
  kpn_feed_source(&of->rank, channel, items.at, items.count);
  kpn_free_words(&items);
}

static void open_sink(struct kpn_site *of, size_t channel, struct kpn_refused_option *first) {
  const struct kpn_options *given = of->plan->options;
  const size_t k = option_of(given->sinks, given->sink_count, of->plan->net.channels[channel].name);
  if (k == given->sink_count) {
    return;
  }
  of->has_output[channel] = true;
  refuse_option(first, 1 + given->source_count + k, kpn_open_output(given->sinks[k].file, &of->outputs[channel]));
}

/* Makes the folder of --traces, if it can, and names what goes there. */
static void name_traces(struct kpn_site *of) {
  const char *folder = of->plan->options->traces;
  const int number = of->rank.number;
  kpn_make_folder(folder);
  kpn_print_to(&of->kept_names[KEPT_TRACE], "%s/rank-%d.trace", folder, number);
  kpn_print_to(&of->kept_names[KEPT_PART], "%s/rank-%d.kpn", folder, number);
  of->kept_count = KEPT_CUT;
  if (number) {
    return;
  }
  kpn_print_to(&of->kept_names[KEPT_CUT], "%s/cut", folder);
  kpn_print_to(&of->kept_names[KEPT_RANKS], "%s/ranks", folder);
  of->kept_count = MOST_KEPT;
}

/* Whether the file of a sink is one that goes to the folder of --traces. */
static bool is_trace_taken(const struct kpn_site *of) {
  const struct kpn_options *given = of->plan->options;
  for (int k = 0; k < of->kept_count; k++) {
    for (size_t j = 0; j < given->sink_count; j++) {
      if (kpn_file_clashes(of->kept_names[k].at, &given->sinks[j].file, 1, true)) {
        return true;
      }
    }
  }
  return false;
}

/* Makes ready what goes to the folder of --traces. The cut of an earlier run may be that of this one. */
static struct kpn_refusal open_traces(struct kpn_site *of) {
  struct kpn_refusal refused = {0};
  for (int k = 0; k < of->kept_count && !refused.number; k++) {
    const bool is_read = k != KEPT_CUT && kpn_is_input(of->plan->options, of->kept_names[k].at);
    refused = is_read ? CANT_WRITE : kpn_open_output(of->kept_names[k].at, &of->kept[k]);
  }
  return refused;
}

/* Reads the sources, and makes the outputs ready. */
static void open_files(struct kpn_site *of, struct kpn_refused_option *first) {
  const struct kpn_plan *from = of->plan;
  for (size_t c = 0; c < from->net.channel_count; c++) {
    if (from->net.channels[c].kind == CHANNEL || kpn_home_of(&from->net, &from->cut, c) != of->rank.number) {
      continue;
    }
    if (from->net.channels[c].kind == SOURCE) {
      open_source(of, c, first);
    } else {
      open_sink(of, c, first);
    }
  }
  const struct kpn_options *given = from->options;
  if (given->traces && first->option == SIZE_MAX) {
    refuse_option(first, 1 + given->source_count + given->sink_count, open_traces(of));
  }
}

void kpn_open_site(struct kpn_site *made, const struct kpn_plan *of, int number, struct kpn_transport *over) {
  const bool keeps = of->options->traces || of->options->certifies || kpn_may_grow_over_ranks(&of->net, &of->cut);
  struct kpn_refused_option first = {SIZE_MAX, {0}};
  made->plan = of;
  made->outputs = kpn_memory(of->net.channel_count * sizeof *made->outputs);
  made->has_output = kpn_memory(of->net.channel_count * sizeof *made->has_output);
  kpn_open_rank(&made->rank, &of->net, &of->cut, number, &of->options->settings, over, keeps);
  if (of->options->traces) {
    name_traces(made);
  }
  if (kpn_has_no_output(of->options) || is_trace_taken(made)) {
    refuse_option(&first, 0, CLASH);
  } else if (kpn_shares_input(of->options)) {
    refuse_option(&first, 0, SHARED);
  } else {
    open_files(made, &first);
  }
  kpn_say_ready(&made->rank, &first);
}

void kpn_close_site(struct kpn_site *of) {
  for (size_t c = 0; c < of->plan->net.channel_count; c++) {
    if (of->has_output[c]) {
      kpn_file_drop(&of->outputs[c]);
    }
  }
  free(of->outputs);
  free(of->has_output);
  for (int k = 0; k < MOST_KEPT; k++) {
    kpn_file_drop(&of->kept[k]);
    kpn_free_text(&of->kept_names[k]);
  }
  kpn_free_rank(&of->rank);
}

/* ---- after the run */

static void keep_first(struct kpn_refusal *first, struct kpn_refusal next) {
  if (!first->number) {
    *first = next;
  }
}

/* Stores a text, and frees it. */
static struct kpn_refusal keep(struct kpn_site *of, int which, struct kpn_text *made) {
  const struct kpn_refusal refused = kpn_store_text(&of->kept[which], made);
  kpn_free_text(made);
  return refused;
}

static struct kpn_refusal store_traces(struct kpn_site *of) {
  struct kpn_text made = {0};
  kpn_print_trace(&of->rank.part, &made);
  struct kpn_refusal refused = keep(of, KEPT_TRACE, &made);
  kpn_print_part(&of->rank.part, &made);
  keep_first(&refused, keep(of, KEPT_PART, &made));
  if (of->rank.number) {
    return refused;
  }
  kpn_print_cut(&of->plan->net, &of->plan->cut, &made);
  keep_first(&refused, keep(of, KEPT_CUT, &made));
  kpn_print_to(&made, "%d\n", of->plan->cut.ranks);
  keep_first(&refused, keep(of, KEPT_RANKS, &made));
  return refused;
}

/* Stores what is asked for of this rank, and sends the results. What can't be stored keeps nothing else from that: a
   run may have taken long. */
static void store_site(struct kpn_site *of) {
  struct kpn_refusal refused = {0};
  if (of->plan->options->traces) {
    refused = store_traces(of);
  }
  for (size_t k = 0; k < of->rank.sink_count; k++) {
    const struct kpn_own_sink *sink = &of->rank.sinks[k];
    if (of->has_output[sink->channel]) {
      keep_first(&refused,
                 kpn_store_items(&of->outputs[sink->channel], sink->items.at, kpn_wanted_of(&of->rank, sink)));
    }
  }
  kpn_send_results(&of->rank, refused.number ? STATUS_REFUSED : 0);
}

/* Ends the run here. One that is to be certified stores and sends nothing before the verdict, and nothing at all if
   that is no. */
static void end_site(struct kpn_site *of) {
  struct kpn_rank *at = &of->rank;
  const bool is_free = !of->plan->options->certifies;
  if (!is_free && !at->has_handed) {
    kpn_hand_over(at);
  } else if (at->chief && !at->has_verdict && at->chief->handed_count == of->plan->cut.ranks) {
    kpn_say_verdict(at, kpn_certify(at, &of->plan->description));
  } else if (at->has_verdict && at->verdict) {
    kpn_send_results(at, at->verdict);
  } else if (is_free || at->has_verdict) {
    store_site(of);
  }
}

/* Removes the traces of an earlier run. The cut of that may be the one that this run has read. */
static void remove_traces(struct kpn_site *of) {
  for (int k = 0; k < of->kept_count; k++) {
    if (k != KEPT_CUT) {
      kpn_remove_old(&of->kept[k]);
    }
  }
}

bool kpn_make_round_at(struct kpn_site *of) {
  const enum kpn_phase before = of->rank.phase;
  const bool did = kpn_make_round(&of->rank);
  const enum kpn_phase now = of->rank.phase;
  if (before == STARTING && now != STARTING && now != REFUSED) {
    remove_traces(of);
  }
  if (now == ENDING && !of->rank.has_results) {
    end_site(of);
  }
  return did;
}

static bool say_items(void *unused, const char *at, size_t length) {
  (void)unused;
  return kpn_write_all(STDOUT_FILENO, at, length);
}

static bool say_sinks(const struct kpn_rank *of, struct kpn_text *said) {
  bool works = true;
  for (size_t c = 0; works && c < of->net->channel_count; c++) {
    if (of->net->channels[c].kind != SINK) {
      continue;
    }
    const struct kpn_words *items = &of->chief->items[c];
    kpn_print_to(said, "sink %.*s:", SHOWN(of->net->channels[c].name));
    works = say(said) && kpn_write_items(say_items, NULL, ' ', items->at, items->count, 0);
    kpn_print_to(said, "\n");
  }
  return works;
}

static void print_processes(const struct kpn_rank *of, struct kpn_text *into) {
  static const char *const faults[] = {[KPN_STATE_OVERFLOW] = "overflow",
                                       [KPN_STATE_ZERO_DIVISOR] = "zero-divisor",
                                       [KPN_STATE_INDEX] = "index",
                                       [KPN_STATE_SHIFT] = "shift"};
  const struct kpn_network *net = of->net;
  const struct kpn_standing *all = of->chief->standings;
  for (size_t p = 0; p < net->instance_count; p++) {
    if (all[p].state >= KPN_STATE_OVERFLOW) {
      kpn_print_to(into, "fault %.*s %s\n", SHOWN(net->instances[p].name), faults[all[p].state]);
    }
  }
  for (size_t p = 0; p < net->instance_count; p++) {
    if (all[p].state == KPN_STATE_WAITS_EMPTY || all[p].state == KPN_STATE_WAITS_FULL) {
      kpn_print_to(into, "waits %.*s %.*s%s\n", SHOWN(net->instances[p].name),
                   SHOWN(net->channels[all[p].channel].name), all[p].state == KPN_STATE_WAITS_FULL ? " full" : "");
    }
  }
}

int kpn_report_run(struct kpn_site *of) {
  static const struct {
    const char *name;
    int status;
  } outcomes[] = {[ENDED] = {"ended", 0},
                  [CLOGGED] = {"clogged", STATUS_CLOGGED},
                  [JAMMED] = {"jammed", STATUS_JAMMED},
                  [ENOUGH] = {"enough", 0},
                  [STOPPED] = {"stopped", STATUS_STOPPED}};
  const struct kpn_rank *at = &of->rank;
  struct kpn_text said = {0};
  bool works = true;
  if (at->phase == REFUSED) {
    return kpn_tell_refusal(at->refused.why);
  }
  if (at->worst_status == STATUS_NOT_CERTIFIED) {
    return at->worst_status;
  }
  if (at->worst_status) {
    return kpn_tell_refusal(CANT_WRITE);
  }
  if (at->outcome == ENDED || at->outcome == ENOUGH) {
    works = say_sinks(at, &said);
  }
  if (at->outcome != ENOUGH && at->outcome != STOPPED) {
    print_processes(at, &said);
  }
  kpn_print_to(&said, "%s\n", outcomes[at->outcome].name);
  works = works && say(&said);
  kpn_free_text(&said);
  return works ? outcomes[at->outcome].status : kpn_tell_refusal(CANT_WRITE);
}
