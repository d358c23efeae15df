/* run.c: the command `run`, on whole lists of items. */
#include <stdlib.h>
#include <string.h>
#include <unistd.h>

#include "program.h"

static bool has_enough(const struct kpn_run *run) {
  return run->words.has_take && run->sinks_short == 0;
}

/* Takes all that has come to a sink. Of a sink that has as many items as --take says, no more are kept. */
static void take(struct kpn_network *network, unsigned c) {
  struct kpn_run *run = network->owner;
  struct kpn_channel *channel = &network->channels[c];
  struct kpn_run_sink *sink = &run->sinks[c];
  size_t most = run->words.has_take ? run->words.take - sink->list.count : SIZE_MAX;
  bool was_short = run->words.has_take && most > 0;
  while (channel->got != channel->put) {
    size_t place = channel->got & channel->mask, count = channel->put - channel->got;
    if (count > channel->mask + 1 - place) {
      count = channel->mask + 1 - place;
    }
    size_t kept = count < most ? count : most;
    if (kept && !kpn_items_add(&sink->list, channel->ring + place, kept)) {
      network->lacks_memory = true;
    }
    most -= kept;
    channel->got += count;
  }
  run->sinks_short -= was_short && most == 0;
}

static void drop(struct kpn_run *run) {
  const struct kpn_plan *plan = run->network.plan;
  for (size_t c = 0; c < plan->channel_count; c++) {
    if (run->files) {
      kpn_file_drop(&run->files[c]);
    }
    if (run->lists) {
      free(run->lists[c].items);
    }
    if (run->sinks) {
      free(run->sinks[c].list.items);
    }
  }
  kpn_file_drop(&run->trace);
  kpn_history_free(&run->history);
  free(run->files);
  free(run->lists);
  free(run->sinks);
}

static int read_inputs(struct kpn_run *run) {
  for (size_t k = 0; k < run->words.source_count; k++) {
    const struct kpn_end *source = &run->words.sources[k];
    size_t line = 0;
    switch (kpn_read_items(source->file, &run->lists[source->channel], &line)) {
    case KPN_READ_BAD_ITEM:
      return kpn_refuse(KPN_REFUSED, "25 BadItem at %zu", line);
    case KPN_READ_FAILED:
      return kpn_refuse(KPN_REFUSED, "26 Read");
    case KPN_READ_NO_MEMORY:
      return kpn_refuse(KPN_LACKS_MEMORY, "28 NoMemory");
    case KPN_READ_OK:
      break;
    }
  }
  return 0;
}

static int prepare_outputs(struct kpn_run *run) {
  run->trace.name = run->words.trace;
  if (run->trace.name && !kpn_file_prepare(&run->trace)) {
    return kpn_refuse(KPN_REFUSED, "27 Write");
  }
  for (size_t k = 0; k < run->words.sink_count; k++) {
    struct kpn_file *file = &run->files[run->words.sinks[k].channel];
    file->name = run->words.sinks[k].file;
    if (!kpn_file_prepare(file)) {
      return kpn_refuse(KPN_REFUSED, "27 Write");
    }
  }
  return 0;
}

/* Feeds each source its list, which stays its ring, and closes it. */
static void feed(struct kpn_run *run) {
  struct kpn_network *network = &run->network;
  for (unsigned c = 0; c < network->plan->channel_count; c++) {
    struct kpn_channel *channel = &network->channels[c];
    if (network->plan->channels[c].kind != KPN_SOURCE) {
      continue;
    }
    channel->ring = run->lists[c].items;
    channel->mask = SIZE_MAX;
    channel->put = run->lists[c].count;
    for (size_t k = 0; network->history && k < channel->put; k++) {
      kpn_record(network, KPN_FEED, KPN_OUTSIDE, c, channel->ring[k]);
    }
    kpn_close(network, c);
  }
}

/* Begins a run whose sources have rings of their own, or none yet. */
static bool begin(struct kpn_run *run, bool with_sources) {
  struct kpn_network *network = &run->network;
  network->owner = run;
  network->taker = take;
  kpn_begin(network);
  for (size_t c = 0; c < network->plan->channel_count; c++) {
    run->sinks_short += network->plan->channels[c].kind == KPN_SINK;
  }
  network->lacks_memory = !kpn_reserve_all(network, with_sources);
  return !network->lacks_memory;
}

bool kpn_begin_run(struct kpn_run *run) {
  if (begin(run, false)) {
    feed(run);
  }
  return !run->network.lacks_memory;
}

bool kpn_begin_live(struct kpn_run *run) {
  return begin(run, true);
}

unsigned kpn_run_on(struct kpn_run *run, uint64_t most) {
  struct kpn_network *network = &run->network;
  while (!network->lacks_memory) {
    if (has_enough(run)) {
      return KPN_ENOUGH;
    }
    if (!network->ready_count) {
      kpn_write_waits(network);
    }
    unsigned verdict = kpn_verdict_of(network);
    if (verdict != KPN_GOING) {
      return verdict;
    }
    if (network->commits >= most) {
      return KPN_STOPPED;
    }
    kpn_go_once(network);
  }
  return KPN_GOING;
}

void kpn_end_run(struct kpn_run *run) {
  for (size_t c = 0; c < run->network.plan->channel_count; c++) {
    if (run->network.plan->channels[c].kind == KPN_SOURCE) {
      run->network.channels[c].ring = NULL;
    }
  }
  kpn_drop_rings(&run->network);
}

static bool store_items(struct kpn_file *file, const struct kpn_text_items *list) {
  char buffer[65536], *at = buffer;
  for (size_t k = 0; k < list->count; k++) {
    at = kpn_digits(at, list->items[k]);
    *at++ = '\n';
    if (at - buffer > (ptrdiff_t)sizeof buffer - 32) {
      if (!kpn_file_write(file, buffer, (size_t)(at - buffer))) {
        return false;
      }
      at = buffer;
    }
  }
  return kpn_file_write(file, buffer, (size_t)(at - buffer)) && kpn_file_store(file);
}

static bool store(struct kpn_run *run) {
  const struct kpn_plan *plan = run->network.plan;
  if (run->trace.name && !(kpn_history_write(&run->history, plan->is_policy_all, plan->is_growth_double,
                                             kpn_file_write, &run->trace) && kpn_file_store(&run->trace))) {
    return false;
  }
  for (size_t c = 0; c < plan->channel_count; c++) {
    if (run->files[c].name && !store_items(&run->files[c], &run->sinks[c].list)) {
      return false;
    }
  }
  return true;
}

static bool write_out(void *to, const char *text, size_t length) {
  return kpn_write_all(*(int *)to, text, length);
}

static int answer(struct kpn_run *run) {
  static const int statuses[] = {[KPN_CLOGGED] = 3, [KPN_JAMMED] = 4, [KPN_STOPPED] = 5};
  if (run->network.has_differed) {
    return kpn_refuse(KPN_NOT_CERTIFIED, KPN_DIFFERED);
  }
  int status = run->words.is_certified ? kpn_certify(run) : 0, out = STDOUT_FILENO;
  if (status == 0 && run->words.is_checked) {
    status = kpn_compare_runs(run);
  }
  if (status) {
    return status;
  }
  if (!store(run) || !kpn_report(run, run->words.is_quiet, write_out, &out)) {
    return kpn_refuse(KPN_REFUSED, "27 Write");
  }
  status = run->words.is_strict ? kpn_strict_status(&run->network) : 0;
  return status || run->outcome == KPN_ENDED || run->outcome == KPN_ENOUGH ? status : statuses[run->outcome];
}

/* The run itself, once its inputs are there and its outputs ready. */
static int run_network(struct kpn_run *run) {
  run->history.most = run->words.events ? run->words.events : UINT64_MAX;
  run->network.history = run->words.trace || run->words.is_certified ? &run->history : NULL;
  uint64_t usual = run->network.plan->is_one_talk ? KPN_USUAL_COMMITS : UINT64_MAX;
  if (kpn_begin_run(run)) {
    run->outcome = kpn_run_on(run, run->words.has_most_commits ? run->words.most_commits : usual);
  }
  int status = run->network.lacks_memory ? kpn_refuse(KPN_LACKS_MEMORY, "42 NoMemory") : answer(run);
  kpn_end_run(run);
  return status;
}

int kpn_commands(struct kpn_run *run) {
  size_t count = run->network.plan->channel_count + 1;
  int status = kpn_check_outputs(&run->words, false);
  if (status) {
    return status;
  }
  run->lists = calloc(count, sizeof *run->lists);
  run->sinks = calloc(count, sizeof *run->sinks);
  run->files = calloc(count, sizeof *run->files);
  if (!run->lists || !run->sinks || !run->files) {
    status = kpn_refuse(KPN_LACKS_MEMORY, "42 NoMemory");
  } else {
    const struct kpn_plan *plan = run->network.plan;
    bool are_found = kpn_find_ends(plan, KPN_SOURCE, run->words.sources, run->words.source_count) &&
                     kpn_find_ends(plan, KPN_SINK, run->words.sinks, run->words.sink_count);
    status = are_found ? read_inputs(run) : KPN_REFUSED;
    status = status ? status : prepare_outputs(run);
    status = status ? status : run_network(run);
  }
  drop(run);
  return status;
}
