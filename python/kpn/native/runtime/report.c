/* report.c: the report of a run. */
#include <string.h>

#include "program.h"

enum { BUFFER = 65536, MOST_LINE = 256 };

/* A text that goes to a writer in pieces. */
struct text {
  char buffer[BUFFER];
  size_t length;
  kpn_writer *writer;
  void *to;
  bool has_failed;
};

static void flush(struct text *text) {
  text->has_failed = text->has_failed || !text->writer(text->to, text->buffer, text->length);
  text->length = 0;
}

static void add(struct text *text, const char *word) {
  size_t length = strlen(word);
  if (text->length > BUFFER - MOST_LINE) {
    flush(text);
  }
  memcpy(text->buffer + text->length, word, length);
  text->length += length;
}

static void add_item(struct text *text, int64_t item) {
  if (text->length > BUFFER - MOST_LINE) {
    flush(text);
  }
  text->buffer[text->length++] = ' ';
  text->length = (size_t)(kpn_digits(text->buffer + text->length, item) - text->buffer);
}

static void add_sinks(struct text *text, const struct kpn_run *run, bool is_quiet) {
  const struct kpn_plan *plan = run->network.plan;
  for (size_t c = 0; c < plan->channel_count; c++) {
    if (plan->channels[c].kind == KPN_SINK && !(is_quiet && run->files[c].name)) {
      add(text, "sink ");
      add(text, plan->channels[c].name);
      add(text, ":");
      for (size_t k = 0; k < run->sinks[c].list.count; k++) {
        add_item(text, run->sinks[c].list.items[k]);
      }
      add(text, "\n");
    }
  }
}

static bool has_faulted(const struct kpn_process *process) {
  return process->being == KPN_OVER && process->why != KPN_DONE;
}

static void add_faults(struct text *text, const struct kpn_network *network) {
  for (size_t p = 0; p < network->plan->process_count; p++) {
    const struct kpn_process *process = &network->processes[p];
    if (has_faulted(process)) {
      add(text, "fault ");
      add(text, network->plan->processes[p].name);
      add(text, " ");
      add(text, kpn_end_word(process->why));
      add(text, "\n");
    }
  }
}

static void add_waits(struct text *text, const struct kpn_network *network) {
  for (size_t p = 0; p < network->plan->process_count; p++) {
    const struct kpn_process *process = &network->processes[p];
    if (process->being == KPN_WAITING || process->being == KPN_STALLED) {
      add(text, "waits ");
      add(text, network->plan->processes[p].name);
      add(text, " ");
      add(text, network->plan->channels[process->channel].name);
      add(text, process->why == KPN_FULL ? " full\n" : "\n");
    }
  }
}

/* The process for whose item this one waits, or KPN_OUTSIDE. */
static unsigned awaited(const struct kpn_network *network, unsigned p) {
  const struct kpn_process *process = &network->processes[p];
  bool is_waiting = process->being == KPN_WAITING || process->being == KPN_STALLED;
  return is_waiting && process->why == KPN_EMPTY ? network->channels[process->channel].writer : KPN_OUTSIDE;
}

/* Whether this process has the least number in a ring: each waits for an item of the next, and the last one of it. */
static bool begins_ring(const struct kpn_network *network, unsigned p) {
  unsigned at = awaited(network, p);
  for (size_t k = 0; k < network->plan->process_count && at > p && at != KPN_OUTSIDE; k++) {
    at = awaited(network, at);
  }
  return at == p;
}

static void add_rings(struct text *text, const struct kpn_network *network) {
  for (unsigned p = 0; p < network->plan->process_count; p++) {
    if (!begins_ring(network, p)) {
      continue;
    }
    unsigned at = p;
    add(text, "deadlock");
    do {
      add(text, " ");
      add(text, network->plan->processes[at].name);
      at = awaited(network, at);
    } while (at != p);
    add(text, "\n");
  }
}

int kpn_strict_status(const struct kpn_network *network) {
  int status = 0;
  for (unsigned p = 0; p < network->plan->process_count; p++) {
    if (has_faulted(&network->processes[p])) {
      return KPN_FAULTED;
    }
    status = begins_ring(network, p) ? KPN_HAS_RING : status;
  }
  return status;
}

static void begin(struct text *text, kpn_writer *writer, void *to) {
  text->length = 0;
  text->writer = writer;
  text->to = to;
  text->has_failed = false;
}

static void add_outcome(struct text *text, unsigned outcome) {
  static const char *const words[] = {[KPN_GOING] = "", [KPN_ENDED] = "ended\n", [KPN_CLOGGED] = "clogged\n",
                                      [KPN_JAMMED] = "jammed\n", [KPN_ENOUGH] = "enough\n",
                                      [KPN_STOPPED] = "stopped\n"};
  add(text, words[outcome]);
  flush(text);
}

bool kpn_report(const struct kpn_run *run, bool is_quiet, kpn_writer *writer, void *to) {
  struct text text;
  begin(&text, writer, to);
  if (run->outcome == KPN_ENDED || run->outcome == KPN_ENOUGH) {
    add_sinks(&text, run, is_quiet);
  }
  if (run->outcome != KPN_ENOUGH && run->outcome != KPN_STOPPED) {
    add_faults(&text, &run->network);
    add_waits(&text, &run->network);
  }
  add_outcome(&text, run->outcome);
  return !text.has_failed;
}

bool kpn_report_end(const struct kpn_run *run, bool has_rings, kpn_writer *writer, void *to) {
  struct text text;
  begin(&text, writer, to);
  if (run->outcome != KPN_ENOUGH) {
    add_faults(&text, &run->network);
    add_waits(&text, &run->network);
  }
  if (run->outcome != KPN_ENOUGH && has_rings) {
    add_rings(&text, &run->network);
  }
  add_outcome(&text, run->outcome);
  return !text.has_failed;
}
