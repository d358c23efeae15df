/* A part of a network as a session of libkpn: its text, and how a channel in it grows. */
#include "part.h"

#include <stdlib.h>
#include <string.h>

static bool has_instance(const struct kpn_part *of, int instance) {
  return instance != OUTSIDE && of->cut->rank_of[instance] == of->rank;
}

bool kpn_is_sink_of(const struct kpn_part *of, size_t channel) {
  const int writer = of->net->channels[channel].writer, reader = of->net->channels[channel].reader;
  return has_instance(of, writer) && !has_instance(of, reader);
}

/* Whether the part reads this source: one of the network or a cut channel. */
static bool is_source_of(const struct kpn_part *of, size_t channel) {
  return !has_instance(of, of->net->channels[channel].writer);
}

static void print_channel(const struct kpn_part *of, size_t number, struct kpn_text *into) {
  const struct kpn_channel *it = &of->net->channels[number];
  const bool is_written = has_instance(of, it->writer), is_read = has_instance(of, it->reader);
  if (!is_written) {
    kpn_print_to(into, "  source %.*s;\n", SHOWN(it->name));
  } else {
    kpn_print_to(into, "  %s %.*s cap %zu;\n", is_read ? "channel" : "sink", SHOWN(it->name), of->caps[number]);
  }
}

static void print_line(const char *before, struct kpn_span line, struct kpn_text *into) {
  kpn_print_to(into, "%s", before);
  kpn_add_bytes(into, line.at, line.length);
  kpn_print_to(into, "\n");
}

void kpn_print_part(const struct kpn_part *of, struct kpn_text *into) {
  const struct kpn_network *net = of->net;
  bool *is_used = kpn_memory(net->process_count * sizeof *is_used);
  for (size_t p = 0; p < of->instance_count; p++) {
    is_used[net->instances[of->instances[p]].process] = true;
  }
  if (net->opening.length) {
    print_line("", net->opening, into);
  }
  for (size_t k = 0; k < net->process_count; k++) {
    if (is_used[k]) {
      print_line("", net->processes[k].whole, into);
    }
  }
  free(is_used);
  kpn_print_to(into, "network {\n  limit %zu;\n", net->limit);
  /* A part of several looks after its own cycles. What is owed at a stop is for the chief to say. */
  if (net->grows_at_stops && of->cut->ranks == 1) {
    kpn_print_to(into, "  policy all;\n");
  }
  if (net->doubles) {
    kpn_print_to(into, "  grow double;\n");
  }
  for (size_t k = 0; k < of->channel_count; k++) {
    print_channel(of, of->channels[k], into);
  }
  for (size_t k = 0; k < of->instance_count; k++) {
    print_line("  ", net->instances[of->instances[k]].whole, into);
  }
  kpn_print_to(into, "}\n");
}

static void open_session(struct kpn_part *of) {
  struct kpn_text made = {0};
  kpn_place place;
  kpn_print_part(of, &made);
  kpn_expect(of->keeps ? kpn_open(made.at, made.length, &of->session, &place)
                       : kpn_open_forgetting(made.at, made.length, &of->session, &place),
             "kpn_open");
  kpn_free_text(&made);
}

void kpn_open_part(struct kpn_part *made, const struct kpn_network *net, const struct kpn_cut *of, int rank,
                   bool keeps) {
  *made = (struct kpn_part){.net = net,
                            .cut = of,
                            .rank = rank,
                            .keeps = keeps,
                            .channels = kpn_memory(net->channel_count * sizeof *made->channels),
                            .instances = kpn_memory(net->instance_count * sizeof *made->instances),
                            .local = kpn_memory(net->channel_count * sizeof *made->local),
                            .caps = kpn_memory(net->channel_count * sizeof *made->caps)};
  for (size_t c = 0; c < net->channel_count; c++) {
    const bool is_here = has_instance(made, net->channels[c].writer) || has_instance(made, net->channels[c].reader);
    made->local[c] = is_here ? (int)made->channel_count : NOWHERE;
    made->caps[c] = net->channels[c].cap;
    if (is_here) {
      made->channels[made->channel_count++] = c;
    }
  }
  for (size_t p = 0; p < net->instance_count; p++) {
    if (of->rank_of[p] == rank) {
      made->instances[made->instance_count++] = p;
    }
  }
  open_session(made);
}

void kpn_close_part(struct kpn_part *of) {
  kpn_expect(kpn_free(&of->session), "kpn_free");
  free(of->channels);
  free(of->instances);
  free(of->local);
  free(of->caps);
}

void kpn_print_trace(struct kpn_part *of, struct kpn_text *into) {
  size_t length;
  const uint32_t fault = kpn_trace(&of->session, NULL, 0, &length);
  if (fault != KPN_TOO_SMALL) {
    kpn_expect(fault, "kpn_trace");
  }
  into->at = kpn_memory(length + 1);
  into->room = length + 1;
  into->length = length;
  kpn_still_here();
  kpn_expect(kpn_trace(&of->session, into->at, length, &length), "kpn_trace");
  kpn_still_here();
}

/* ---- growth */

enum { LINES_AT_ONCE = 1024 };

/* What a line of a trace says, as far as a growth has to know it. */
struct event {
  char first;     /* of its word; 'x' for what makes no difference here */
  size_t channel; /* in the part */
  int64_t value;
};

static struct event read_event(const char *line) {
  static const struct {
    const char *word;
    char first;
    bool has_process;
  } kinds[] = {{"put ", 'p', true},    {"get ", 'r', true},   {"grow ", 'g', true},  {"feed ", 'f', false},
               {"close ", 'c', false}, {"take ", 't', false}, {"leave ", 'l', false}};
  for (size_t k = 0; k < sizeof kinds / sizeof *kinds; k++) {
    const size_t length = strlen(kinds[k].word);
    if (strncmp(line, kinds[k].word, length)) {
      continue;
    }
    char *rest = (char *)line + length;
    if (kinds[k].has_process) {
      strtol(rest, &rest, 10);
    }
    const size_t channel = (size_t)strtol(rest, &rest, 10);
    return (struct event){kinds[k].first, channel, strtoll(rest, NULL, 10)};
  }
  return (struct event){'x', 0, 0};
}

/* Of a sink how many items were put there, of a source how many were got: what others can have seen of it. */
static size_t moves_at(struct kpn_part *of, size_t local) {
  kpn_channel_state state;
  kpn_expect(kpn_tell_channel(&of->session, local, &state), "kpn_tell_channel");
  return kpn_is_sink_of(of, of->channels[local]) ? state.got + state.unread : state.got;
}

/* Steps until as many items as `moves` says were put on each sink, and got from each source. It comes that far, since
   it had at smaller capacities. */
static void catch_up(struct kpn_part *of, const size_t *moves, bool *is_behind) {
  enum { STEPS = 64 };
  for (size_t local = 0; *is_behind && local < of->channel_count; local++) {
    while (moves[local] && moves_at(of, local) < moves[local]) {
      uint64_t commits;
      kpn_expect(kpn_step(&of->session, STEPS, &commits), "kpn_step");
      kpn_still_here();
      if (!commits) {
        kpn_give_up(STATUS_WRONG, "kpn-mpi: a part that has grown does not come as far as before");
      }
    }
  }
  *is_behind = false;
}

/* Does again what the outside had done. */
static void do_again(struct kpn_part *of, struct event it) {
  size_t count = 1;
  int64_t item = 0;
  if (it.first == 'f') {
    kpn_expect(kpn_feed(&of->session, it.channel, &it.value, 1, &count), "kpn_feed");
  }
  if (it.first == 'c') {
    kpn_expect(kpn_close_source(&of->session, it.channel), "kpn_close_source");
  }
  if (it.first == 'l') {
    kpn_expect(kpn_leave_sink(&of->session, it.channel), "kpn_leave_sink");
  }
  if (it.first != 't') {
    return;
  }
  kpn_expect(kpn_take(&of->session, it.channel, &item, 1, &count), "kpn_take");
  if (count != 1 || item != it.value) {
    kpn_give_up(STATUS_WRONG, "kpn-mpi: a part that has grown gives other items");
  }
}

/* The next line of a text, which ends with a line feed; null at the end. */
static const char *line_after(const char *line) {
  const char *end = strchr(line, '\n');
  return end && end[1] ? end + 1 : NULL;
}

static void replay(struct kpn_part *of, const char *trace) {
  size_t *moves = kpn_memory(of->channel_count * sizeof *moves);
  bool is_behind = false;
  size_t count = 0;
  for (const char *line = trace; line; line = line_after(line)) {
    if (!(count++ % LINES_AT_ONCE)) {
      kpn_still_here();
    }
    const struct event it = read_event(line);
    const size_t channel = of->channels[it.channel];
    if ((it.first == 'p' && kpn_is_sink_of(of, channel)) || (it.first == 'r' && is_source_of(of, channel))) {
      moves[it.channel]++;
      is_behind = true;
    } else if (strchr("fctl", it.first)) {
      catch_up(of, moves, &is_behind);
      do_again(of, it);
    }
  }
  catch_up(of, moves, &is_behind);
  free(moves);
}

void kpn_grow_part(struct kpn_part *of, size_t channel, size_t cap) {
  struct kpn_text trace = {0};
  kpn_print_trace(of, &trace);
  size_t count = 0;
  for (const char *line = trace.at; line; line = line_after(line)) {
    if (!(count++ % LINES_AT_ONCE)) {
      kpn_still_here();
    }
    const struct event it = read_event(line);
    if (it.first == 'g') {
      of->caps[of->channels[it.channel]] = (size_t)it.value;
    }
  }
  of->caps[channel] = cap;
  kpn_expect(kpn_free(&of->session), "kpn_free");
  open_session(of);
  replay(of, trace.at);
  kpn_free_text(&trace);
}
