/* stream.c: the command `stream`, on items as they come. */
#define _GNU_SOURCE
#include <poll.h>
#include <stdio.h>
#include <stdlib.h>
#include <string.h>
#include <unistd.h>

#include "stream.h"

/* This many commits are made until the inputs are looked at again, also while processes are ready; and this many at the
   end of an input that is wrong. A process that never talks makes as many in some milliseconds. */
enum { SLICE = 4096, LAST_SLICE = 1048576 };

static const struct kpn_plan *plan_of(const struct stream *stream) {
  return stream->run->network.plan;
}

static void fail(struct stream *stream, unsigned c, int status, const char *line) {
  if (stream->status == 0) {
    stream->status = status;
    stream->wrong_channel = c;
    snprintf(stream->wrong, sizeof stream->wrong, "%s", line);
  }
}

static void note_most(struct stream *stream) {
  if (stream->most) {
    kpn_note_most(stream);
  }
}

/* Goes on until this many commits were made in all, or none is ready; for --stats it takes a look after each turn. */
static void go_on(struct stream *stream, uint64_t most) {
  struct kpn_network *network = &stream->run->network;
  do {
    kpn_go(network, stream->most && network->commits + 1 < most ? network->commits + 1 : most);
    note_most(stream);
  } while (stream->most && network->ready_count && network->commits < most && !network->lacks_memory);
}

/* ---- items */

static void take(struct kpn_network *network, unsigned c) {
  struct stream *stream = network->owner;
  struct kpn_run *run = stream->run;
  struct kpn_channel *channel = &network->channels[c];
  struct kpn_output *output = stream->outputs[c];
  uint64_t most = run->words.has_take ? run->words.take : UINT64_MAX;
  bool was_short = output->count < most;
  while (channel->got != channel->put) {
    int64_t item = channel->ring[channel->got & channel->mask];
    if (output->count < most && stream->beside) {
      kpn_give_beside(stream->beside, c, item);
    }
    if (output->count < most) {
      kpn_give_item(output, item);
    }
    channel->got++;
  }
  run->sinks_short -= was_short && output->count == most;
}

static void flush_all(struct stream *stream) {
  for (unsigned c = 0; c < plan_of(stream)->channel_count; c++) {
    if (stream->outputs[c]) {
      kpn_flush(stream->outputs[c]);
    }
  }
}

static void end_all(struct stream *stream) {
  for (unsigned c = 0; c < plan_of(stream)->channel_count; c++) {
    if (stream->outputs[c]) {
      kpn_end_output(stream->outputs[c]);
    }
  }
}

/* Notes which outputs have failed or gone. False says that the run is over. */
static bool look_at_outputs(struct stream *stream) {
  struct kpn_network *network = &stream->run->network;
  bool has_sink = false, is_read = false;
  char line[64];
  for (unsigned c = 0; c < plan_of(stream)->channel_count; c++) {
    struct kpn_output *output = stream->outputs[c];
    if (!output) {
      continue;
    }
    if (output->has_failed) {
      fail(stream, c, KPN_REFUSED, "27 Write");
    }
    if (output->has_misfit) {
      snprintf(line, sizeof line, "54 NoSample of %lld", (long long)output->misfit);
      fail(stream, c, KPN_REFUSED, line);
    }
    if (output->has_gone && !network->channels[c].is_shut) {
      kpn_leave(network, c);
    }
    has_sink = true;
    is_read = is_read || !output->has_gone;
  }
  return stream->status == 0 && (is_read || !has_sink);
}

static void close_source(struct stream *stream, unsigned c) {
  stream->inputs[c]->is_open = false;
  if (stream->beside) {
    kpn_close_beside(stream->beside, c);
  }
  kpn_close(&stream->run->network, c);
}

/* What stands after the items of an input: its end, which closes the source, or what is wrong. */
static void look_behind_items(struct stream *stream, unsigned c, enum kpn_input_state state) {
  char line[64];
  if (state == KPN_BAD_ITEM) {
    snprintf(line, sizeof line, "25 BadItem at %zu", stream->inputs[c]->used);
    fail(stream, c, KPN_REFUSED, line);
  } else if (state == KPN_BAD_HEAD) {
    const struct kpn_wav *wav = &stream->inputs[c]->wav;
    if (stream->inputs[c]->is_sound && wav->bad == wav->channels_at) {
      kpn_refuse(0, "the file has %u channels: `--channels %u`, or %s=FILE:0 for one of them", wav->channels,
                 wav->channels, plan_of(stream)->channels[c].name);
    }
    snprintf(line, sizeof line, "55 BadHead at %zu", stream->inputs[c]->wav.bad);
    fail(stream, c, KPN_REFUSED, line);
  } else if (state == KPN_CUT_SAMPLE) {
    fail(stream, c, KPN_REFUSED, "29 CutSample");
  } else if (state == KPN_NO_MORE_ITEMS) {
    close_source(stream, c);
  }
}

/* Feeds the items whose bytes are there. What stands after them is looked at only if there are none, since perhaps
   nobody will ever ask for it. False says that there was nothing to do. */
static bool feed_what_is_there(struct stream *stream, unsigned c) {
  struct kpn_network *network = &stream->run->network;
  struct kpn_input *input = stream->inputs[c];
  bool has_fed = false;
  for (;;) {
    size_t start = input->start, used = input->used;
    int64_t item;
    enum kpn_input_state state = kpn_next_item(input, &item);
    if (state == KPN_ITEM && !kpn_feed_item(network, c, item)) {
      fail(stream, c, KPN_LACKS_MEMORY, "28 NoMemory");
      return true;
    }
    if (state == KPN_ITEM && stream->beside) {
      kpn_feed_beside(stream->beside, c, item);
    }
    if (state != KPN_ITEM && has_fed) {
      input->start = start;
      input->used = used;
      note_most(stream);
      kpn_fed(network, c);
      return true;
    }
    if (state != KPN_ITEM) {
      look_behind_items(stream, c, state);
      return state != KPN_NO_ITEM_YET;
    }
    has_fed = true;
  }
}

/* Passes items on to `kpn stream` beside this one; waits until it has taken what a source got, if that is one. */
static void pass_beside(struct stream *stream, unsigned source) {
  if (stream->beside && !kpn_pass_beside(stream->beside, source)) {
    stream->has_differed = true;
  }
}

/* Whether `kpn stream` beside this one lets a source get more. While processes are ready it is not waited for. */
static bool may_feed(struct stream *stream, unsigned c) {
  if (!stream->beside || kpn_has_room_beside(stream->beside, c) || stream->run->network.ready_count) {
    return !stream->beside || kpn_has_room_beside(stream->beside, c);
  }
  flush_all(stream);
  pass_beside(stream, c);
  return true;
}

static void read_more(struct stream *stream, unsigned c) {
  if (!kpn_read_more(stream->inputs[c])) {
    fail(stream, c, KPN_REFUSED, "26 Read");
  }
}

/* The least open source from this channel on for whose item somebody waits, or the number of channels. */
static unsigned awaited_source(const struct stream *stream, unsigned c) {
  unsigned count = (unsigned)plan_of(stream)->channel_count;
  while (c < count && !(stream->inputs[c] && stream->inputs[c]->is_open &&
                        stream->run->network.channels[c].reader_waits)) {
    c++;
  }
  return c;
}

/* Nobody waits for an open source, and none is ready. Under `policy all` a growth may follow once all inputs are used
   up. */
static void close_all(struct stream *stream) {
  for (unsigned c = 0; c < plan_of(stream)->channel_count; c++) {
    struct kpn_input *input = stream->inputs[c];
    while (plan_of(stream)->is_policy_all && input && input->is_open && stream->status == 0) {
      pass_beside(stream, c);
      if (!feed_what_is_there(stream, c)) {
        flush_all(stream);
        read_more(stream, c);
      }
    }
    if (input && input->is_open) {
      close_source(stream, c);
    }
  }
}

/* Feeds the least awaited source whose bytes are there, or else reads the least for which some have come. If it has to
   wait for them, all that was computed goes out first. Beside ready processes it does not wait. */
static void serve_sources(struct stream *stream) {
  struct pollfd asked[KPN_MOST_CHANNELS];
  unsigned sources[KPN_MOST_CHANNELS], count = 0, channels = (unsigned)plan_of(stream)->channel_count;
  for (unsigned c = awaited_source(stream, 0); c < channels; c = awaited_source(stream, c + 1)) {
    if (!may_feed(stream, c) || feed_what_is_there(stream, c)) {
      return;
    }
    asked[count] = (struct pollfd){.fd = stream->inputs[c]->from, .events = POLLIN};
    sources[count++] = c;
  }
  if (poll(asked, count, 0) == 0 && !stream->run->network.ready_count) {
    flush_all(stream);
    poll(asked, count, -1);
  }
  for (unsigned k = 0; k < count; k++) {
    if (asked[k].revents) {
      read_more(stream, sources[k]);
      return;
    }
  }
}

/* Looks whether the run is over after a slice; feeds it if not. */
static bool is_over(struct stream *stream, uint64_t most) {
  struct kpn_run *run = stream->run;
  unsigned source = awaited_source(stream, 0);
  run->outcome = run->words.has_take && run->sinks_short == 0 ? KPN_ENOUGH : kpn_verdict_of(&run->network);
  if (run->outcome == KPN_GOING && run->network.commits >= most) {
    run->outcome = KPN_STOPPED;
  }
  if (run->outcome == KPN_ENOUGH || run->outcome == KPN_STOPPED) {
    return true;
  }
  if (source < plan_of(stream)->channel_count) {
    serve_sources(stream);
    return false;
  }
  if (run->outcome == KPN_GOING) {
    return false;
  }
  close_all(stream);
  run->outcome = kpn_verdict_of(&run->network);
  return run->outcome != KPN_GOING;
}

/* Goes on until there is an outcome, or a device has failed or gone. What came before a wrong item is computed. Where
   processes never rest, what has come goes out after each slice. */
static void go(struct stream *stream) {
  struct kpn_network *network = &stream->run->network;
  uint64_t most = stream->run->words.has_most_commits ? stream->run->words.most_commits : UINT64_MAX;
  while (stream->status == 0 && !stream->has_differed && !network->lacks_memory) {
    uint64_t slice = network->commits + SLICE;
    go_on(stream, slice < most ? slice : most);
    pass_beside(stream, KPN_MOST_CHANNELS);
    if (network->ready_count) {
      flush_all(stream);
    }
    if (!look_at_outputs(stream)) {
      break;
    }
    if (is_over(stream, most)) {
      return;
    }
  }
  if (!network->lacks_memory) {
    uint64_t slice = network->commits + LAST_SLICE;
    go_on(stream, slice < most ? slice : most);
  }
  stream->run->outcome = KPN_GOING;
}

/* ---- the end */

static bool write_told(void *to, const char *text, size_t length) {
  (void)to;
  return kpn_write_all(STDERR_FILENO, text, length);
}

/* Says how the stream has ended. */
static void report(const struct stream *stream, kpn_writer *writer, void *to) {
  const struct kpn_plan *plan = plan_of(stream);
  kpn_find_complete(&stream->run->network);
  char line[512];
  for (unsigned c = 0; c < plan->channel_count; c++) {
    const struct kpn_output *output = stream->outputs[c];
    if (output) {
      bool is_complete = stream->run->network.channels[c].is_complete && !output->has_failed;
      int length = snprintf(line, sizeof line, "sink %s: %llu items, %scomplete\n", plan->channels[c].name,
                            (unsigned long long)output->taken, is_complete ? "" : "not ");
      writer(to, line, (size_t)length);
    }
  }
  kpn_report_end(stream->run, true, writer, to);
}

/* Says how the stream has ended, and gives the status by that. */
static int conclude(struct stream *stream) {
  static const int statuses[] = {[KPN_CLOGGED] = 3, [KPN_JAMMED] = 4, [KPN_STOPPED] = 5};
  struct kpn_run *run = stream->run;
  const struct kpn_plan *plan = plan_of(stream);
  kpn_find_complete(&run->network);
  bool are_all = true, has_sink = false;
  for (unsigned c = 0; c < plan->channel_count; c++) {
    const struct kpn_output *output = stream->outputs[c];
    if (output) {
      has_sink = true;
      are_all = are_all && (run->network.channels[c].is_complete || output->has_gone ||
                            (run->words.has_take && output->count >= run->words.take));
    }
  }
  if (!run->words.is_quiet) {
    report(stream, write_told, NULL);
  }
  if (stream->most) {
    kpn_tell_stats(stream);
  }
  int status = run->outcome == KPN_ENOUGH ? 0 : kpn_strict_status(&run->network);
  if (status) {
    return status;
  }
  return (has_sink && are_all) || run->outcome < KPN_CLOGGED || run->outcome == KPN_ENOUGH ? 0 : statuses[run->outcome];
}

/* A text in memory, which stays short of one that is too long. */
struct kept {
  char *text;
  size_t length, room;
};

static bool keep(void *to, const char *text, size_t length) {
  struct kept *kept = to;
  if (length >= kept->room - kept->length) {
    return false;
  }
  memcpy(kept->text + kept->length, text, length);
  kept->length += length;
  kept->text[kept->length] = 0;
  return true;
}

/* Ends `kpn stream` beside this one: where that has an outcome too, it has to tell the same. */
static int end_beside(struct stream *stream) {
  enum { ROOM = 1048576 };
  bool has_gone = false;
  unsigned outcome = stream->run->outcome;
  for (unsigned c = 0; c < plan_of(stream)->channel_count; c++) {
    has_gone = has_gone || (stream->outputs[c] && stream->outputs[c]->has_gone);
  }
  bool is_compared = !has_gone && (outcome == KPN_ENDED || outcome == KPN_CLOGGED || outcome == KPN_JAMMED);
  struct kept kept = {is_compared ? malloc(ROOM) : NULL, 0, ROOM};
  if (kept.text) {
    report(stream, keep, &kept);
  }
  int status = kpn_end_beside(stream->beside, kept.text);
  free(kept.text);
  return status;
}

static int store_trace(struct stream *stream) {
  struct kpn_run *run = stream->run;
  const struct kpn_plan *plan = run->network.plan;
  if (run->network.has_differed) {
    return kpn_refuse(KPN_NOT_CERTIFIED, KPN_DIFFERED);
  }
  if (stream->trace) {
    run->trace.to = kpn_finish_opening(stream->trace);
  }
  if (run->trace.name && !(kpn_history_write(&run->history, plan->is_policy_all, plan->is_growth_double,
                                             kpn_file_write, &run->trace) && kpn_file_store(&run->trace))) {
    return kpn_refuse(KPN_REFUSED, "27 Write");
  }
  return 0;
}

static int run_stream(struct stream *stream) {
  struct kpn_run *run = stream->run;
  struct kpn_network *network = &run->network;
  network->owner = stream;
  network->taker = take;
  run->history.most = UINT64_MAX;
  network->history = run->words.trace ? &run->history : NULL;
  stream->beside = run->words.is_checked ? kpn_begin_beside(run) : NULL;
  if (run->words.is_checked && !stream->beside) {
    return KPN_NOT_CERTIFIED;
  }
  kpn_begin(network);
  if (!kpn_reserve_all(network, true)) {
    return kpn_refuse(KPN_LACKS_MEMORY, "42 NoMemory");
  }
  go(stream);
  flush_all(stream);
  end_all(stream);
  look_at_outputs(stream);
  if (run->words.is_sound) {
    kpn_end_sound(stream);
  }
  if (network->lacks_memory) {
    return kpn_refuse(KPN_LACKS_MEMORY, "42 NoMemory");
  }
  if (stream->status) {
    run->outcome = KPN_GOING;
  }
  int status = conclude(stream), stored = store_trace(stream);
  int checked = stream->beside ? end_beside(stream) : 0;
  stored = stored ? stored : checked;
  if (stream->status) {
    unsigned c = stream->wrong_channel;
    kpn_refuse(0, "%s", stream->wrong);
    kpn_tell("at --%s %s=%s\n", stream->inputs[c] ? "source" : "sink", plan_of(stream)->channels[c].name,
             stream->files[c]);
    return stream->status;
  }
  return stored ? stored : status;
}

int kpn_command_stream(struct kpn_run *run) {
  size_t count = run->network.plan->channel_count + 1;
  struct stream stream = {.run = run,
                          .inputs = calloc(count, sizeof *stream.inputs),
                          .outputs = calloc(count, sizeof *stream.outputs),
                          .files = calloc(count, sizeof *stream.files),
                          .most = run->words.has_stats ? calloc(count, sizeof *stream.most) : NULL};
  int status = KPN_LACKS_MEMORY;
  if (stream.inputs && stream.outputs && stream.files && (stream.most || !run->words.has_stats)) {
    status = kpn_open_ends(&stream);
    status = status ? status : run_stream(&stream);
  } else {
    kpn_refuse(status, "42 NoMemory");
  }
  for (size_t c = 0; c + 1 < count && stream.inputs && stream.outputs; c++) {
    free(stream.inputs[c]);
    free(stream.outputs[c]);
  }
  kpn_drop_rings(&run->network);
  kpn_file_drop(&run->trace);
  kpn_history_free(&run->history);
  free(stream.inputs);
  free(stream.outputs);
  free(stream.files);
  free(stream.most);
  return status;
}
