/* ends.c: the inputs and outputs of a stream, from the words to open files. */
#define _GNU_SOURCE
#include <errno.h>
#include <fcntl.h>
#include <stdlib.h>
#include <string.h>
#include <sys/file.h>
#include <sys/stat.h>
#include <unistd.h>

#include "stream.h"

static const struct kpn_plan *plan_of(const struct stream *stream) {
  return stream->run->network.plan;
}

/* Finds the files of the ends of a kind. The only source is standard input if it is left out, and the only sink
   standard output. */
static int complete_ends(struct stream *stream, enum kpn_kind kind, struct kpn_end *ends, size_t count) {
  const struct kpn_plan *plan = plan_of(stream);
  size_t of_kind = 0;
  if (!kpn_find_ends(plan, kind, ends, count)) {
    return KPN_REFUSED;
  }
  for (unsigned c = 0; c < plan->channel_count; c++) {
    of_kind += plan->channels[c].kind == kind;
  }
  for (size_t k = 0; k < count; k++) {
    stream->files[ends[k].channel] = ends[k].file;
  }
  for (unsigned c = 0; c < plan->channel_count; c++) {
    if (plan->channels[c].kind == kind && !stream->files[c]) {
      if (of_kind != 1) {
        bool is_source = kind == KPN_SOURCE;
        return kpn_refuse(KPN_USAGE, "usage: --%s %s=%s", is_source ? "source" : "sink", plan->channels[c].name,
                          is_source ? "IN" : "OUT");
      }
      stream->files[c] = "-";
    }
  }
  return 0;
}

static bool is_end(const struct stream *stream, unsigned c, enum kpn_kind kind) {
  return plan_of(stream)->channels[c].kind == kind;
}

static bool is_standard(const struct stream *stream, unsigned c) {
  return strcmp(stream->files[c], "-") == 0;
}

/* The path of what an end has, also if that is standard input or output. */
static const char *path_of(const struct stream *stream, unsigned c) {
  return !is_standard(stream, c) ? stream->files[c] : is_end(stream, c, KPN_SOURCE) ? "/dev/stdin" : "/dev/stdout";
}

/* No two sources share what one reader uses up, and no sink that has standard output writes an input. */
static int check_ends(const struct stream *stream, enum kpn_kind kind) {
  size_t count = plan_of(stream)->channel_count;
  for (unsigned c = 0; c < count; c++) {
    for (unsigned d = 0; d < count && is_end(stream, c, kind); d++) {
      if (!is_end(stream, d, KPN_SOURCE) || d == c) {
        continue;
      }
      if (kind == KPN_SOURCE && ((is_standard(stream, c) && is_standard(stream, d)) ||
                                 kpn_file_is_one_device(path_of(stream, c), path_of(stream, d)))) {
        return kpn_refuse(KPN_USAGE, "usage: --source NAME=IN, a plain file if two sources have it");
      }
      if (kind == KPN_SINK && is_standard(stream, c) && kpn_file_is_same(path_of(stream, c), path_of(stream, d))) {
        return kpn_refuse(KPN_USAGE, "usage: --sink NAME=OUT, a file that is no input and no other output");
      }
    }
  }
  return 0;
}

static int find_ends(struct stream *stream) {
  struct kpn_words *words = &stream->run->words;
  int status = kpn_check_outputs(words, true);
  status = status ? status : complete_ends(stream, KPN_SOURCE, words->sources, words->source_count);
  status = status ? status : check_ends(stream, KPN_SOURCE);
  status = status ? status : complete_ends(stream, KPN_SINK, words->sinks, words->sink_count);
  status = status ? status : kpn_check_formats(plan_of(stream), words) ? 0 : KPN_USAGE;
  return status ? status : check_ends(stream, KPN_SINK);
}

static int open_trace(struct stream *stream) {
  struct kpn_file *trace = &stream->run->trace;
  trace->name = stream->run->words.trace;
  if (trace->name && kpn_is_fifo(trace->name)) {
    stream->trace = kpn_begin_opening(trace->name);
    return stream->trace ? 0 : kpn_refuse(KPN_LACKS_MEMORY, "42 NoMemory");
  }
  return !trace->name || kpn_file_prepare(trace) ? 0 : kpn_refuse(KPN_REFUSED, "27 Write");
}

/* A FIFO is open at once, and its first byte comes when it may. */
static int open_input(struct stream *stream, unsigned c) {
  struct kpn_input *input = calloc(1, sizeof *input);
  stream->inputs[c] = input;
  if (!input) {
    return kpn_refuse(KPN_LACKS_MEMORY, "42 NoMemory");
  }
  input->format = kpn_format_of_end(&stream->run->words, plan_of(stream)->channels[c].name);
  input->is_sound = stream->run->words.is_sound;
  input->channels = stream->run->words.channels ? (unsigned)stream->run->words.channels : 1;
  for (size_t k = 0; k < stream->run->words.source_count; k++) {
    const struct kpn_end *source = &stream->run->words.sources[k];
    if (source->channel == c) {
      input->is_picked = source->is_picked && input->format.is_wav;
      input->picked = source->picked;
    }
  }
  input->waits_for_writer = !is_standard(stream, c) && kpn_is_fifo(stream->files[c]);
  input->from = is_standard(stream, c) ? STDIN_FILENO
                                       : open(stream->files[c], O_RDONLY | O_CLOEXEC |
                                                                    (input->waits_for_writer ? O_NONBLOCK : 0));
  input->is_open = input->from >= 0;
  return input->is_open ? 0 : kpn_refuse(KPN_REFUSED, "26 Read");
}

/* Whether no other stream writes the plain file that this may be. It stays locked. */
static bool is_only_writer(int to) {
  struct stat told;
  return fstat(to, &told) != 0 || !S_ISREG(told.st_mode) || flock(to, LOCK_EX | LOCK_NB) == 0 || errno != EWOULDBLOCK;
}

static int open_output(struct stream *stream, unsigned c) {
  struct kpn_output *output = calloc(1, sizeof *output);
  stream->outputs[c] = output;
  if (!output) {
    return kpn_refuse(KPN_LACKS_MEMORY, "42 NoMemory");
  }
  output->format = kpn_format_of_end(&stream->run->words, plan_of(stream)->channels[c].name);
  output->clips = stream->run->words.clips;
  output->start = -1;
  if (output->format.is_wav) {
    const struct kpn_words *words = &stream->run->words;
    kpn_write_head(output->bytes, output->format, words->rate ? (uint32_t)words->rate : KPN_USUAL_RATE,
                   words->channels ? (uint16_t)words->channels : 1);
    output->head = output->length = KPN_HEAD_BYTES;
  }
  stream->run->sinks_short++;
  if (is_standard(stream, c)) {
    output->to = STDOUT_FILENO;
    return 0;
  }
  if (kpn_is_fifo(stream->files[c])) {
    output->opening = kpn_begin_opening(stream->files[c]);
    return output->opening ? 0 : kpn_refuse(KPN_LACKS_MEMORY, "42 NoMemory");
  }
  output->to = open(stream->files[c], O_WRONLY | O_CREAT | O_CLOEXEC, 0666);
  return output->to >= 0 && is_only_writer(output->to) ? 0 : kpn_refuse(KPN_REFUSED, "27 Write");
}

/* Removes what a plain output held, once all ends are open. Standard output is written where it stands. */
static int empty_output(const struct kpn_output *output) {
  struct stat told;
  bool is_held = output->to != STDOUT_FILENO && !output->opening && fstat(output->to, &told) == 0 &&
                 S_ISREG(told.st_mode);
  return !is_held || ftruncate(output->to, 0) == 0 ? 0 : kpn_refuse(KPN_REFUSED, "27 Write");
}

int kpn_open_ends(struct stream *stream) {
  size_t count = plan_of(stream)->channel_count;
  int status = find_ends(stream);
  status = status ? status : open_trace(stream);
  for (unsigned c = 0; c < count && status == 0; c++) {
    status = is_end(stream, c, KPN_SOURCE) ? open_input(stream, c) : 0;
  }
  for (unsigned c = 0; c < count && status == 0; c++) {
    status = is_end(stream, c, KPN_SINK) ? open_output(stream, c) : 0;
  }
  for (unsigned c = 0; c < count && status == 0; c++) {
    status = stream->outputs[c] ? empty_output(stream->outputs[c]) : 0;
  }
  if (status == 0 && stream->run->words.is_sound) {
    kpn_begin_sound(stream);
  }
  return status;
}
