/* sound.c: what --sound asks of WAV files beside their channels. */
#define _GNU_SOURCE
#include <fcntl.h>
#include <string.h>
#include <sys/stat.h>
#include <unistd.h>

#include "stream.h"

/* Where the sizes are in a head that is written, and what is in front of the samples without the first 8 bytes. */
enum { SIZE_AT = 4, SAMPLES_AT = 40, IN_FRONT = 36 };

static const struct kpn_plan *plan_of(const struct stream *stream) {
  return stream->run->network.plan;
}

/* The only WAV file that is read, or the number of channels. */
static unsigned only_source(const struct stream *stream) {
  unsigned found = (unsigned)plan_of(stream)->channel_count;
  for (unsigned c = 0; c < plan_of(stream)->channel_count; c++) {
    if (stream->inputs[c] && stream->inputs[c]->format.is_wav) {
      if (found < plan_of(stream)->channel_count) {
        return (unsigned)plan_of(stream)->channel_count;
      }
      found = c;
    }
  }
  return found;
}

/* The samples a second of a sink, if `rate` come from a source; 0 if the rates of the network are not known. */
static uint64_t rate_at(const struct stream *stream, unsigned sink, unsigned source, uint64_t rate) {
  const uint32_t *periods = plan_of(stream)->periods;
  if (!periods || !periods[sink] || !periods[source]) {
    return 0;
  }
  uint64_t scaled = rate * periods[sink];
  return scaled % periods[source] == 0 ? scaled / periods[source] : 0;
}

static void set_rate(struct stream *stream, unsigned sink, uint64_t rate) {
  struct kpn_output *output = stream->outputs[sink];
  const struct kpn_words *words = &stream->run->words;
  if (rate == 0 || rate > UINT32_MAX) {
    kpn_refuse(0, "how many samples a second the sink `%s` has is not known: it says %d, without `--rate`",
               plan_of(stream)->channels[sink].name, KPN_USUAL_RATE);
    return;
  }
  kpn_write_head(output->bytes, output->format, (uint32_t)rate, words->channels ? (uint16_t)words->channels : 1);
}

static bool writes_wav(const struct stream *stream) {
  for (unsigned c = 0; c < plan_of(stream)->channel_count; c++) {
    if (stream->outputs[c] && stream->outputs[c]->format.is_wav) {
      return true;
    }
  }
  return false;
}

/* Reads the head of a source, and gives its rate; 0 if it is wrong, which is told once a process asks for an item. */
static uint64_t rate_of(struct stream *stream, unsigned source) {
  struct kpn_input *input = stream->inputs[source];
  enum kpn_input_state state = kpn_pass_head(input);
  while (state == KPN_NO_ITEM_YET && kpn_read_more(input)) {
    state = kpn_pass_head(input);
  }
  return state == KPN_ITEM ? input->wav.rate : 0;
}

/* Notes where a plain output begins. What is appended can't be patched. */
static void note_start(struct kpn_output *output) {
  struct stat told;
  bool is_plain = !output->opening && fstat(output->to, &told) == 0 && S_ISREG(told.st_mode);
  if (is_plain && !(fcntl(output->to, F_GETFL) & O_APPEND)) {
    output->start = lseek(output->to, 0, SEEK_CUR);
  }
}

void kpn_begin_sound(struct stream *stream) {
  unsigned source = only_source(stream);
  bool takes_rate = !stream->run->words.rate && writes_wav(stream) && source < plan_of(stream)->channel_count;
  uint64_t rate = takes_rate ? rate_of(stream, source) : 0;
  for (unsigned c = 0; c < plan_of(stream)->channel_count; c++) {
    if (stream->outputs[c] && stream->outputs[c]->format.is_wav) {
      note_start(stream->outputs[c]);
      if (rate > 0) {
        set_rate(stream, c, rate_at(stream, c, source, rate));
      }
    }
  }
}

static bool put_size(const struct kpn_output *output, off_t at, uint64_t size) {
  char bytes[4];
  for (unsigned k = 0; k < sizeof bytes; k++) {
    bytes[k] = (char)(size >> (8 * k));
  }
  return pwrite(output->to, bytes, sizeof bytes, output->start + at) == (ssize_t)sizeof bytes;
}

void kpn_end_sound(struct stream *stream) {
  for (unsigned c = 0; c < plan_of(stream)->channel_count; c++) {
    struct kpn_output *output = stream->outputs[c];
    if (!output || !output->format.is_wav || output->start < 0 || output->head > 0) {
      continue;
    }
    uint64_t size = output->taken * kpn_sample_width(output->format);
    bool is_filled = size % 2 == 1 && pwrite(output->to, "", 1, output->start + KPN_HEAD_BYTES + (off_t)size) == 1;
    if (size < KPN_UNCOUNTED && !(put_size(output, SIZE_AT, IN_FRONT + size + is_filled) &&
                                  put_size(output, SAMPLES_AT, size))) {
      kpn_refuse(0, "the sizes in the head of the sink `%s` could not be written",
                 plan_of(stream)->channels[c].name);
    }
  }
}
