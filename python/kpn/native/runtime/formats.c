#include "formats.h"

#include <string.h>

#include "items.h"

/* Of a float: the first bit of a significand, which is not written, and the sign. */
#define FIRST_BIT ((uint32_t)1 << 23)
#define SIGN ((uint32_t)1 << 31)

/* Of an exponent to which the power is added: where the significand is as many items, the largest one of 64 bits, and the
   least one that is not rounded to 0 for sure; what is no number or infinite has the last exponent. */
enum { WHOLE = 150, LARGEST = 190, SMALLEST = 124, LAST_EXPONENT = 255, USUAL_POWER = 15, MOST_POWER = 62 };

struct row {
  const char *name;
  size_t width;
  int64_t least, most;
};

static const struct row ROWS[KPN_SAMPLES] = {
    [KPN_LINES] = {"lines", 0, INT64_MIN, INT64_MAX}, [KPN_U8] = {"u8", 1, 0, UINT8_MAX},
    [KPN_S8] = {"s8", 1, INT8_MIN, INT8_MAX},         [KPN_S16] = {"s16le", 2, INT16_MIN, INT16_MAX},
    [KPN_S24] = {"s24le", 3, -8388608, 8388607},      [KPN_S32] = {"s32le", 4, INT32_MIN, INT32_MAX},
    [KPN_S64] = {"s64le", 8, INT64_MIN, INT64_MAX},
    // A greater item would be rounded to 2^63, which is read as no item.
    [KPN_F32] = {"f32le", 4, INT64_MIN, INT64_MAX - (INT64_C(1) << 38)}};

bool kpn_format_of_name(const char *name, struct kpn_format *format) {
  static const struct {
    const char *name;
    enum kpn_sample sample;
  } wavs[] = {{"wav", KPN_S16}, {"wav16", KPN_S16}, {"wav24", KPN_S24}};
  int64_t power;
  *format = (struct kpn_format){.power = USUAL_POWER};
  for (size_t k = 0; k < sizeof wavs / sizeof *wavs; k++) {
    if (strcmp(name, wavs[k].name) == 0) {
      format->sample = wavs[k].sample;
      return format->is_wav = true;
    }
  }
  if (strncmp(name, "f32le:", 6) == 0) {
    bool is_power = kpn_read_item(name + 6, strlen(name + 6), &power) && power >= 0 && power <= MOST_POWER;
    format->sample = KPN_F32;
    format->power = is_power ? (unsigned)power : USUAL_POWER;
    return is_power;
  }
  while (format->sample < KPN_SAMPLES && strcmp(name, ROWS[format->sample].name) != 0) {
    format->sample++;
  }
  return format->sample < KPN_SAMPLES;
}

size_t kpn_sample_width(struct kpn_format format) {
  return ROWS[format.sample].width;
}

/* A number divided by a power of two, rounded to the nearest number, and to the even one of two that are nearest. */
static uint64_t rounded(uint64_t number, unsigned power) {
  uint64_t unit = (uint64_t)1 << power, whole = number >> power, rest = number & (unit - 1);
  return whole + (2 * rest > unit || (2 * rest == unit && whole % 2 == 1));
}

/* The item of the float with these bits. */
static bool item_of_float(unsigned power, uint32_t bits, int64_t *item) {
  unsigned exponent = bits / FIRST_BIT % (LAST_EXPONENT + 1), scale = exponent + power;
  uint64_t significand = bits % FIRST_BIT + FIRST_BIT, is_negative = bits >= SIGN, size = 0;
  if (exponent == LAST_EXPONENT || (exponent > 0 && scale > LARGEST)) {
    return false;
  }
  if (exponent > 0 && scale >= WHOLE) {
    size = significand << (scale - WHOLE);
  } else if (exponent > 0 && scale >= SMALLEST) {
    size = rounded(significand, WHOLE - scale);
  }
  if (size > INT64_MAX + is_negative) {
    return false;
  }
  *item = (int64_t)(is_negative ? 0 - size : size);
  return true;
}

/* The bits of the float for an item. A significand that is rounded up to 2^24 counts for the exponent. */
static uint32_t float_of_item(unsigned power, int64_t item) {
  uint64_t size = item < 0 ? 0 - (uint64_t)item : (uint64_t)item;
  uint32_t sign = item < 0 ? SIGN : 0;
  if (size == 0) {
    return 0;
  }
  unsigned highest = 63 - (unsigned)__builtin_clzll(size);
  uint64_t significand = highest < 23 ? size << (23 - highest) : rounded(size, highest - 23);
  return sign + (highest + 126 - power) * FIRST_BIT + (uint32_t)significand;
}

static uint64_t number_at(const char *bytes, size_t width) {
  uint64_t value = 0;
  for (size_t k = width; k-- > 0;) {
    value = value << 8 | (unsigned char)bytes[k];
  }
  return value;
}

bool kpn_read_sample(struct kpn_format format, const char *bytes, int64_t *item) {
  size_t width = kpn_sample_width(format);
  uint64_t value = number_at(bytes, width), sign = (uint64_t)1 << (8 * width - 1);
  if (format.sample == KPN_F32) {
    return item_of_float(format.power, (uint32_t)value, item);
  }
  *item = (int64_t)(format.sample == KPN_U8 ? value : (value ^ sign) - sign);
  return true;
}

int64_t kpn_nearest_item(struct kpn_format format, int64_t item) {
  const struct row *row = &ROWS[format.sample];
  return item < row->least ? row->least : item > row->most ? row->most : item;
}

static char *put_number(char *to, uint64_t value, size_t width) {
  for (size_t k = 0; k < width; k++) {
    *to++ = (char)(value >> (8 * k));
  }
  return to;
}

char *kpn_write_sample(struct kpn_format format, char *to, int64_t item) {
  uint64_t value = format.sample == KPN_F32 ? float_of_item(format.power, item) : (uint64_t)item;
  return put_number(to, value, kpn_sample_width(format));
}

/* ---- heads of WAV files */

/* The most bytes and chunks of a head. The places in a chunk `fmt `, and what it has to say: whole numbers, or
   by 16 bytes that kind. */
enum { MOST_HEAD = 1048576, MOST_CHUNKS = 1000, START = 12, CHUNK = 8, LONG_KIND = 40, SHORT_KIND = 16 };
static const char WHOLE_KIND[16] = {1, 0, 0, 0, 0, 0, 16, 0, (char)0x80, 0, 0, (char)0xaa, 0, 0x38, (char)0x9b, 0x71};

/* Reads what a chunk `fmt ` says; gives the first place in it that is wrong, or its size. */
static size_t read_kind(const char *bytes, size_t size, enum kpn_sample *sample) {
  static const enum kpn_sample samples[] = {[1] = KPN_U8, [2] = KPN_S16, [3] = KPN_S24};
  uint64_t tag = number_at(bytes, 2), channels = number_at(bytes + 2, 2), bits = number_at(bytes + 14, 2);
  bool is_long = tag == 0xfffe && size >= LONG_KIND && memcmp(bytes + 24, WHOLE_KIND, sizeof WHOLE_KIND) == 0;
  if (tag != 1 && !is_long) {
    return 0;
  }
  if (bits != 8 && bits != 16 && bits != 24) {
    return 14;
  }
  if (number_at(bytes + 12, 2) != channels * (bits / 8)) {
    return 12;
  }
  *sample = samples[bits / 8];
  return size;
}

static enum kpn_head bad(struct kpn_wav *wav, size_t place) {
  wav->bad = place;
  return KPN_HEAD_BAD;
}

/* Reads the first bytes of a file. */
static enum kpn_head read_start(struct kpn_wav *wav, const char *bytes, size_t *used) {
  if (memcmp(bytes, "RIFF", 4) != 0 || memcmp(bytes + 8, "WAVE", 4) != 0) {
    return bad(wav, memcmp(bytes, "RIFF", 4) != 0 ? 0 : 8);
  }
  wav->size = (uint32_t)number_at(bytes + 4, 4);
  wav->has_riff = true;
  *used = START;
  return KPN_HEAD_OPEN;
}

/* What the chunk `data` says, which begins at `at`. By a size of 0 there are no samples if the file says where it ends,
   and that is after this chunk. */
static enum kpn_head read_data(struct kpn_wav *wav, uint32_t size, size_t *used) {
  bool is_empty = size == 0 && wav->at < wav->size && wav->size < KPN_UNCOUNTED;
  if (!wav->has_sample) {
    return bad(wav, wav->at);
  }
  wav->left = is_empty ? 0 : size == 0 || size >= KPN_UNCOUNTED ? UINT64_MAX : size;
  wav->is_whole = true;
  *used = CHUNK;
  return KPN_HEAD_WHOLE;
}

/* Reads a chunk, of which these bytes are there; no bytes are used if they are too few. */
static enum kpn_head read_chunk(struct kpn_wav *wav, enum kpn_sample *sample, const char *bytes, size_t length,
                                size_t *used) {
  uint32_t size = (uint32_t)number_at(bytes + 4, 4);
  size_t whole = (size_t)size + size % 2, told = size < LONG_KIND ? SHORT_KIND : LONG_KIND;
  if (wav->chunks == MOST_CHUNKS) {
    return bad(wav, wav->at);
  }
  if (memcmp(bytes, "data", 4) == 0) {
    return read_data(wav, size, used);
  }
  bool is_kind = memcmp(bytes, "fmt ", 4) == 0;
  if (wav->at + CHUNK + whole > MOST_HEAD || (is_kind && size < SHORT_KIND)) {
    return bad(wav, wav->at + 4);
  }
  if (is_kind && length < CHUNK + told) {
    return KPN_HEAD_OPEN;
  }
  if (is_kind) {
    size_t end = read_kind(bytes + CHUNK, size, sample);
    wav->bad = end < size ? wav->at + CHUNK + end : 0;
    wav->channels_at = wav->at + CHUNK + 2;
    wav->channels = (unsigned)number_at(bytes + CHUNK + 2, 2);
    wav->rate = (uint32_t)number_at(bytes + CHUNK + 4, 4);
    wav->has_sample = true;
  }
  wav->chunks++;
  wav->skipped = whole;
  *used = CHUNK;
  return KPN_HEAD_OPEN;
}

enum kpn_head kpn_read_head(struct kpn_wav *wav, enum kpn_sample *sample, const char *bytes, size_t length,
                            size_t *used) {
  for (*used = 0;;) {
    size_t left = length - *used, step = 0;
    enum kpn_head found = KPN_HEAD_OPEN;
    if (wav->skipped > 0) {
      step = left < wav->skipped ? left : wav->skipped;
      wav->skipped -= step;
    } else if (wav->bad > 0) {
      return KPN_HEAD_BAD;
    } else if (left >= (size_t)(wav->has_riff ? CHUNK : START)) {
      found = wav->has_riff ? read_chunk(wav, sample, bytes + *used, left, &step)
                            : read_start(wav, bytes + *used, &step);
    }
    wav->at += step;
    *used += step;
    if (found != KPN_HEAD_OPEN || step == 0) {
      return found;
    }
  }
}

bool kpn_is_wav_end(const struct kpn_wav *wav, struct kpn_format format, const char *bytes, size_t length) {
  bool is_odd = kpn_sample_width(format) > 1 && wav->left % 2 == 0;
  return wav->left == 0 ||
         (wav->left >= KPN_UNCOUNTED && (length == 0 || (length == 1 && is_odd && bytes[0] == 0)));
}

void kpn_write_head(char *to, struct kpn_format format, uint32_t rate, uint16_t channels) {
  size_t width = kpn_sample_width(format), frame = channels * width;
  memcpy(to, "RIFF\x24\xf0\xff\x7fWAVEfmt \x10\0\0\0\1\0", 22);
  to = put_number(to + 22, channels, 2);
  to = put_number(to, rate, 4);
  to = put_number(to, (uint32_t)(rate * (uint64_t)frame), 4);
  to = put_number(to, (uint16_t)frame, 2);
  to = put_number(to, 8 * width, 2);
  memcpy(to, "data\x00\xf0\xff\x7f", CHUNK);
}
