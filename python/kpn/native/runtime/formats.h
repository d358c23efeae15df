/* formats.h: how the inputs and outputs of a stream write items. */
#ifndef KPN_FORMATS_H
#define KPN_FORMATS_H

#include <stdbool.h>
#include <stddef.h>
#include <stdint.h>

/* Lines, or samples: a byte, two's complement with the lowest byte first, and floats of 4 bytes. */
enum kpn_sample { KPN_LINES, KPN_U8, KPN_S8, KPN_S16, KPN_S24, KPN_S32, KPN_S64, KPN_F32, KPN_SAMPLES };

struct kpn_format {
  enum kpn_sample sample; /* of a WAV file that is read, what its head says */
  unsigned power;         /* of a float: an item n is n / 2^power */
  bool is_wav;
};

/* The formats as an option lists them. */
#define KPN_FORMAT_NAMES "lines, u8, s8, s16le, s24le, s32le, s64le, f32le, f32le:POWER, wav, wav16 or wav24"

/* The format of a name. False says that there is none. */
bool kpn_format_of_name(const char *name, struct kpn_format *format);

/* How many bytes a sample has; 0 for lines. */
size_t kpn_sample_width(struct kpn_format format);

/* Reads a sample. False says that it writes no item. */
bool kpn_read_sample(struct kpn_format format, const char *bytes, int64_t *item);

/* The nearest item that the format can write: the item itself, if it can write that. */
int64_t kpn_nearest_item(struct kpn_format format, int64_t item);

/* Writes the sample of such an item, and gives where it ends. */
char *kpn_write_sample(struct kpn_format format, char *to, int64_t item);

/* From a size of this many bytes on, a chunk `data` has what comes; that is what a written head says. */
#define KPN_UNCOUNTED UINT32_C(0x7fffe000)

/* The head of a WAV file as far as it was read. */
struct kpn_wav {
  bool has_riff, has_sample, is_whole;
  uint32_t size;           /* of the whole file from byte 8 on, as it says */
  size_t at, skipped, bad; /* the next byte; how many belong to a chunk that says nothing; a place that is wrong, or 0 */
  size_t channels_at;      /* the place that says how many channels there are */
  unsigned chunks, channels;
  uint32_t rate;           /* samples a second of each channel */
  uint64_t left;           /* the bytes of samples that are left, or a large number if nobody has counted them */
};

/* What the bytes after the head that was read tell. */
enum kpn_head { KPN_HEAD_OPEN, KPN_HEAD_BAD, KPN_HEAD_WHOLE };

/* Reads on in a head, and tells how many bytes were used. A bad place is in `bad`. */
enum kpn_head kpn_read_head(struct kpn_wav *wav, enum kpn_sample *sample, const char *bytes, size_t length,
                            size_t *used);

/* Whether these bytes are all that stands after the last sample: none that is counted; or, where nobody has counted,
   none but a byte 0 that fills up an odd number of bytes. */
bool kpn_is_wav_end(const struct kpn_wav *wav, struct kpn_format format, const char *bytes, size_t length);

/* Writes the head of a WAV file whose sizes are not known. */
enum { KPN_HEAD_BYTES = 44 };
void kpn_write_head(char *to, struct kpn_format format, uint32_t rate, uint16_t channels);

#endif
