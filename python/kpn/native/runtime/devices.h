/* devices.h: the inputs and outputs of a stream. */
#ifndef KPN_DEVICES_H
#define KPN_DEVICES_H

#include <stdbool.h>
#include <stddef.h>
#include <stdint.h>
#include <sys/types.h>

#include "formats.h"
#include "program.h"

enum { KPN_DEVICE_BYTES = 65536 };

/* A FIFO that a thread opens to write: that waits for who opens its other end, who may wait for another end of this
   stream. */
struct kpn_opening;

struct kpn_input {
  int from;
  bool is_open, has_ended;   /* until its source is closed; no more bytes come */
  bool waits_for_writer;     /* a FIFO, where perhaps nobody writes yet */
  struct kpn_format format;
  struct kpn_wav wav;
  bool is_sound, is_picked;  /* by --sound: 8 bits are centred, and the channels have to fit; only one is read */
  unsigned channels, picked; /* how many there have to be; which one is read */
  size_t start, end, used;   /* the bytes that were not used yet; lines or samples so far */
  char bytes[KPN_DEVICE_BYTES];
};

struct kpn_output {
  int to;
  struct kpn_opening *opening; /* of a FIFO, until its first byte; else null */
  struct kpn_format format;
  size_t head;               /* bytes in front of the first item that were not written yet */
  bool clips;                /* it writes the nearest item that the format has */
  bool has_gone, has_failed; /* nobody reads it any more; it could not be written */
  bool has_misfit;           /* an item that the format does not have was to be written */
  int64_t misfit;
  off_t start;               /* where it began, if it is a plain file whose head may be patched, or else -1 */
  size_t length;
  uint64_t count, taken;     /* of the items that were given, and of those that the device took whole */
  char bytes[KPN_DEVICE_BYTES];
};

bool kpn_is_fifo(const char *name);

/* Begins to open a FIFO. If no thread can be made for it this waits. Null says that memory was refused. */
struct kpn_opening *kpn_begin_opening(const char *name);

/* Waits until it is open, and gives the descriptor, or -1. */
int kpn_finish_opening(struct kpn_opening *opening);

/* What an input has come to. */
enum kpn_input_state { KPN_ITEM, KPN_NO_ITEM_YET, KPN_NO_MORE_ITEMS, KPN_BAD_ITEM, KPN_BAD_HEAD, KPN_CUT_SAMPLE };

/* Takes an item from the bytes that are there. */
enum kpn_input_state kpn_next_item(struct kpn_input *input, int64_t *item);

/* Reads the head of a WAV file, as far as it is there. */
enum kpn_input_state kpn_pass_head(struct kpn_input *input);

/* Reads what there is, and waits for it if need be. False says that the device fails. */
bool kpn_read_more(struct kpn_input *input);

/* Writes an item later, and everything now. */
void kpn_give_item(struct kpn_output *output, int64_t item);
void kpn_flush(struct kpn_output *output);

/* Waits until somebody reads a FIFO to which nothing was written, so that its reader comes to an end. */
void kpn_end_output(struct kpn_output *output);

#endif
