/* stream.h: a stream, and which file each of its ends has. docs/STREAMS.md, "Options and ends", has the rules. */
#ifndef KPN_STREAM_H
#define KPN_STREAM_H

#include "beside.h"
#include "devices.h"

struct stream {
  struct kpn_run *run;
  struct kpn_input **inputs;   /* of each channel; null if it is no source */
  struct kpn_output **outputs; /* of each channel; null if it is no sink */
  const char **files;          /* of each channel: IN or OUT */
  struct kpn_opening *trace;   /* of a FIFO; else null */
  struct kpn_beside *beside;   /* with --check items, else null */
  bool has_differed;           /* from what runs beside it */
  size_t *most;                /* of each channel: the most items that lay unread; null without --stats */
  int status;                  /* of what is wrong with a device */
  char wrong[64];              /* its line, without the end */
  unsigned wrong_channel;
};

/* Samples a second of a written WAV file, if no option says another number. */
enum { KPN_USUAL_RATE = 48000 };

/* Finds the file of each end by the words, checks that those may be read and written, and opens all: first the trace,
   then the inputs, then the outputs. 0, or the status with which the stream is refused; then no file has changed. */
int kpn_open_ends(struct stream *stream);

/* What --sound asks for: written WAV files say the rate of the only one that is read, whose head is read first; at the
   end the sizes of plain ones are patched. */
void kpn_begin_sound(struct stream *stream);
void kpn_end_sound(struct stream *stream);

/* Notes how many items lie unread while their reader is there; writes the tables on standard error. */
void kpn_note_most(struct stream *stream);
void kpn_tell_stats(struct stream *stream);

#endif
