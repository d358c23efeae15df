/* Files that a run reads and stores. */
#ifndef KPN_MPI_FILES_H
#define KPN_MPI_FILES_H

#include "../python/kpn/native/runtime/files.h"
#include "common.h"

/* What is refused, as `kpn` reports it: its number is 0 if nothing is. */
struct kpn_refusal {
  unsigned number;
  bool has_place;
  size_t place;
};

/* The numbers of an OUT that is an input or another output, and of a pipe or a device that two sources have. They are
   told as wrong words. */
enum { NO_OUTPUT = 1000, SHARED_INPUT };
#define NO_OUTPUT_TEXT "--sink NAME=OUT, a file that is no input and no other output"

/* Writes the line of a refusal to standard error, and returns the status. */
int kpn_tell_refusal(struct kpn_refusal of);

/* Reads a file of at most `most` bytes. */
struct kpn_refusal kpn_read_file(const char *path, size_t most, struct kpn_text *into);

/* Reads an item file. */
struct kpn_refusal kpn_read_items(const char *path, struct kpn_words *into);

/* Writes some bytes, and returns whether that worked. */
typedef bool kpn_writer(void *to, const char *at, size_t length);

/* Writes items, with a character before and after each if it is not 0. Returns whether that worked. */
bool kpn_write_items(kpn_writer *writer, void *to, char before, const int64_t *items, size_t count, char behind);

/* Opens a file that is stored whole or not at all, unless it is a device. It keeps the path. */
struct kpn_refusal kpn_open_output(const char *path, struct kpn_file *made);
struct kpn_refusal kpn_store_items(struct kpn_file *to, const int64_t *items, size_t count);
struct kpn_refusal kpn_store_text(struct kpn_file *to, const struct kpn_text *of);

/* Removes what an earlier run has stored in the place of an open output, if it can. */
void kpn_remove_old(const struct kpn_file *of);

struct kpn_refusal kpn_make_folder(const char *path);

#endif
