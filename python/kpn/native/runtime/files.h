/* files.h: the files that a run stores. */
#ifndef KPN_FILES_H
#define KPN_FILES_H

#include <stdbool.h>
#include <stddef.h>

/* An output. A plain file is written to a part file, which takes its place; a device is written directly. */
struct kpn_file {
  const char *name;
  char *target, *part;   /* behind all links; null if it is a device */
  int to;
  bool is_open, is_begun; /* something was written */
};

/* Opens standard input, output and error where they are closed, so that no file gets their numbers. They are a folder
   then: reads and writes fail, also by a path. */
void kpn_fill_standard(void);

/* Whether an output would be written over another file. `others` are files that are read or written. */
bool kpn_file_clashes(const char *name, const char *const *others, size_t count, bool are_outputs);

/* Whether an output would be written over the plain file of another name; over that of standard input, output or
   error. */
bool kpn_file_is_same(const char *name, const char *other);
bool kpn_file_is_standard(const char *name);

/* Whether two names lead to one pipe, terminal or other device, whose bytes go to one reader only. */
bool kpn_file_is_one_device(const char *name, const char *other);

/* Makes an output ready, writes to it, and puts it in its place. False says that a device has failed. */
bool kpn_file_prepare(struct kpn_file *file);
bool kpn_file_write(void *file, const char *text, size_t length);
bool kpn_file_store(struct kpn_file *file);

/* Drops what was not stored. */
void kpn_file_drop(struct kpn_file *file);

/* Whether a read or write that has failed may be tried again: after a signal, or once a device that does not wait has
   something, or room. */
bool kpn_may_retry(int device, short events);

/* Writes all bytes to a descriptor, or as many as it takes. */
bool kpn_write_all(int to, const char *text, size_t length);
size_t kpn_write_most(int to, const char *text, size_t length);

#endif
