/* Reads descriptions and item files as `kpn run` does, and stores sinks and traces. */
#define _POSIX_C_SOURCE 200809L
#include "files.h"

#include <errno.h>
#include <stdio.h>
#include <string.h>
#include <sys/stat.h>
#include <unistd.h>

#include "../include/kpn.h"

enum { LARGEST_FILE = 268435456 };

static const struct kpn_refusal NOTHING, CANT_READ = {26, false, 0}, CANT_WRITE = {27, false, 0};

int kpn_tell_refusal(struct kpn_refusal of) {
  if (of.number == NO_OUTPUT || of.number == SHARED_INPUT) {
    const char *wanted =
        of.number == NO_OUTPUT ? NO_OUTPUT_TEXT : "--source NAME=IN, a plain file if two sources have it";
    fprintf(stderr, "kpn: usage: %s\n", wanted);
    return STATUS_USAGE;
  }
  static const char *const names[] = {[25] = "BadItem", [26] = "Read", [27] = "Write"};
  const bool is_of_files = of.number >= 25 && of.number <= 27;
  fprintf(stderr, "kpn: %u %s", of.number, is_of_files ? names[of.number] : kpn_fault_name(of.number));
  if (of.has_place) {
    fprintf(stderr, " at %zu", of.place);
  }
  fputc('\n', stderr);
  return of.number == KPN_NO_MEMORY || of.number == KPN_TEXT_NO_MEMORY ? STATUS_NO_MEMORY : STATUS_REFUSED;
}

struct kpn_refusal kpn_read_file(const char *path, size_t most, struct kpn_text *into) {
  enum { PIECE = 65536 };
  size_t count = 1;
  FILE *file = fopen(path, "rb");
  if (!file) {
    return CANT_READ;
  }
  while (count && into->length <= most) {
    count = fread(kpn_extend_text(into, PIECE), 1, PIECE, file);
    into->length -= PIECE - count;
  }
  into->at[into->length] = 0;
  const bool failed = ferror(file);
  fclose(file);
  return failed || into->length > most ? CANT_READ : NOTHING;
}

/* Reads the item that a line spells: an optional `-` and 1 to 19 digits. */
static bool read_item(const char *at, const char *end, int64_t *item) {
  const bool is_negative = at < end && *at == '-';
  at += is_negative;
  if (at == end || end - at > 19) {
    return false;
  }
  uint64_t found = 0;
  for (; at < end; at++) {
    if (*at < '0' || *at > '9') {
      return false;
    }
    found = 10 * found + (uint64_t)(*at - '0');
  }
  if (found > (uint64_t)INT64_MAX + is_negative) {
    return false;
  }
  *item = is_negative ? (int64_t)(0 - found) : (int64_t)found;
  return true;
}

struct kpn_refusal kpn_read_items(const char *path, struct kpn_words *into) {
  struct kpn_text read = {0};
  struct kpn_refusal refused = kpn_read_file(path, LARGEST_FILE, &read);
  if (refused.number) {
    kpn_free_text(&read);
    return refused;
  }
  const char *end = read.at + read.length;
  size_t line = 0;
  for (const char *at = read.at; !refused.number && at < end; line++) {
    const char *stop = memchr(at, '\n', (size_t)(end - at)), *last = stop ? stop : end;
    int64_t item = 0;
    if (stop && last > at && last[-1] == '\r') {
      last--;
    }
    if (!read_item(at, last, &item)) {
      refused = (struct kpn_refusal){25, true, line + 1};
    }
    kpn_append(into, item);
    at = stop ? stop + 1 : end;
  }
  kpn_free_text(&read);
  return refused;
}

struct kpn_refusal kpn_open_output(const char *path, struct kpn_file *made) {
  *made = (struct kpn_file){.name = path};
  return kpn_file_prepare(made) ? NOTHING : CANT_WRITE;
}

bool kpn_write_items(kpn_writer *writer, void *to, char before, const int64_t *items, size_t count, char behind) {
  enum { AT_ONCE = 1024 };
  char buffer[AT_ONCE * (MOST_DIGITS + 2)];
  for (size_t done = 0; done < count;) {
    char *at = buffer;
    for (size_t k = 0; k < AT_ONCE && done < count; k++) {
      if (before) {
        *at++ = before;
      }
      at = kpn_print_number(at, items[done++]);
      if (behind) {
        *at++ = behind;
      }
    }
    if (!writer(to, buffer, (size_t)(at - buffer))) {
      return false;
    }
    kpn_still_here();
  }
  return true;
}

struct kpn_refusal kpn_store_items(struct kpn_file *to, const int64_t *items, size_t count) {
  const bool works = kpn_file_write(to, "", 0) && kpn_write_items(kpn_file_write, to, 0, items, count, '\n');
  return works && kpn_file_store(to) ? NOTHING : CANT_WRITE;
}

struct kpn_refusal kpn_store_text(struct kpn_file *to, const struct kpn_text *of) {
  enum { PIECE = 65536 };
  bool works = true;
  for (size_t done = 0; works && done < of->length; done += PIECE) {
    works = kpn_file_write(to, of->at + done, of->length - done < PIECE ? of->length - done : PIECE);
    kpn_still_here();
  }
  return works && kpn_file_store(to) ? NOTHING : CANT_WRITE;
}

void kpn_remove_old(const struct kpn_file *of) {
  if (of->target) {
    unlink(of->target);
  }
}

struct kpn_refusal kpn_make_folder(const char *path) {
  return !mkdir(path, 0777) || errno == EEXIST ? NOTHING : CANT_WRITE;
}
