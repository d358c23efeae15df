#define _GNU_SOURCE
#include "items.h"

#include <errno.h>
#include <fcntl.h>
#include <stdlib.h>
#include <string.h>
#include <unistd.h>

enum { MOST_BYTES = 268435456 };

bool kpn_items_add(struct kpn_text_items *list, const int64_t *items, size_t count) {
  if (count > list->room - list->count) {
    size_t room = list->room < 1024 ? 1024 : list->room;
    while (room - list->count < count) {
      room = room > SIZE_MAX / 32 ? 0 : 2 * room;
      if (room == 0) {
        return false;
      }
    }
    int64_t *larger = realloc(list->items, room * sizeof *larger);
    if (!larger) {
      return false;
    }
    list->items = larger;
    list->room = room;
  }
  memcpy(list->items + list->count, items, count * sizeof *items);
  list->count += count;
  return true;
}

bool kpn_read_item(const char *line, size_t length, int64_t *item) {
  bool is_negative = length > 0 && line[0] == '-';
  size_t digits = length - is_negative;
  uint64_t value = 0;
  if (digits < 1 || digits > 19) {
    return false;
  }
  for (size_t k = is_negative; k < length; k++) {
    unsigned digit = (unsigned char)line[k] - (unsigned)'0';
    if (digit > 9) {
      return false;
    }
    value = 10 * value + digit;
  }
  if (value > (uint64_t)INT64_MAX + is_negative) {
    return false;
  }
  *item = !is_negative ? (int64_t)value : value > (uint64_t)INT64_MAX ? INT64_MIN : -(int64_t)value;
  return true;
}

/* The bytes of a file, or null. */
static char *read_bytes(const char *file, size_t *length, enum kpn_read *found) {
  size_t room = 65536;
  int from = open(file, O_RDONLY | O_CLOEXEC);
  char *bytes = from < 0 ? NULL : malloc(room);
  *length = 0;
  *found = from < 0 ? KPN_READ_FAILED : KPN_READ_NO_MEMORY;
  while (bytes) {
    ssize_t count = read(from, bytes + *length, room - *length);
    if (count == 0) {
      close(from);
      *found = KPN_READ_OK;
      return bytes;
    }
    if (count > 0) {
      *length += (size_t)count;
    }
    if ((count < 0 && errno != EINTR) || *length > MOST_BYTES) {
      *found = KPN_READ_FAILED;
      break;
    }
    if (*length == room) {
      char *larger = realloc(bytes, 2 * room);
      if (!larger) {
        break;
      }
      bytes = larger;
      room *= 2;
    }
  }
  free(bytes);
  if (from >= 0) {
    close(from);
  }
  return NULL;
}

enum kpn_read kpn_read_items(const char *file, struct kpn_text_items *list, size_t *line) {
  size_t length, start = 0;
  enum kpn_read found;
  char *bytes = read_bytes(file, &length, &found);
  if (!bytes) {
    return found;
  }
  *line = 0;
  while (start < length && found == KPN_READ_OK) {
    const char *end = memchr(bytes + start, '\n', length - start);
    size_t size = end ? (size_t)(end - bytes) - start : length - start;
    size_t next = start + size + (end != NULL);
    int64_t item;
    ++*line;
    if (end && size > 0 && bytes[start + size - 1] == '\r') {
      size--;
    }
    if (!kpn_read_item(bytes + start, size, &item)) {
      found = KPN_READ_BAD_ITEM;
    } else if (!kpn_items_add(list, &item, 1)) {
      found = KPN_READ_NO_MEMORY;
    }
    start = next;
  }
  free(bytes);
  return found;
}
