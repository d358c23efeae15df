/* Lists of words, texts that grow, and the end of all ranks at once. */
#include "common.h"

#include <stdarg.h>
#include <stdio.h>
#include <stdlib.h>
#include <string.h>

#include "../include/kpn.h"

static void nothing(void) {}

void (*kpn_end_all)(int status) = exit;
void (*kpn_still_here)(void) = nothing;

_Noreturn void kpn_give_up(int status, const char *format, ...) {
  va_list rest;
  va_start(rest, format);
  vfprintf(stderr, format, rest);
  va_end(rest);
  fputc('\n', stderr);
  fflush(stderr);
  kpn_end_all(status);
  abort();
}

void kpn_expect(uint32_t fault, const char *call) {
  if (fault == KPN_OK) {
    return;
  }
  if (fault == KPN_NO_MEMORY || fault == KPN_TEXT_NO_MEMORY) {
    kpn_give_up(STATUS_NO_MEMORY, "kpn: %u %s", (unsigned)fault, kpn_fault_name(fault));
  }
  kpn_give_up(STATUS_WRONG, "kpn-mpi: %s has returned %u %s", call, (unsigned)fault, kpn_fault_name(fault));
}

static void *there(void *made) {
  if (!made) {
    kpn_give_up(STATUS_NO_MEMORY, "kpn: 42 NoMemory");
  }
  return made;
}

void *kpn_memory(size_t size) {
  return there(calloc(1, size ? size : 1));
}

/* Room for this many elements, and for twice as many as there were. */
static void *grown(void *at, size_t *room, size_t wanted, size_t size) {
  if (wanted <= *room) {
    return at;
  }
  const size_t more = wanted > 2 * *room ? wanted : 2 * *room;
  at = there(realloc(at, more * size));
  *room = more;
  return at;
}

int64_t *kpn_extend(struct kpn_words *list, size_t count) {
  const size_t wanted = list->count + count;
  list->at = grown(list->at, &list->room, wanted ? wanted : 1, sizeof *list->at);
  list->count = wanted;
  return list->at + list->count - count;
}

void kpn_append(struct kpn_words *list, int64_t word) {
  *kpn_extend(list, 1) = word;
}

void kpn_empty(struct kpn_words *list) {
  list->count = 0;
}

void kpn_free_words(struct kpn_words *list) {
  free(list->at);
  *list = (struct kpn_words){0};
}

char *kpn_extend_text(struct kpn_text *into, size_t count) {
  into->at = grown(into->at, &into->room, into->length + count + 1, 1);
  into->length += count;
  into->at[into->length] = 0;
  return into->at + into->length - count;
}

void kpn_add_bytes(struct kpn_text *into, const char *at, size_t count) {
  if (count) {
    memcpy(kpn_extend_text(into, count), at, count);
  }
}

void kpn_print_to(struct kpn_text *into, const char *format, ...) {
  va_list rest, again;
  va_start(rest, format);
  va_copy(again, rest);
  const size_t length = (size_t)vsnprintf(NULL, 0, format, rest);
  vsnprintf(kpn_extend_text(into, length), length + 1, format, again);
  va_end(again);
  va_end(rest);
}

void kpn_free_text(struct kpn_text *of) {
  free(of->at);
  *of = (struct kpn_text){0};
}

char *kpn_print_number(char *at, int64_t number) {
  char digits[MOST_DIGITS];
  int count = 0;
  uint64_t left = number < 0 ? 0 - (uint64_t)number : (uint64_t)number;
  if (number < 0) {
    *at++ = '-';
  }
  do {
    digits[count++] = (char)('0' + left % 10);
    left /= 10;
  } while (left);
  while (count) {
    *at++ = digits[--count];
  }
  return at;
}
