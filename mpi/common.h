/* What all parts of kpn-mpi use: lists of words, texts that grow, and the end of all ranks at once. */
#ifndef KPN_MPI_COMMON_H
#define KPN_MPI_COMMON_H

#include <stdbool.h>
#include <stddef.h>
#include <stdint.h>

/* A list of words of 64 bits. */
struct kpn_words {
  int64_t *at;
  size_t count, room;
};

/* A text that grows. It ends with a 0, which its length does not count. */
struct kpn_text {
  char *at;
  size_t length, room;
};

/* The statuses that docs/ERRORS.md has, and those of kpn-mpi alone. */
enum {
  STATUS_REFUSED = 1,
  STATUS_USAGE = 2,
  STATUS_CLOGGED = 3,
  STATUS_JAMMED = 4,
  STATUS_STOPPED = 5,
  STATUS_NO_MEMORY = 6,
  STATUS_NOT_CERTIFIED = 9,
  STATUS_RANK_DIED = 10, /* another rank has died, or the run was ended from outside */
  STATUS_SILENT = 11,    /* nothing was heard of a rank for the time of --timeout */
  STATUS_WRONG = 70      /* a call of libkpn has returned a fault that it can't have here */
};

/* Ends this rank and all others with a status. The program says how. */
extern void (*kpn_end_all)(int status);

/* Writes a line to standard error, and ends all ranks. */
_Noreturn void kpn_give_up(int status, const char *format, ...);

/* Called now and then by what takes long. The program says what that does. */
extern void (*kpn_still_here)(void);

/* Ends all ranks if a call of libkpn has returned a fault. */
void kpn_expect(uint32_t fault, const char *call);

/* Memory that is there: all ranks end if there is none. */
void *kpn_memory(size_t size);

/* Makes a list longer by this many words, and returns the place of the first one. */
int64_t *kpn_extend(struct kpn_words *list, size_t count);
void kpn_append(struct kpn_words *list, int64_t word);
void kpn_empty(struct kpn_words *list);
void kpn_free_words(struct kpn_words *list);

/* Makes a text longer by this many bytes, and returns the place of the first one. */
char *kpn_extend_text(struct kpn_text *into, size_t count);
/* Appends bytes as they are: a comment of a description may have a 0 in it. */
void kpn_add_bytes(struct kpn_text *into, const char *at, size_t count);
void kpn_print_to(struct kpn_text *into, const char *format, ...);
void kpn_free_text(struct kpn_text *of);

/* Writes a number where there is room for MOST_DIGITS bytes, and returns the place after it. */
enum { MOST_DIGITS = 20 };
char *kpn_print_number(char *at, int64_t number);

#endif
