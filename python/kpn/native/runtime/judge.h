/* judge.h: `kpn`, which judges a run as a process of its own, and the files that it reads. */
#ifndef KPN_JUDGE_H
#define KPN_JUDGE_H

#include <stdbool.h>
#include <stddef.h>
#include <stdint.h>
#include <stdio.h>
#include <sys/types.h>

/* Opens a file in TMPDIR that has no name any more, so that a killed program leaves none; stores a text in one. It is
   -1 if that fails. */
int kpn_open_nameless(void);
int kpn_store_nameless(const char *text, size_t length);

/* Writes the word by which the judge reads such a file, and returns it; closes one if it is open. */
enum { KPN_NAMELESS = 24 };
char *kpn_name_nameless(int file, char *word);
void kpn_close_nameless(int file);

/* Becomes `kpn` with these words, or says why not and exits. */
void kpn_become(char *const *words) __attribute__((noreturn));

/* Starts `kpn` with these words, and gives what it writes; reads the rest of that, and gives its status. */
FILE *kpn_start_judge(char *const *words, pid_t *child);
int kpn_finish_judge(FILE *from, pid_t child);

/* Reads a word up to a space or a line feed, and tells which. */
int kpn_next_word(FILE *from, char *word, size_t room);

/* How many items a journal has, and with how many of a list it begins. */
struct kpn_compared {
  size_t length, same;
};

/* Reads the line of a channel in an answer, and compares its journal with a list; false says that there is no line. */
bool kpn_compare_journal(FILE *from, const int64_t *items, size_t count, struct kpn_compared *found);

#endif
