#define _GNU_SOURCE
#include "judge.h"

#include <errno.h>
#include <fcntl.h>
#include <signal.h>
#include <stdlib.h>
#include <string.h>
#ifdef __linux__
#include <sys/prctl.h>
#endif
#include <sys/wait.h>
#include <unistd.h>

#include "files.h"

enum { PATH = 4096, WORD = 64 };

int kpn_open_nameless(void) {
  char path[PATH];
  const char *base = getenv("TMPDIR");
  int length = snprintf(path, sizeof path, "%s/kpn-XXXXXX", base && *base ? base : "/tmp");
  int file = length > 0 && length < PATH ? mkstemp(path) : -1;
  if (file >= 0) {
    unlink(path);
  }
  return file;
}

int kpn_store_nameless(const char *text, size_t length) {
  int file = kpn_open_nameless();
  if (file >= 0 && !kpn_write_all(file, text, length)) {
    close(file);
    return -1;
  }
  return file;
}

char *kpn_name_nameless(int file, char *word) {
  snprintf(word, KPN_NAMELESS, "/dev/fd/%d", file);
  return word;
}

void kpn_close_nameless(int file) {
  if (file >= 0) {
    close(file);
  }
}

void kpn_become(char *const *words) {
  execvp(words[0], words);
  fprintf(stderr, "kpn: %s does not run: %s; name the program `kpn` by KPN_PROGRAM\n", words[0], strerror(errno));
  _exit(127);
}

FILE *kpn_start_judge(char *const *words, pid_t *child) {
  int ends[2];
  if (pipe2(ends, O_CLOEXEC) != 0) {
    return NULL;
  }
  *child = fork();
  if (*child == 0) {
#ifdef __linux__
    prctl(PR_SET_PDEATHSIG, SIGKILL); /* it does not outlive who asks */
#endif
    dup2(ends[1], STDOUT_FILENO);
    kpn_become(words);
  }
  close(ends[1]);
  if (*child < 0) {
    close(ends[0]);
    return NULL;
  }
  return fdopen(ends[0], "r");
}

int kpn_finish_judge(FILE *from, pid_t child) {
  int status;
  while (getc_unlocked(from) != EOF) {
  }
  fclose(from);
  while (waitpid(child, &status, 0) < 0) {
    if (errno != EINTR) {
      return -1;
    }
  }
  return WIFEXITED(status) ? WEXITSTATUS(status) : -1;
}

int kpn_next_word(FILE *from, char *word, size_t room) {
  size_t length = 0;
  int byte = getc_unlocked(from);
  while (byte != ' ' && byte != '\n' && byte != EOF) {
    if (length + 1 < room) {
      word[length++] = (char)byte;
    }
    byte = getc_unlocked(from);
  }
  word[length] = 0;
  return byte;
}

bool kpn_compare_journal(FILE *from, const int64_t *items, size_t count, struct kpn_compared *found) {
  char word[WORD], *end;
  bool is_same = true;
  int last;
  *found = (struct kpn_compared){0};
  do { /* the name and the capacity */
    last = getc_unlocked(from);
  } while (last != ':' && last != EOF);
  last = last == ':' ? getc_unlocked(from) : EOF;
  while (last == ' ') {
    last = kpn_next_word(from, word, sizeof word);
    is_same = is_same && found->length < count && items[found->length] == strtoll(word, &end, 10) && !*end;
    found->length++;
    found->same += is_same;
  }
  return last != EOF;
}
