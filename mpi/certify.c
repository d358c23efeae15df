/* The judge is a process of its own. It reads files without names, which no killed run leaves behind. */
#define _POSIX_C_SOURCE 200809L
#include "certify.h"

#include <poll.h>
#include <stdarg.h>
#include <stdlib.h>
#include <string.h>
#include <unistd.h>

#include "../python/kpn/native/runtime/judge.h"

/* The file of the description, and then of each rank those of its part and its trace. */
enum { OF_RANK = 2, MOST_FILES = 1 + OF_RANK * MOST_RANKS, LONGEST_LINE = 128, PAUSE_IN_MILLISECONDS = 100 };
enum { LONGEST_TRACE = 268435456, PIECE = 65536 };

/* What the judge is asked. */
struct question {
  int files[MOST_FILES];
  int count;
  char names[MOST_FILES][KPN_NAMELESS];
  char *words[MOST_FILES + 5];
};

static int refuse(const char *format, ...) {
  va_list rest;
  va_start(rest, format);
  fputs("kpn: not certified: ", stderr);
  vfprintf(stderr, format, rest);
  fputc('\n', stderr);
  va_end(rest);
  return STATUS_NOT_CERTIFIED;
}

/* The program `kpn`: that of KPN_PROGRAM, that of the repository in which this one was made, or that of the PATH. */
static char *judging_program(void) {
  char *named = getenv("KPN_PROGRAM");
  if (named && *named) {
    return named;
  }
  return access(KPN_JUDGE, X_OK) ? "kpn" : KPN_JUDGE;
}

static bool add_file(struct question *to, const struct kpn_text *of) {
  const int file = kpn_store_nameless(of->at, of->length);
  kpn_still_here();
  to->files[to->count] = file;
  to->words[2 + to->count] = kpn_name_nameless(file, to->names[to->count]);
  to->count++;
  return file >= 0;
}

/* Puts the question, and returns whether all files could be stored. */
static bool put(struct question *to, const struct kpn_rank *of, const struct kpn_text *description) {
  bool works = add_file(to, description);
  for (int rank = 0; works && rank < of->cut->ranks; rank++) {
    works = add_file(to, &of->chief->parts[rank]) && add_file(to, &of->chief->traces[rank]);
  }
  to->words[0] = judging_program();
  to->words[1] = "join";
  to->words[2 + to->count] = "--steps";
  to->words[3 + to->count] = "1000000000";
  return works;
}

static void drop(struct question *of) {
  for (int k = 0; k < of->count; k++) {
    kpn_close_nameless(of->files[k]);
  }
  free(of);
}

/* Waits until the judge says something or ends. Other ranks hear meanwhile that this one is there. */
static void await(FILE *from) {
  struct pollfd asked = {.fd = fileno(from), .events = POLLIN};
  while (poll(&asked, 1, PAUSE_IN_MILLISECONDS) <= 0) {
    kpn_still_here();
  }
}

/* Tells what is not legal. The judge names a file, and this names its rank. */
static int refuse_line(const struct question *of, const char *line) {
  const char *file = strstr(line, "/dev/fd/");
  for (int k = 1; file && k < of->count; k++) {
    if (!strcmp(file, of->names[k])) {
      const char *what = k % OF_RANK ? "part" : "trace";
      return refuse("%.*sthe %s of rank %d", (int)(file - line), line, what, (k - 1) / OF_RANK);
    }
  }
  return refuse("%s", line);
}

/* Whether the report has the items that the journal of a sink says: all, as many as --take says or, of a run that was
   stopped, those that were taken by then. */
static bool is_given(const struct kpn_rank *of, size_t given, struct kpn_compared found) {
  const bool is_enough = of->settings.has_take && given == of->settings.take;
  return found.same == given && (given == found.length || is_enough || of->outcome == STOPPED);
}

/* Compares what `kpn join` says with the report. */
static int compare(FILE *from, const struct question *asked, const struct kpn_rank *of) {
  char line[LONGEST_LINE] = "", exact[LONGEST_LINE] = "";
  if (!fgets(line, sizeof line, from)) {
    return refuse("`kpn join` gives no answer");
  }
  line[strcspn(line, "\n")] = 0;
  if (strcmp(line, "legal")) {
    return refuse_line(asked, line);
  }
  const bool is_exact = fgets(exact, sizeof exact, from) && !strcmp(exact, "exact yes\n");
  for (size_t c = 0; c < of->net->channel_count; c++) {
    const struct kpn_words *items = &of->chief->items[c];
    struct kpn_compared found;
    const bool is_there = kpn_compare_journal(from, items->at, items->count, &found);
    if (!is_there || (of->net->channels[c].kind == SINK && !is_given(of, items->count, found))) {
      return refuse("the items of `%.*s` are not those of the traces", SHOWN(of->net->channels[c].name));
    }
    kpn_still_here();
  }
  if (is_exact != (of->outcome == ENDED) && of->outcome != ENOUGH && of->outcome != STOPPED) {
    return refuse("the outcome is not that of the traces");
  }
  fprintf(stderr, "kpn: certified: legal, %sexact\n", is_exact ? "" : "not ");
  return 0;
}

int kpn_certify(const struct kpn_rank *of, const struct kpn_text *description) {
  for (int rank = 0; rank < of->cut->ranks; rank++) {
    if (of->chief->traces[rank].length > LONGEST_TRACE) {
      return refuse("the trace of rank %d has more than %d bytes, which `kpn` does not read", rank, LONGEST_TRACE);
    }
  }
  struct question *asked = kpn_memory(sizeof *asked);
  pid_t child;
  int status;
  const bool is_put = put(asked, of, description);
  FILE *from = is_put ? kpn_start_judge(asked->words, &child) : NULL;
  if (from) {
    await(from);
    status = compare(from, asked, of);
    if (kpn_finish_judge(from, child) && !status) {
      status = refuse("`kpn join` has failed");
    }
  } else {
    status = refuse("%s", is_put ? "`kpn` cannot be started" : "the traces cannot be stored in TMPDIR");
  }
  drop(asked);
  return status;
}

bool kpn_make_canonical(struct kpn_text *description) {
  const int file = kpn_store_nameless(description->at, description->length);
  char name[KPN_NAMELESS];
  char *words[] = {judging_program(), "print", kpn_name_nameless(file, name), NULL};
  struct kpn_text printed = {0};
  pid_t child;
  FILE *from = file < 0 ? NULL : kpn_start_judge(words, &child);
  for (size_t count = from != NULL; count;) {
    count = fread(kpn_extend_text(&printed, PIECE), 1, PIECE, from);
    printed.length -= PIECE - count;
  }
  const bool works = from && !kpn_finish_judge(from, child) && printed.length;
  kpn_close_nameless(file);
  if (works) {
    struct kpn_text old = *description;
    *description = printed;
    printed = old;
  } else {
    fputs("kpn-mpi: language 2 is read by `kpn print`, which has failed: name `kpn` by KPN_PROGRAM\n", stderr);
  }
  kpn_free_text(&printed);
  return works;
}
