#define _GNU_SOURCE
#include "beside.h"

#include <errno.h>
#include <fcntl.h>
#include <poll.h>
#include <signal.h>
#include <stdlib.h>
#include <string.h>
#include <sys/wait.h>
#include <unistd.h>

#include "judge.h"

/* This many items are kept of an end before the other side is waited for. What it tells has this many bytes at most. */
enum { MOST_KEPT = 65536, MOST_TOLD = 1048576, WORD = 320 };

/* Items that one side has and the other has not yet. */
struct queue {
  int64_t *items;
  size_t start, count, room;
};

/* A source or a sink: the pipe to the other side, -1 once it is closed. Of a sink `ours` or `theirs` is empty. */
struct end {
  int pipe, far;
  bool is_source, is_closed;
  struct queue ours, theirs;
  char cut[8];      /* the bytes of an item that has not come whole, or of which the pipe has taken some */
  size_t cut_count;
};

struct kpn_beside {
  const struct kpn_plan *plan;
  int net;           /* the file of the network */
  struct end *ends;  /* of each channel; `pipe` is -1 of one inside */
  char *words[2 * KPN_MOST_CHANNELS + 16];
  size_t word_count;
  pid_t child;
  int told_pipe, told_far;
  char *told;        /* what it tells on standard error */
  size_t told_count;
  bool has_differed, lacks_memory;
  unsigned wrong_sink;
};

static bool add(struct queue *queue, int64_t item) {
  if (queue->count == queue->room) {
    size_t room = queue->room ? 2 * queue->room : 1024;
    int64_t *larger = malloc(room * sizeof *larger);
    if (!larger) {
      return false;
    }
    for (size_t k = 0; k < queue->count; k++) {
      larger[k] = queue->items[(queue->start + k) & (queue->room - 1)];
    }
    free(queue->items);
    queue->items = larger;
    queue->start = 0;
    queue->room = room;
  }
  queue->items[(queue->start + queue->count++) & (queue->room - 1)] = item;
  return true;
}

static int64_t take(struct queue *queue) {
  int64_t item = queue->items[queue->start];
  queue->start = (queue->start + 1) & (queue->room - 1);
  queue->count--;
  return item;
}

/* ---- the words of the other side */

static void word(struct kpn_beside *beside, const char *text) {
  char *copy = strdup(text);
  beside->lacks_memory = beside->lacks_memory || !copy;
  beside->words[beside->word_count++] = copy;
}

/* Makes a pipe, of which one end is ours. */
static bool make_pipe(int *own, int *far, bool is_written) {
  int ends[2];
  if (pipe2(ends, O_CLOEXEC) != 0) {
    return false;
  }
  *own = ends[is_written];
  *far = ends[!is_written];
  return fcntl(*own, F_SETFL, fcntl(*own, F_GETFL) | O_NONBLOCK) == 0;
}

static bool make_end(struct kpn_beside *beside, unsigned c) {
  char text[WORD];
  struct end *end = &beside->ends[c];
  end->is_source = beside->plan->channels[c].kind == KPN_SOURCE;
  if (!make_pipe(&end->pipe, &end->far, end->is_source)) {
    return false;
  }
  word(beside, end->is_source ? "--source" : "--sink");
  snprintf(text, sizeof text, "%s=/dev/fd/%d", beside->plan->channels[c].name, end->far);
  word(beside, text);
  return true;
}

static bool make_words(struct kpn_beside *beside, const struct kpn_run *run) {
  char number[32], net[KPN_NAMELESS];
  beside->net = kpn_store_nameless(beside->plan->text, strlen(beside->plan->text));
  bool is_made = beside->net >= 0;
  word(beside, run->program);
  word(beside, "stream");
  word(beside, kpn_name_nameless(beside->net, net));
  word(beside, "--format");
  word(beside, "s64le");
  for (unsigned c = 0; c < beside->plan->channel_count && is_made; c++) {
    is_made = beside->plan->channels[c].kind == KPN_CHANNEL || make_end(beside, c);
  }
  if (run->words.has_take) {
    *kpn_digits(number, (int64_t)run->words.take) = 0;
    word(beside, "--take");
    word(beside, number);
  }
  return is_made && !beside->lacks_memory && make_pipe(&beside->told_pipe, &beside->told_far, false);
}

/* What the child does before it becomes the other side: its ends of the pipes stay open. */
static void become(struct kpn_beside *beside) {
  for (size_t c = 0; c < beside->plan->channel_count; c++) {
    if (beside->ends[c].far >= 0) {
      fcntl(beside->ends[c].far, F_SETFD, 0);
    }
  }
  dup2(beside->told_far, STDERR_FILENO);
  kpn_become(beside->words);
}

static void close_pipe(int *pipe) {
  if (*pipe >= 0) {
    close(*pipe);
  }
  *pipe = -1;
}

static void drop(struct kpn_beside *beside) {
  for (size_t c = 0; beside->ends && c < beside->plan->channel_count; c++) {
    close_pipe(&beside->ends[c].pipe);
    close_pipe(&beside->ends[c].far);
    free(beside->ends[c].ours.items);
    free(beside->ends[c].theirs.items);
  }
  close_pipe(&beside->told_pipe);
  close_pipe(&beside->told_far);
  close_pipe(&beside->net);
  for (size_t k = 0; k < beside->word_count; k++) {
    free(beside->words[k]);
  }
  free(beside->told);
  free(beside->ends);
  free(beside);
}

static bool start(struct kpn_beside *beside, const struct kpn_run *run) {
  size_t count = beside->plan->channel_count;
  beside->ends = calloc(count + 1, sizeof *beside->ends);
  beside->told = malloc(MOST_TOLD);
  beside->told_pipe = beside->told_far = beside->net = -1;
  for (size_t c = 0; beside->ends && c < count; c++) {
    beside->ends[c].pipe = beside->ends[c].far = -1;
  }
  if (!beside->ends || !beside->told || !make_words(beside, run)) {
    return false;
  }
  beside->child = fork();
  if (beside->child == 0) {
    become(beside);
  }
  for (size_t c = 0; c < count; c++) {
    close_pipe(&beside->ends[c].far);
  }
  close_pipe(&beside->told_far);
  return beside->child > 0;
}

struct kpn_beside *kpn_begin_beside(const struct kpn_run *run) {
  struct kpn_beside *beside = calloc(1, sizeof *beside);
  if (beside) {
    beside->plan = run->network.plan;
  }
  if (!beside || !start(beside, run)) {
    kpn_refuse(0, "not checked: `kpn stream` can't be started");
    if (beside) {
      drop(beside);
    }
    return NULL;
  }
  return beside;
}

/* ---- items */

static void differ(struct kpn_beside *beside, unsigned sink) {
  if (!beside->has_differed) {
    beside->has_differed = true;
    beside->wrong_sink = sink;
  }
}

void kpn_feed_beside(struct kpn_beside *beside, unsigned source, int64_t item) {
  struct end *end = &beside->ends[source];
  if (end->pipe >= 0 && !add(&end->ours, item)) {
    beside->lacks_memory = true;
  }
}

void kpn_close_beside(struct kpn_beside *beside, unsigned source) {
  beside->ends[source].is_closed = true;
}

void kpn_give_beside(struct kpn_beside *beside, unsigned sink, int64_t item) {
  struct end *end = &beside->ends[sink];
  if (end->theirs.count) {
    if (take(&end->theirs) != item) {
      differ(beside, sink);
    }
  } else if (!add(&end->ours, item)) {
    beside->lacks_memory = true;
  }
}

bool kpn_has_room_beside(const struct kpn_beside *beside, unsigned source) {
  return beside->ends[source].ours.count < MOST_KEPT;
}

/* Writes what a source got, as far as the pipe takes it. */
static void pass_source(struct end *end) {
  char bytes[8192];
  while (end->ours.count || end->cut_count) {
    size_t length = end->cut_count;
    memcpy(bytes, end->cut, length);
    while (end->ours.count && length + 8 <= sizeof bytes) {
      uint64_t item = (uint64_t)take(&end->ours);
      for (unsigned k = 0; k < 8; k++) {
        bytes[length++] = (char)(item >> (8 * k));
      }
    }
    ssize_t written = write(end->pipe, bytes, length);
    if (written < 0 && errno != EAGAIN && errno != EINTR) { /* it reads no more of this source */
      close_pipe(&end->pipe);
      end->ours.count = end->cut_count = 0;
      return;
    }
    size_t taken = written < 0 ? 0 : (size_t)written, left = (length - taken) / 8;
    end->ours.start = (end->ours.start - left) & (end->ours.room - 1); /* they lie there still */
    end->ours.count += left;
    end->cut_count = (length - taken) % 8;
    memcpy(end->cut, bytes + taken, end->cut_count);
    if (taken < length) {
      return;
    }
  }
}

/* Reads what the other side gave, and compares it. */
static void pass_sink(struct kpn_beside *beside, unsigned c) {
  struct end *end = &beside->ends[c];
  char bytes[8200];
  memcpy(bytes, end->cut, end->cut_count);
  ssize_t count = read(end->pipe, bytes + end->cut_count, sizeof bytes - 8);
  if (count <= 0) {
    if (count == 0) {
      close_pipe(&end->pipe);
    }
    return;
  }
  size_t length = end->cut_count + (size_t)count, at = 0;
  for (; at + 8 <= length; at += 8) {
    uint64_t value = 0;
    for (unsigned k = 8; k-- > 0;) {
      value = value << 8 | (unsigned char)bytes[at + k];
    }
    if (end->ours.count) {
      if (take(&end->ours) != (int64_t)value) {
        differ(beside, c);
      }
    } else if (!add(&end->theirs, (int64_t)value)) {
      beside->lacks_memory = true;
    }
  }
  end->cut_count = length - at;
  memcpy(end->cut, bytes + at, end->cut_count);
}

static void pass_told(struct kpn_beside *beside) {
  ssize_t count = read(beside->told_pipe, beside->told + beside->told_count, MOST_TOLD - 1 - beside->told_count);
  if (count == 0) {
    close_pipe(&beside->told_pipe);
  }
  beside->told_count += count > 0 ? (size_t)count : 0;
}

/* Passes on what can be passed on. Waits for something if need be. A sink that is ahead of ours is read only then. */
static void pass_once(struct kpn_beside *beside, bool may_wait) {
  struct pollfd asked[KPN_MOST_CHANNELS + 1];
  unsigned channels[KPN_MOST_CHANNELS + 1], count = 0;
  for (unsigned c = 0; c < beside->plan->channel_count; c++) {
    struct end *end = &beside->ends[c];
    bool has_work = end->ours.count || (end->is_source ? end->cut_count > 0 : may_wait);
    if (end->is_source && end->is_closed && !has_work) {
      close_pipe(&end->pipe);
    }
    if (end->pipe >= 0 && has_work) {
      asked[count] = (struct pollfd){.fd = end->pipe, .events = end->is_source ? POLLOUT : POLLIN};
      channels[count++] = c;
    }
  }
  asked[count] = (struct pollfd){.fd = beside->told_pipe, .events = POLLIN};
  channels[count++] = KPN_MOST_CHANNELS;
  poll(asked, count, may_wait ? -1 : 0);
  for (unsigned k = 0; k < count; k++) {
    if (!asked[k].revents) {
      continue;
    }
    if (channels[k] == KPN_MOST_CHANNELS) {
      pass_told(beside);
    } else if (beside->ends[channels[k]].is_source) {
      pass_source(&beside->ends[channels[k]]);
    } else {
      pass_sink(beside, channels[k]);
    }
  }
}

/* Whether the other side has ended, or has ended a sink of which it owes items. */
static bool is_dead(struct kpn_beside *beside) {
  bool is_over = beside->told_pipe < 0;
  for (unsigned c = 0; c < beside->plan->channel_count; c++) {
    struct end *end = &beside->ends[c];
    if (!end->is_source && end->ours.count && end->pipe < 0) {
      differ(beside, c);
    }
    is_over = is_over && end->pipe < 0;
  }
  return is_over || beside->has_differed || beside->lacks_memory;
}

/* Whether a sink is far ahead of the other side. */
static bool is_ahead(const struct kpn_beside *beside) {
  for (unsigned c = 0; c < beside->plan->channel_count; c++) {
    if (!beside->ends[c].is_source && beside->ends[c].ours.count > MOST_KEPT) {
      return true;
    }
  }
  return false;
}

bool kpn_pass_beside(struct kpn_beside *beside, unsigned source) {
  bool waits = source < beside->plan->channel_count && !kpn_has_room_beside(beside, source);
  pass_once(beside, false);
  while (!is_dead(beside) && (is_ahead(beside) || waits)) {
    pass_once(beside, true);
    waits = waits && !kpn_has_room_beside(beside, source);
  }
  return !beside->has_differed && !beside->lacks_memory;
}

/* ---- the end */

/* Whether all that the sinks gave has come from the other side too. */
static bool are_all_given(const struct kpn_beside *beside) {
  for (unsigned c = 0; c < beside->plan->channel_count; c++) {
    if (!beside->ends[c].is_source && beside->ends[c].ours.count) {
      return false;
    }
  }
  return true;
}

/* The first sink of which the other side has more, or the number of channels. */
static unsigned with_more(const struct kpn_beside *beside) {
  unsigned c = 0;
  while (c < beside->plan->channel_count && (beside->ends[c].is_source || !beside->ends[c].theirs.count)) {
    c++;
  }
  return c;
}

static int found(struct kpn_beside *beside, const char *report) {
  unsigned more = with_more(beside);
  if (beside->lacks_memory) {
    return kpn_refuse(KPN_LACKS_MEMORY, "42 NoMemory");
  }
  if (!beside->has_differed && report && more < beside->plan->channel_count) {
    differ(beside, more);
  }
  if (beside->has_differed || !are_all_given(beside)) {
    return kpn_refuse(KPN_NOT_CERTIFIED, "not checked: the items of the sink `%s` are not those of `kpn stream`",
                      beside->plan->channels[beside->wrong_sink].name);
  }
  beside->told[beside->told_count] = 0;
  if (report && strcmp(beside->told, report) != 0) {
    return kpn_refuse(KPN_NOT_CERTIFIED, "not checked: `kpn stream` ends otherwise");
  }
  return kpn_refuse(0, report ? "checked: the items and the end are those of `kpn stream`"
                              : "checked: the items are those of `kpn stream`");
}

int kpn_end_beside(struct kpn_beside *beside, const char *report) {
  int unused;
  for (unsigned c = 0; c < beside->plan->channel_count; c++) {
    beside->ends[c].is_closed = true;
  }
  while (!is_dead(beside) && (report ? with_more(beside) == beside->plan->channel_count : !are_all_given(beside))) {
    pass_once(beside, true);
  }
  int status = found(beside, report);
  kill(beside->child, SIGKILL);
  while (waitpid(beside->child, &unused, 0) < 0 && errno == EINTR) {
  }
  drop(beside);
  return status;
}
