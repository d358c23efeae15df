/* Reads a description into tables. `kpn_check` has taken the text before, so nothing is wrong in it. One of language 2 is
   canonical, so its numbers are decimal, and it has none of the forms that stand for others. */
#include "network.h"

#include <ctype.h>
#include <stdlib.h>
#include <string.h>

#define LARGEST_CAPACITY 1048576

struct reader {
  const char *at, *end;
  struct kpn_span token; /* empty at the end of the text */
};

static bool is_word(char it) {
  return isalnum((unsigned char)it) || it == '_';
}

/* Goes on to the next token. Marks are read one by one, which is enough here. */
static void next(struct reader *in) {
  while (in->at < in->end && (isspace((unsigned char)*in->at) || *in->at == '#')) {
    if (*in->at == '#') {
      while (in->at < in->end && *in->at != '\n') {
        in->at++;
      }
    } else {
      in->at++;
    }
  }
  const char *start = in->at;
  while (in->at < in->end && is_word(*in->at)) {
    in->at++;
  }
  if (in->at == start && in->at < in->end) {
    in->at++;
  }
  in->token = (struct kpn_span){start, (size_t)(in->at - start)};
}

static bool is(const struct reader *in, const char *word) {
  return in->token.length == strlen(word) && !memcmp(in->token.at, word, in->token.length);
}

/* The token, and goes past it. */
static struct kpn_span pass(struct reader *in) {
  const struct kpn_span token = in->token;
  next(in);
  return token;
}

static bool same(struct kpn_span name, const char *at, size_t length) {
  return name.length == length && !memcmp(name.at, at, length);
}

static int compare(const void *first, const void *second) {
  const struct kpn_span a = (*(struct kpn_channel *const *)first)->name;
  const struct kpn_span b = (*(struct kpn_channel *const *)second)->name;
  const int found = memcmp(a.at, b.at, a.length < b.length ? a.length : b.length);
  return found ? found : (a.length > b.length) - (a.length < b.length);
}

static void sort_channels(struct kpn_network *net) {
  net->by_name = kpn_memory(net->channel_count * sizeof *net->by_name);
  for (size_t c = 0; c < net->channel_count; c++) {
    net->by_name[c] = &net->channels[c];
  }
  qsort(net->by_name, net->channel_count, sizeof *net->by_name, compare);
}

int kpn_find_channel(const struct kpn_network *net, const char *name, size_t length) {
  const struct kpn_channel wanted = {.name = {name, length}}, *at = &wanted;
  struct kpn_channel **found = bsearch(&at, net->by_name, net->channel_count, sizeof *net->by_name, compare);
  return found ? (int)(*found - net->channels) : -1;
}

int kpn_find_instance(const struct kpn_network *net, const char *name, size_t length) {
  for (size_t p = 0; p < net->instance_count; p++) {
    if (same(net->instances[p].name, name, length)) {
      return (int)p;
    }
  }
  return -1;
}

/* The list of this many elements, with room for one more: it grows where their number is a power of two. */
static void *with_room(void *list, size_t count, size_t size) {
  if (count & (count - 1)) {
    return list;
  }
  void *made = kpn_memory(2 * (count + !count) * size);
  if (count) {
    memcpy(made, list, count * size);
  }
  free(list);
  return made;
}

static void read_process(struct reader *in, struct kpn_network *net) {
  net->processes = with_room(net->processes, net->process_count, sizeof *net->processes);
  struct kpn_process *into = &net->processes[net->process_count++];
  const char *start = in->token.at;
  next(in);
  into->name = pass(in);
  while (!is(in, "{")) {
    next(in);
  }
  for (size_t depth = 1; depth;) {
    next(in);
    depth += is(in, "{");
    depth -= is(in, "}");
  }
  into->whole = (struct kpn_span){start, (size_t)(in->at - start)};
  next(in);
}

static size_t number(struct reader *in) {
  return (size_t)strtoull(pass(in).at, NULL, 10);
}

static void read_settings(struct reader *in, struct kpn_network *net) {
  net->limit = LARGEST_CAPACITY;
  for (; is(in, "limit") || is(in, "policy") || is(in, "grow"); next(in)) {
    const struct kpn_span word = pass(in);
    if (same(word, "limit", 5)) {
      net->limit = number(in);
    } else if (same(word, "policy", 6)) {
      net->grows_at_stops = same(pass(in), "all", 3);
    } else {
      net->doubles = same(pass(in), "double", 6);
    }
  }
}

static void read_channel(struct reader *in, struct kpn_network *net) {
  net->channels = with_room(net->channels, net->channel_count, sizeof *net->channels);
  struct kpn_channel *made = &net->channels[net->channel_count++];
  const struct kpn_span word = pass(in);
  *made = (struct kpn_channel){.kind = CHANNEL, .writer = OUTSIDE, .reader = OUTSIDE};
  if (same(word, "source", 6)) {
    made->kind = SOURCE;
  }
  if (same(word, "sink", 4)) {
    made->kind = SINK;
  }
  made->name = pass(in);
  if (is(in, "cap")) {
    next(in);
    made->cap = number(in);
  }
  next(in);
}

/* Goes past an instance and keeps its text. Its channels are looked up once all are there. */
static void read_instance(struct reader *in, struct kpn_network *net) {
  net->instances = with_room(net->instances, net->instance_count, sizeof *net->instances);
  struct kpn_instance *made = &net->instances[net->instance_count++];
  const char *start = in->token.at;
  made->name = pass(in);
  next(in);
  const struct kpn_span name = pass(in);
  for (made->process = 0; made->process < net->process_count; made->process++) {
    if (same(net->processes[made->process].name, name.at, name.length)) {
      break;
    }
  }
  while (!is(in, ")")) {
    next(in);
  }
  next(in);
  made->whole = (struct kpn_span){start, (size_t)(in->at - start)};
  next(in);
}

/* Finds the channels at the ports of an instance: the in ports stand before the first semicolon, then the out ports. */
static void join_ports(struct kpn_network *net, int number) {
  const struct kpn_span whole = net->instances[number].whole;
  struct reader in = {.at = whole.at, .end = whole.at + whole.length};
  while (!is(&in, "(")) {
    next(&in);
  }
  for (int part = 0; part < 2 && !is(&in, ")"); next(&in)) {
    const int found = kpn_find_channel(net, in.token.at, in.token.length);
    part += is(&in, ";");
    if (found >= 0 && part) {
      net->channels[found].writer = number;
    } else if (found >= 0) {
      net->channels[found].reader = number;
    }
  }
}

/* Keeps `language 2;` and the tables for all processes. */
static void read_opening(struct reader *in, struct kpn_network *net) {
  const char *start = in->token.at, *end;
  do {
    while (!is(in, ";")) {
      next(in);
    }
    end = in->at;
    next(in);
  } while (is(in, "table"));
  net->opening = (struct kpn_span){start, (size_t)(end - start)};
}

bool kpn_is_second(const char *text, size_t length) {
  struct reader in = {.at = text, .end = text + length};
  next(&in);
  return is(&in, "language");
}

void kpn_free_network(struct kpn_network *net) {
  free(net->processes);
  free(net->instances);
  free(net->channels);
  free(net->by_name);
  *net = (struct kpn_network){0};
}

void kpn_read_network(struct kpn_network *net, const char *text, size_t length) {
  struct reader in = {.at = text, .end = text + length};
  kpn_free_network(net);
  next(&in);
  if (is(&in, "language")) {
    read_opening(&in, net);
  }
  while (is(&in, "process")) {
    read_process(&in, net);
  }
  next(&in);
  next(&in);
  read_settings(&in, net);
  while (!is(&in, "}")) {
    if (is(&in, "channel") || is(&in, "source") || is(&in, "sink")) {
      read_channel(&in, net);
    } else {
      read_instance(&in, net);
    }
  }
  sort_channels(net);
  for (size_t p = 0; p < net->instance_count; p++) {
    join_ports(net, (int)p);
  }
}

size_t kpn_next_capacity(const struct kpn_network *net, size_t cap) {
  const size_t more = net->doubles ? 2 * cap : cap + 1;
  return more < net->limit ? more : net->limit;
}
