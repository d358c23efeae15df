/* A description as tables: its processes, channels and instances, with the places of their texts. */
#ifndef KPN_MPI_NETWORK_H
#define KPN_MPI_NETWORK_H

#include "common.h"

/* In place of an instance: the outside, which writes a source or reads a sink. */
enum { OUTSIDE = -1 };

struct kpn_span {
  const char *at;
  size_t length;
};

/* For `printf` with "%.*s". */
#define SHOWN(of) (int)(of).length, (of).at

struct kpn_process {
  struct kpn_span name, whole;
};

enum kpn_kind { CHANNEL, SOURCE, SINK };

struct kpn_channel {
  struct kpn_span name;
  enum kpn_kind kind;
  size_t cap;         /* 0 for a source */
  int writer, reader; /* instances, or OUTSIDE */
};

struct kpn_instance {
  struct kpn_span name, whole; /* the whole has the semicolon at its end */
  size_t process;
};

struct kpn_network {
  struct kpn_span opening; /* `language 2;` and the tables for all processes; empty in a text of language 1 */
  struct kpn_process *processes;
  struct kpn_instance *instances;
  struct kpn_channel *channels;
  struct kpn_channel **by_name; /* all channels, in order of their names */
  size_t process_count, instance_count, channel_count;
  size_t limit;
  bool grows_at_stops, doubles; /* `policy all`, `grow double` */
};

/* Whether a text that `kpn_check` takes is of language 2. */
bool kpn_is_second(const char *text, size_t length);

/* Reads a text that `kpn_check` takes, in place of what was read before; of language 2 the canonical one. The network
   points into it. */
void kpn_read_network(struct kpn_network *net, const char *text, size_t length);
void kpn_free_network(struct kpn_network *net);

/* The number of the channel, or of the instance, with this name; -1 if there is none. */
int kpn_find_channel(const struct kpn_network *net, const char *name, size_t length);
int kpn_find_instance(const struct kpn_network *net, const char *name, size_t length);

/* The capacity after this one, as RUNS.md has it under "Growth". */
size_t kpn_next_capacity(const struct kpn_network *net, size_t cap);

#endif
