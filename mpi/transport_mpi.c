/* The transport over MPI: messages of one communicator and one tag, which stay in order between two ranks. Nothing here
   waits but the end. */
#define _GNU_SOURCE
#include "transport_mpi.h"

#include <dlfcn.h>
#include <link.h>
#include <mpi.h>
#include <stdlib.h>
#include <string.h>

enum { TAG = 1 };

/* A message that is on its way. Its words stay until MPI has sent them. */
struct sending {
  MPI_Request request;
  struct kpn_words message;
};

struct mpi_transport {
  struct kpn_transport base;
  MPI_Comm among;
  struct sending *sendings; /* a ring */
  size_t first, count, room;
};

static struct sending *sending_at(struct mpi_transport *over, size_t k) {
  return &over->sendings[(over->first + k) % over->room];
}

/* Forgets the messages that were sent, from the oldest one on. Their room is used again. */
static void forget_sent(struct mpi_transport *over) {
  while (over->count) {
    int is_sent;
    MPI_Test(&sending_at(over, 0)->request, &is_sent, MPI_STATUS_IGNORE);
    if (!is_sent) {
      return;
    }
    over->first = (over->first + 1) % over->room;
    over->count--;
  }
}

static void make_room(struct mpi_transport *over) {
  const size_t room = over->room ? 2 * over->room : 16;
  struct sending *made = kpn_memory(room * sizeof *made);
  for (size_t k = 0; k < over->count; k++) {
    made[k] = *sending_at(over, k);
  }
  for (size_t k = over->count; k < over->room; k++) {
    kpn_free_words(&sending_at(over, k)->message);
  }
  free(over->sendings);
  over->sendings = made;
  over->first = 0;
  over->room = room;
}

static void send(struct kpn_transport *base, int to, struct kpn_words *message) {
  struct mpi_transport *over = (struct mpi_transport *)base;
  forget_sent(over);
  if (over->count == over->room) {
    make_room(over);
  }
  struct sending *made = sending_at(over, over->count++);
  const struct kpn_words spare = made->message;
  made->message = *message;
  *message = spare;
  kpn_empty(message);
  MPI_Isend(made->message.at, (int)made->message.count, MPI_INT64_T, to, TAG, over->among, &made->request);
}

static bool receive(struct kpn_transport *base, int *from, struct kpn_words *message) {
  struct mpi_transport *over = (struct mpi_transport *)base;
  MPI_Message found;
  MPI_Status status;
  int is_there, count;
  MPI_Improbe(MPI_ANY_SOURCE, TAG, over->among, &is_there, &found, &status);
  if (!is_there) {
    forget_sent(over);
    return false;
  }
  MPI_Get_count(&status, MPI_INT64_T, &count);
  kpn_empty(message);
  int64_t *room = kpn_extend(message, (size_t)count);
  MPI_Mrecv(room, count, MPI_INT64_T, &found, &status);
  *from = status.MPI_SOURCE;
  return true;
}

static double now(struct kpn_transport *base) {
  (void)base;
  return MPI_Wtime();
}

static void end_ranks(int status) {
  MPI_Abort(MPI_COMM_WORLD, status);
  exit(status);
}

struct kpn_transport *kpn_open_transport(int *argc, char ***argv, int *number, int *ranks) {
  struct mpi_transport *made = kpn_memory(sizeof *made);
  MPI_Init(argc, argv);
  MPI_Comm_dup(MPI_COMM_WORLD, &made->among);
  MPI_Comm_rank(made->among, number);
  MPI_Comm_size(made->among, ranks);
  kpn_end_all = end_ranks;
  made->base = (struct kpn_transport){send, receive, now};
  return &made->base;
}

static int add_name(struct dl_phdr_info *of, size_t size, void *names) {
  (void)size;
  kpn_print_to(names, "%s\n", of->dlpi_name);
  return 0;
}

/* Keeps all libraries in memory. A thread of Open MPI 4.1 may still call one that MPI_Finalize has just given back. */
static void keep_libraries(void) {
  struct kpn_text names = {0};
  dl_iterate_phdr(add_name, &names);
  for (char *name = names.at, *end; (end = strchr(name, '\n')); name = end + 1) {
    *end = 0;
    if (*name) {
      dlopen(name, RTLD_LAZY | RTLD_NOLOAD | RTLD_NODELETE);
    }
  }
  kpn_free_text(&names);
}

void kpn_close_transport(struct kpn_transport *base) {
  struct mpi_transport *over = (struct mpi_transport *)base;
  for (size_t k = 0; k < over->count; k++) {
    MPI_Wait(&sending_at(over, k)->request, MPI_STATUS_IGNORE);
  }
  for (size_t k = 0; k < over->room; k++) {
    kpn_free_words(&over->sendings[k].message);
  }
  MPI_Comm_free(&over->among);
  keep_libraries();
  MPI_Finalize();
  free(over->sendings);
  free(over);
}
