/* The transport over MPI. */
#ifndef KPN_MPI_TRANSPORT_MPI_H
#define KPN_MPI_TRANSPORT_MPI_H

#include "transport.h"

/* Starts MPI, and tells the number of this rank and how many there are. */
struct kpn_transport *kpn_open_transport(int *argc, char ***argv, int *number, int *ranks);

/* Waits until all that was sent is on its way, and ends MPI. */
void kpn_close_transport(struct kpn_transport *over);

#endif
