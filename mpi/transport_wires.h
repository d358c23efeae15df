/* The transport in one process: wires that hold messages back at random. */
#ifndef KPN_MPI_TRANSPORT_WIRES_H
#define KPN_MPI_TRANSPORT_WIRES_H

#include "transport.h"

/* Makes a transport for each rank. `seed` decides which messages are held back, and for how long. */
struct kpn_transport **kpn_open_wires(int ranks, unsigned long seed);
void kpn_close_wires(struct kpn_transport **ends, int ranks);

/* A random number below a bound. */
unsigned long kpn_chance(uint64_t *state, unsigned long below);

#endif
