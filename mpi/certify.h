/* What `kpn`, which is proved, is asked: whether `kpn join` confirms a run, and for the canonical text of a network. */
#ifndef KPN_MPI_CERTIFY_H
#define KPN_MPI_CERTIFY_H

#include "rank.h"

/* At rank 0, once all ranks have handed over: has `kpn join` judge their traces, and compares what it says with the
   items of the sinks and with the outcome. Says on standard error what came of it; 0, or the status with which the run
   fails. */
int kpn_certify(const struct kpn_rank *of, const struct kpn_text *description);

/* Puts the canonical text in place of a description, by `kpn print`; false, with a line on standard error, if that
   fails. */
bool kpn_make_canonical(struct kpn_text *description);

#endif
