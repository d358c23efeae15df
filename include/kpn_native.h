/* kpn_native.h: what a compiled network has beside the session of kpn.h.

   `kpn compile NET --library -o libnet.a` makes an archive with the sessions of kpn.h for this one network: all its
   calls but kpn_check, kpn_explain and kpn_run. So a program that uses a session changes to it by linking. What differs:

     - `kpn_open` takes the text that was compiled, as it was given or in its canonical form, or none (a length of 0).
     - `kpn_step` counts gets, puts, waits, ends and each thousand turns of loops as commits, and may make some
       thousands more than it is asked for.
     - `kpn_step` and `kpn_move` return KPN_PROCESS_FAULTED if a process has ended by a fault in this call. All that was
       asked for is done; `kpn_tell_processes` says which process it was.
     - A session of `kpn_open` keeps a trace only from `kpn_keep_trace` on, which has to come before all else. Without
       it, and after `kpn_open_forgetting`, it takes no more memory than its channels.
     - Nothing is proved of it. `kpn audit` judges its trace.

   All state lies in one block of memory behind the session, and there are no variables outside of it.

   With `--fixed ITEMS` all memory is static, and nothing calls malloc or stdio. Then there is one session at a time, no
   trace (neither kpn_keep_trace nor kpn_trace), and ITEMS of a source at most wait to be read: `kpn_feed` feeds as many
   as there is room for, and is KPN_NO_MEMORY if there are more. (Under `policy all` a full channel grows only once all
   sources are closed; so there all items of a source have to find room.) */
#ifndef KPN_NATIVE_H
#define KPN_NATIVE_H

#include "kpn.h"

#ifdef __cplusplus
extern "C" {
#endif

/* Keeps a trace from now on. It is KPN_NO_TRACE if that comes too late, if the session forgets, or if two ways of the
   network's periods, whose items are compared for a trace, have given other ones. */
uint32_t kpn_keep_trace(kpn_session *session);

#ifdef __cplusplus
}
#endif

#endif
