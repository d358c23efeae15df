/* beside.h: `kpn stream` runs beside a stream, on the same items. What the sinks give is compared while it comes. */
#ifndef KPN_BESIDE_H
#define KPN_BESIDE_H

#include "program.h"

struct kpn_beside;

/* Starts it. Null says that it can't be started, which is told. */
struct kpn_beside *kpn_begin_beside(const struct kpn_run *run);

/* A source got an item, or was closed; a sink gave an item. The items are kept until the other side has them too. */
void kpn_feed_beside(struct kpn_beside *beside, unsigned source, int64_t item);
void kpn_close_beside(struct kpn_beside *beside, unsigned source);
void kpn_give_beside(struct kpn_beside *beside, unsigned sink, int64_t item);

/* Whether the other side has taken most of what a source got. */
bool kpn_has_room_beside(const struct kpn_beside *beside, unsigned source);

/* Passes items on and compares them, and waits while many are kept; or until `source` has room, if that is a source.
   False says that something differs. */
bool kpn_pass_beside(struct kpn_beside *beside, unsigned source);

/* Ends it. All items that the sinks gave have to be those of the other side, and if there is a report that too, and
   nothing more. Tells what was found, and gives 0 or the status. */
int kpn_end_beside(struct kpn_beside *beside, const char *report);

#endif
