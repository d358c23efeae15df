/* The calls of kpn.h. Each refuses null pointers and sessions that are not open, sets what the caller is told, and then
   calls the proved export of the crate kpn_c. That takes a session by value and hands it back. Nothing proves this file;
   tools/clib.py tests it. */
#include "../include/kpn.h"

extern uint32_t kpn_c_check(const uint8_t *text, size_t length, kpn_place *place);
extern uint32_t kpn_c_explain(const uint8_t *text, size_t length, uint8_t *words, size_t room, size_t *count);
extern uint32_t kpn_c_run(const uint8_t *text, size_t length, const int64_t *items, size_t item_count,
                          const size_t *lengths, size_t source_count, const kpn_limits *limits, int64_t *room,
                          size_t item_room, size_t *sinks, size_t sink_room, uint8_t *trace, size_t trace_room,
                          kpn_ran *ran, kpn_place *place);
extern uint32_t kpn_c_open(const uint8_t *text, size_t length, kpn_session *session, kpn_place *place);
extern uint32_t kpn_c_open_forgetting(const uint8_t *text, size_t length, kpn_session *session, kpn_place *place);
extern uint32_t kpn_c_channel(kpn_session session, const uint8_t *name, size_t length, kpn_session *back,
                              size_t *channel);
extern uint32_t kpn_c_feed(kpn_session session, size_t source, const int64_t *items, size_t count, kpn_session *back,
                           size_t *fed);
extern uint32_t kpn_c_close_source(kpn_session session, size_t source, kpn_session *back);
extern uint32_t kpn_c_step(kpn_session session, uint64_t most, kpn_session *back, uint64_t *commits);
extern uint32_t kpn_c_take(kpn_session session, size_t sink, int64_t *items, size_t room, kpn_session *back,
                           size_t *taken);
extern uint32_t kpn_c_leave_sink(kpn_session session, size_t sink, kpn_session *back);
extern uint32_t kpn_c_move(kpn_session session, const kpn_item *items, size_t count, uint64_t most, kpn_wanted *places,
                           size_t place_count, kpn_session *back, kpn_amounts *amounts);
extern uint32_t kpn_c_is_complete(kpn_session session, size_t channel, kpn_session *back, bool *complete);
extern uint32_t kpn_c_verdict(kpn_session session, kpn_session *back, uint32_t *verdict);
extern uint32_t kpn_c_count(kpn_session session, kpn_session *back, kpn_counts *counts);
extern uint32_t kpn_c_channel_name(kpn_session session, size_t channel, uint8_t *name, size_t room, kpn_session *back,
                                   size_t *length);
extern uint32_t kpn_c_process_name(kpn_session session, size_t process, uint8_t *name, size_t room, kpn_session *back,
                                   size_t *length);
extern uint32_t kpn_c_tell_channel(kpn_session session, size_t channel, kpn_session *back, kpn_channel_state *state);
extern uint32_t kpn_c_tell_processes(kpn_session session, kpn_process_state *states, size_t room, kpn_session *back,
                                     size_t *count);
extern uint32_t kpn_c_look(kpn_session session, size_t channel, int64_t *items, size_t room, kpn_session *back,
                           size_t *count);
extern uint32_t kpn_c_trace(kpn_session session, uint8_t *text, size_t room, kpn_session *back, size_t *length);
extern void kpn_c_free(kpn_session session);

/* A slice has an address even if it has no elements. */
static int64_t nothing[2];

#define AT(pointer) ((pointer) ? (void *)(pointer) : (void *)nothing)
#define LACKS(pointer, length) (!(pointer) && (length) > 0)

const char *kpn_fault_name(uint32_t fault) {
  static const char *const names[] = {
      [1] = "TooMany",      [2] = "NoSuchBlock",    [3] = "BlockOrder",   [4] = "NoSuchVar",   [5] = "NoSuchPort",
      [6] = "TooDeep",      [7] = "NoMemory",       [10] = "TooMany",     [11] = "NoSuchProgram", [12] = "PortCount",
      [13] = "NoWriter",    [14] = "TwoWriters",    [15] = "NoReader",    [16] = "TwoReaders", [17] = "Capacity",
      [18] = "NoMemory",    [19] = "NoSuchChannel", [20] = "Token",       [21] = "Grammar",    [22] = "UnknownName",
      [23] = "DoubleName",  [24] = "TooLong",       [28] = "NoMemory",    [42] = "NoMemory",   [43] = "NoSuchEnd",
      [44] = "SourceClosed", [46] = "SinkLeft",     [60] = "Lists",       [61] = "TooSmall",   [62] = "NoSession",
      [63] = "Null",        [64] = "NoChannel",     [65] = "OtherText",   [66] = "NoTrace",    [67] = "NoProcess",
      [68] = "ProcessFaulted",
  };
  return fault < sizeof names / sizeof *names && names[fault] ? names[fault] : "";
}

uint32_t kpn_check(const char *text, size_t length, kpn_place *place) {
  if (LACKS(text, length) || !place) return KPN_NULL;
  *place = (kpn_place){false, 0};
  return kpn_c_check(AT(text), length, place);
}

uint32_t kpn_explain(const char *text, size_t length, char *words, size_t room, size_t *count) {
  if (LACKS(text, length) || LACKS(words, room) || !count) return KPN_NULL;
  *count = 0;
  return kpn_c_explain(AT(text), length, AT(words), room, count);
}

uint32_t kpn_run(const char *text, size_t length, const kpn_lists *lists, const kpn_limits *limits,
                 const kpn_room *room, kpn_ran *ran, kpn_place *place) {
  if (LACKS(text, length) || !lists || !limits || !room || !ran || !place) return KPN_NULL;
  if (LACKS(lists->items, lists->item_count) || LACKS(lists->lengths, lists->source_count)) return KPN_NULL;
  if (LACKS(room->items, room->item_room) || LACKS(room->lengths, room->sink_room)) return KPN_NULL;
  if (LACKS(room->trace, room->trace_room)) return KPN_NULL;
  *place = (kpn_place){false, 0};
  *ran = (kpn_ran){0, 0, 0, 0, 0};
  return kpn_c_run(AT(text), length, AT(lists->items), lists->item_count, AT(lists->lengths), lists->source_count,
                   limits, AT(room->items), room->item_room, AT(room->lengths), room->sink_room, AT(room->trace),
                   room->trace_room, ran, place);
}

uint32_t kpn_open(const char *text, size_t length, kpn_session *session, kpn_place *place) {
  if (LACKS(text, length) || !session || !place) return KPN_NULL;
  *place = (kpn_place){false, 0};
  *session = (kpn_session){0};
  return kpn_c_open(AT(text), length, session, place);
}

uint32_t kpn_open_forgetting(const char *text, size_t length, kpn_session *session, kpn_place *place) {
  if (LACKS(text, length) || !session || !place) return KPN_NULL;
  *place = (kpn_place){false, 0};
  *session = (kpn_session){0};
  return kpn_c_open_forgetting(AT(text), length, session, place);
}

uint32_t kpn_channel(kpn_session *session, const char *name, size_t length, size_t *channel) {
  if (!session || LACKS(name, length) || !channel) return KPN_NULL;
  *channel = 0;
  if (!session->at) return KPN_NO_SESSION;
  return kpn_c_channel(*session, AT(name), length, session, channel);
}

uint32_t kpn_feed(kpn_session *session, size_t source, const int64_t *items, size_t count, size_t *fed) {
  if (!session || LACKS(items, count) || !fed) return KPN_NULL;
  *fed = 0;
  if (!session->at) return KPN_NO_SESSION;
  return kpn_c_feed(*session, source, AT(items), count, session, fed);
}

uint32_t kpn_close_source(kpn_session *session, size_t source) {
  if (!session) return KPN_NULL;
  if (!session->at) return KPN_NO_SESSION;
  return kpn_c_close_source(*session, source, session);
}

uint32_t kpn_step(kpn_session *session, uint64_t most, uint64_t *commits) {
  if (!session || !commits) return KPN_NULL;
  *commits = 0;
  if (!session->at) return KPN_NO_SESSION;
  return kpn_c_step(*session, most, session, commits);
}

uint32_t kpn_take(kpn_session *session, size_t sink, int64_t *items, size_t room, size_t *taken) {
  if (!session || LACKS(items, room) || !taken) return KPN_NULL;
  *taken = 0;
  if (!session->at) return KPN_NO_SESSION;
  return kpn_c_take(*session, sink, AT(items), room, session, taken);
}

uint32_t kpn_leave_sink(kpn_session *session, size_t sink) {
  if (!session) return KPN_NULL;
  if (!session->at) return KPN_NO_SESSION;
  return kpn_c_leave_sink(*session, sink, session);
}

uint32_t kpn_move(kpn_session *session, const kpn_item *items, size_t count, uint64_t most, kpn_wanted *places,
                  size_t place_count, kpn_amounts *amounts) {
  if (!session || LACKS(items, count) || LACKS(places, place_count) || !amounts) return KPN_NULL;
  *amounts = (kpn_amounts){0, 0, 0};
  if (!session->at) return KPN_NO_SESSION;
  return kpn_c_move(*session, AT(items), count, most, AT(places), place_count, session, amounts);
}

uint32_t kpn_is_complete(kpn_session *session, size_t channel, bool *complete) {
  if (!session || !complete) return KPN_NULL;
  *complete = false;
  if (!session->at) return KPN_NO_SESSION;
  return kpn_c_is_complete(*session, channel, session, complete);
}

uint32_t kpn_verdict(kpn_session *session, uint32_t *verdict) {
  if (!session || !verdict) return KPN_NULL;
  *verdict = 0;
  if (!session->at) return KPN_NO_SESSION;
  return kpn_c_verdict(*session, session, verdict);
}

uint32_t kpn_count(kpn_session *session, kpn_counts *counts) {
  if (!session || !counts) return KPN_NULL;
  *counts = (kpn_counts){0, 0};
  if (!session->at) return KPN_NO_SESSION;
  return kpn_c_count(*session, session, counts);
}

uint32_t kpn_channel_name(kpn_session *session, size_t channel, char *name, size_t room, size_t *length) {
  if (!session || LACKS(name, room) || !length) return KPN_NULL;
  *length = 0;
  if (!session->at) return KPN_NO_SESSION;
  return kpn_c_channel_name(*session, channel, AT(name), room, session, length);
}

uint32_t kpn_process_name(kpn_session *session, size_t process, char *name, size_t room, size_t *length) {
  if (!session || LACKS(name, room) || !length) return KPN_NULL;
  *length = 0;
  if (!session->at) return KPN_NO_SESSION;
  return kpn_c_process_name(*session, process, AT(name), room, session, length);
}

uint32_t kpn_tell_channel(kpn_session *session, size_t channel, kpn_channel_state *state) {
  if (!session || !state) return KPN_NULL;
  *state = (kpn_channel_state){0, 0, 0, 0, false, false};
  if (!session->at) return KPN_NO_SESSION;
  return kpn_c_tell_channel(*session, channel, session, state);
}

uint32_t kpn_tell_processes(kpn_session *session, kpn_process_state *states, size_t room, size_t *count) {
  if (!session || LACKS(states, room) || !count) return KPN_NULL;
  *count = 0;
  if (!session->at) return KPN_NO_SESSION;
  return kpn_c_tell_processes(*session, AT(states), room, session, count);
}

uint32_t kpn_look(kpn_session *session, size_t channel, int64_t *items, size_t room, size_t *count) {
  if (!session || LACKS(items, room) || !count) return KPN_NULL;
  *count = 0;
  if (!session->at) return KPN_NO_SESSION;
  return kpn_c_look(*session, channel, AT(items), room, session, count);
}

uint32_t kpn_trace(kpn_session *session, char *text, size_t room, size_t *length) {
  if (!session || LACKS(text, room) || !length) return KPN_NULL;
  *length = 0;
  if (!session->at) return KPN_NO_SESSION;
  return kpn_c_trace(*session, AT(text), room, session, length);
}

uint32_t kpn_free(kpn_session *session) {
  if (!session) return KPN_NULL;
  if (!session->at) return KPN_NO_SESSION;
  kpn_c_free(*session);
  session->at = 0;
  return KPN_OK;
}
