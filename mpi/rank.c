/* The rounds of a rank. The sink of the writer's part is the channel: its items are looked at and copies are sent. They
   are taken only once the reader's rank says that a process has got them. So a cut channel has its capacity in all. */
#include "rank.h"

#include <stdlib.h>
#include <string.h>

#include "frames.h"

enum { ROUNDS_AT_REST = 20, LEAST_STEPS = 16, MOST_STEPS = 4000 };
/* How much of a cut channel a round is to move, in parts of its capacity, which is 64 of them. */
enum { WHOLE = 64, LEAST_SHARE = 26, MOST_SHARE = 40 };
/* Seconds between reports of a rank that works, and of a round that is not to be longer. */
#define REPORT_EACH 0.05
#define LONGEST_ROUND 0.0005

static kpn_channel_state told_of(struct kpn_rank *of, size_t local) {
  kpn_channel_state state;
  kpn_expect(kpn_tell_channel(&of->part.session, local, &state), "kpn_tell_channel");
  return state;
}

/* ---- opening */

static void add_ends(struct kpn_rank *made, size_t c) {
  const struct kpn_network *net = made->net;
  const size_t local = (size_t)made->part.local[c];
  const int *rank_of = made->cut->rank_of;
  if (!kpn_is_cut(net, made->cut, c)) {
    if (net->channels[c].kind == SINK) {
      made->sinks[made->sink_count++] = (struct kpn_own_sink){.channel = c, .local = local};
    }
  } else if (kpn_is_sink_of(&made->part, c)) {
    made->place[c] = made->out_count;
    made->outs[made->out_count++] =
        (struct kpn_outgoing){.channel = c, .local = local, .to = rank_of[net->channels[c].reader]};
  } else {
    made->place[c] = made->in_count;
    made->ins[made->in_count++] =
        (struct kpn_incoming){.channel = c, .local = local, .from = rank_of[net->channels[c].writer]};
  }
}

void kpn_open_rank(struct kpn_rank *made, const struct kpn_network *net, const struct kpn_cut *of, int number,
                   const struct kpn_settings *given, struct kpn_transport *over, bool keeps) {
  *made = (struct kpn_rank){.net = net,
                            .cut = of,
                            .number = number,
                            .settings = *given,
                            .transport = over,
                            .may_step = true,
                            .must_judge = true,
                            .refused.option = SIZE_MAX};
  kpn_open_part(&made->part, net, of, number, keeps);
  made->place = kpn_memory(net->channel_count * sizeof *made->place);
  made->outs = kpn_memory(net->channel_count * sizeof *made->outs);
  made->ins = kpn_memory(net->channel_count * sizeof *made->ins);
  made->sinks = kpn_memory(net->channel_count * sizeof *made->sinks);
  for (size_t k = 0; k < made->part.channel_count; k++) {
    add_ends(made, made->part.channels[k]);
  }
  made->steps = given->steps ? given->steps : LEAST_STEPS;
  if (number == 0) {
    made->chief = kpn_memory(sizeof *made->chief);
    kpn_open_chief(made->chief, net, of, given->has_take);
  }
  made->told_at = made->beaten_at = made->looked_at = over->now(over);
}

void kpn_free_rank(struct kpn_rank *of) {
  kpn_close_part(&of->part);
  for (size_t k = 0; k < of->sink_count; k++) {
    kpn_free_words(&of->sinks[k].items);
  }
  free(of->place);
  free(of->outs);
  free(of->ins);
  free(of->sinks);
  if (of->chief) {
    kpn_free_chief(of->chief);
  }
  free(of->chief);
  for (int other = 0; other < of->cut->ranks; other++) {
    kpn_free_words(&of->to[other]);
  }
  kpn_free_words(&of->message);
  kpn_free_words(&of->self);
  kpn_free_words(&of->scratch);
}

void kpn_feed_source(struct kpn_rank *of, size_t channel, const int64_t *items, size_t count) {
  const size_t local = (size_t)of->part.local[channel];
  size_t fed;
  kpn_expect(kpn_feed(&of->part.session, local, items, count, &fed), "kpn_feed");
  kpn_expect(kpn_close_source(&of->part.session, local), "kpn_close_source");
}

/* ---- what comes from other ranks */

static struct kpn_outgoing *out_of(struct kpn_rank *of, size_t channel) {
  return &of->outs[of->place[channel]];
}

static void hear_items(struct kpn_rank *of, size_t channel, const int64_t *items, size_t count) {
  struct kpn_incoming *in = &of->ins[of->place[channel]];
  size_t fed;
  kpn_expect(kpn_feed(&of->part.session, in->local, items, count, &fed), "kpn_feed");
  in->received += count;
}

/* The reader has got this many items in all: they leave the channel. */
static void hear_credit(struct kpn_rank *of, struct kpn_outgoing *out, size_t got) {
  const size_t count = got - out->credited;
  size_t taken;
  kpn_empty(&of->scratch);
  int64_t *room = kpn_extend(&of->scratch, count);
  kpn_expect(kpn_take(&of->part.session, out->local, room, count, &taken), "kpn_take");
  if (taken != count) {
    kpn_give_up(STATUS_WRONG, "kpn-mpi: more was got of a channel than was put there");
  }
  out->credited = got;
}

static void hear_growth(struct kpn_rank *of, size_t channel, size_t cap) {
  kpn_grow_part(&of->part, channel, cap);
  of->grows++;
}

static void hear_of_sink(struct kpn_rank *of, size_t channel, const int64_t *items, size_t count) {
  memcpy(kpn_extend(&of->chief->items[channel], count), items, count * sizeof *items);
}

/* What a rank has said before the run. Once all have, they go, or nobody does. */
static void hear_ready(struct kpn_rank *of, const int64_t *at) {
  if ((size_t)at[0] < of->refused.option) {
    of->refused = (struct kpn_refused_option){(size_t)at[0], {(unsigned)at[1], at[2], (size_t)at[3]}};
  }
  if (++of->ready_count < of->cut->ranks) {
    return;
  }
  for (int other = 0; other < of->cut->ranks; other++) {
    kpn_add_frame(&of->to[other], FRAME_GO, of->refused.option < SIZE_MAX, 0);
  }
}

void kpn_say_ready(struct kpn_rank *of, const struct kpn_refused_option *refused) {
  int64_t *at = kpn_add_frame(&of->to[0], FRAME_READY, 0, 4);
  at[0] = (int64_t)refused->option;
  at[1] = refused->why.number;
  at[2] = refused->why.has_place;
  at[3] = (int64_t)refused->why.place;
}

static void go(struct kpn_rank *of, int64_t status) {
  of->phase = status ? REFUSED : WORKING;
  of->looked_at = of->transport->now(of->transport);
  for (int other = 0; other < of->cut->ranks; other++) {
    of->heard_of[other] = of->transport->now(of->transport);
  }
}

/* Hears what is for the chief, and what says that the run is over. */
static void hear_of_run(struct kpn_rank *of, int from, int64_t kind, int64_t number, const int64_t *at, size_t count) {
  switch (kind) {
  case FRAME_READY:
    hear_ready(of, at);
    break;
  case FRAME_GO:
    go(of, number);
    break;
  case FRAME_REPORT:
    kpn_hear_report(of->chief, from, number, at);
    break;
  case FRAME_ENOUGH:
    of->chief->has_enough[from] = true;
    break;
  case FRAME_STOPPED:
    of->chief->has_stopped = true;
    break;
  case FRAME_STOP:
    of->phase = ENDING;
    of->outcome = (enum kpn_outcome)number;
    break;
  case FRAME_SINK:
    hear_of_sink(of, (size_t)number, at, count);
    break;
  case FRAME_TRACE:
    kpn_read_text(&of->chief->traces[from], at, (size_t)number);
    break;
  case FRAME_PART:
    kpn_read_text(&of->chief->parts[from], at, (size_t)number);
    of->chief->handed_count++;
    break;
  case FRAME_VERDICT:
    of->has_verdict = true;
    of->verdict = (int)number;
    break;
  case FRAME_END:
    of->has_ended[from] = true;
    if (number > of->worst_status) {
      of->worst_status = (int)number;
    }
    break;
  }
  of->must_judge |= kind == FRAME_REPORT || kind == FRAME_ENOUGH || kind == FRAME_STOPPED;
}

/* Hears a frame, and returns whether it is for the part. */
static bool hear_frame(struct kpn_rank *of, int from, int64_t kind, int64_t number, const int64_t *at, size_t count) {
  const bool is_for_part = kind == FRAME_ITEMS || kind == FRAME_CREDIT || kind == FRAME_LEFT || kind == FRAME_GROW;
  if (!is_for_part) {
    hear_of_run(of, from, kind, number, at, count);
  }
  if (!is_for_part || of->phase == ENDING) {
    return false;
  }
  const size_t channel = (size_t)number;
  if (kind == FRAME_ITEMS) {
    hear_items(of, channel, at, count);
  }
  if (kind == FRAME_GROW) {
    hear_growth(of, channel, (size_t)at[0]);
  }
  if (kind == FRAME_CREDIT || kind == FRAME_LEFT) {
    hear_credit(of, out_of(of, channel), (size_t)at[0]);
  }
  if (kind == FRAME_LEFT) {
    out_of(of, channel)->is_left = true;
    kpn_expect(kpn_leave_sink(&of->part.session, out_of(of, channel)->local), "kpn_leave_sink");
  }
  return true;
}

static bool hear_message(struct kpn_rank *of, int from, const struct kpn_words *message) {
  bool heard = false;
  for (size_t k = 0; k < message->count; k += HEAD + (size_t)message->at[k + 2]) {
    heard |=
        hear_frame(of, from, message->at[k], message->at[k + 1], message->at + k + HEAD, (size_t)message->at[k + 2]);
  }
  of->heard_of[from] = of->settings.timeout > 0 ? of->transport->now(of->transport) : 0;
  return heard;
}

/* Hears all messages that are there, and returns whether one was for the part. */
static bool hear(struct kpn_rank *of) {
  int from;
  bool heard = hear_message(of, of->number, &of->self);
  kpn_empty(&of->self);
  while (of->transport->receive(of->transport, &from, &of->message)) {
    heard |= hear_message(of, from, &of->message);
  }
  of->may_step |= heard;
  return heard;
}

/* ---- the work of a round */

static bool has_enough(const struct kpn_rank *of) {
  bool all = of->settings.has_take;
  for (size_t k = 0; k < of->sink_count; k++) {
    all = all && of->sinks[k].items.count >= of->settings.take;
  }
  return all;
}

/* Commit by commit, with each item taken at once: what `kpn run` does, for a network at one rank. */
static uint64_t step_alone(struct kpn_rank *of, uint64_t most) {
  uint64_t made = 0;
  kpn_wanted *places = kpn_memory(of->sink_count * sizeof *places);
  kpn_amounts amounts = {.commits = 1};
  for (size_t k = 0; k < of->sink_count; k++) {
    places[k].channel = of->sinks[k].local;
  }
  while (made < most && amounts.commits && !has_enough(of)) {
    kpn_expect(kpn_move(&of->part.session, NULL, 0, 1, places, of->sink_count, &amounts), "kpn_move");
    for (size_t k = 0; k < of->sink_count; k++) {
      if (places[k].has_item) {
        kpn_append(&of->sinks[k].items, places[k].item);
      }
    }
    made += amounts.commits;
  }
  free(places);
  return made;
}

static uint64_t step(struct kpn_rank *of) {
  const uint64_t left = of->settings.most_commits - of->commits, most = left < of->steps ? left : of->steps;
  uint64_t made;
  if (!of->may_step) {
    return 0;
  }
  if (of->cut->ranks == 1) {
    made = step_alone(of, most);
  } else {
    kpn_expect(kpn_step(&of->part.session, most, &made), "kpn_step");
  }
  of->may_step = made == most && most > 0;
  of->commits += made;
  return made;
}

/* Notes how many items went over one end of a cut channel in this round, as a part of its capacity. */
static void note_share(struct kpn_rank *of, size_t channel, size_t moved) {
  const size_t share = WHOLE * moved / of->part.caps[channel];
  if (share > of->share) {
    of->share = share;
  }
}

/* Makes rounds shorter if one fills or empties a cut channel, since then each end waits for the other one, or if it
   takes long, and longer if it moves little. */
static void adapt_steps(struct kpn_rank *of, uint64_t made, double began) {
  if (of->settings.steps) {
    return;
  }
  if (of->share > MOST_SHARE || of->transport->now(of->transport) - began > LONGEST_ROUND) {
    of->steps -= of->steps / 8;
  } else if (of->share < LEAST_SHARE && made == of->steps) {
    of->steps += of->steps / 8;
  }
  if (of->steps < LEAST_STEPS) {
    of->steps = LEAST_STEPS;
  }
  if (of->steps > MOST_STEPS) {
    of->steps = MOST_STEPS;
  }
}

/* Sends copies of what is new on a cut channel, so that at most `window` items are on the way. */
static void serve_out(struct kpn_rank *of, struct kpn_outgoing *out, size_t window) {
  const kpn_channel_state state = told_of(of, out->local);
  const size_t on_way = out->sent - out->credited;
  const size_t before = out->put;
  out->put = state.got + state.unread;
  if (out->is_left || out->put == out->sent || on_way >= window) {
    return;
  }
  note_share(of, out->channel, out->put - before);
  size_t count = out->put - out->sent, seen;
  if (count > window - on_way) {
    count = window - on_way;
  }
  int64_t *room = kpn_add_frame(&of->to[out->to], FRAME_ITEMS, (int64_t)out->channel, count), *at = room;
  if (on_way) {
    kpn_empty(&of->scratch);
    at = kpn_extend(&of->scratch, on_way + count);
  }
  kpn_expect(kpn_look(&of->part.session, out->local, at, on_way + count, &seen), "kpn_look");
  if (seen != on_way + count) {
    kpn_give_up(STATUS_WRONG, "kpn-mpi: items that were sent are no more in their channel");
  }
  if (on_way) {
    memcpy(room, at + on_way, count * sizeof *room);
  }
  out->sent += count;
}

/* Tells how much was got of a cut channel, and whether its reader has ended. */
static void serve_in(struct kpn_rank *of, struct kpn_incoming *in) {
  const kpn_channel_state state = told_of(of, in->local);
  if (in->is_left || (state.got == in->got && !state.is_left)) {
    return;
  }
  const int64_t kind = state.is_left ? FRAME_LEFT : FRAME_CREDIT;
  *kpn_add_frame(&of->to[in->from], kind, (int64_t)in->channel, 1) = (int64_t)state.got;
  note_share(of, in->channel, state.got - in->got);
  in->got = state.got;
  in->is_left = state.is_left;
}

static void serve_sink(struct kpn_rank *of, struct kpn_own_sink *sink) {
  size_t count = told_of(of, sink->local).unread, taken;
  if (!count) {
    return;
  }
  int64_t *room = kpn_extend(&sink->items, count);
  kpn_expect(kpn_take(&of->part.session, sink->local, room, count, &taken), "kpn_take");
  of->may_step = true;
}

/* Steps and serves all ends. Returns whether anything was done. */
static bool work(struct kpn_rank *of, bool heard) {
  const double began = of->may_step ? of->transport->now(of->transport) : 0;
  const uint64_t made = step(of);
  if (!made && !heard) {
    return false;
  }
  of->share = 0;
  for (size_t k = 0; k < of->out_count; k++) {
    serve_out(of, &of->outs[k], of->settings.window);
  }
  for (size_t k = 0; k < of->in_count; k++) {
    serve_in(of, &of->ins[k]);
  }
  for (size_t k = 0; k < of->sink_count; k++) {
    serve_sink(of, &of->sinks[k]);
  }
  if (made) {
    adapt_steps(of, made, began);
  }
  if (has_enough(of) && of->sink_count && !of->has_told_enough) {
    kpn_add_frame(&of->to[0], FRAME_ENOUGH, 0, 0);
    of->has_told_enough = true;
  }
  return true;
}

/* ---- reports */

/* Writes what the processes stand at, and returns whether one is ready. */
static bool report_processes(struct kpn_rank *of, int64_t **at) {
  size_t count = of->part.instance_count;
  kpn_process_state *states = kpn_memory(count * sizeof *states);
  bool is_ready = false;
  kpn_expect(kpn_tell_processes(&of->part.session, states, count, &count), "kpn_tell_processes");
  for (size_t k = 0; k < count; k++, *at += 3) {
    const bool is_full = states[k].state == KPN_STATE_WAITS_FULL;
    const bool waits = is_full || states[k].state == KPN_STATE_WAITS_EMPTY;
    is_ready |= states[k].state == KPN_STATE_READY;
    (*at)[0] = states[k].state;
    (*at)[1] = waits ? (int64_t)of->part.channels[states[k].channel] : 0;
    (*at)[2] = is_full ? (int64_t)told_of(of, states[k].channel).unread : 0;
  }
  free(states);
  return is_ready;
}

static void report_end(struct kpn_rank *of, size_t channel, int64_t **at) {
  if (kpn_is_sink_of(&of->part, channel)) {
    const struct kpn_outgoing *out = out_of(of, channel);
    *(*at)++ = (int64_t)out->put;
    *(*at)++ = (int64_t)out->sent;
    *(*at)++ = (int64_t)out->credited;
    *(*at)++ = out->is_left;
  } else {
    const struct kpn_incoming *in = &of->ins[of->place[channel]];
    *(*at)++ = (int64_t)in->received;
    *(*at)++ = (int64_t)in->got;
    *(*at)++ = in->is_left;
  }
}

static void report(struct kpn_rank *of, bool rests) {
  struct kpn_words *to = &of->to[0];
  const size_t start = to->count;
  int64_t *at = kpn_add_frame(to, FRAME_REPORT, 0, kpn_length_of_report(of->net, of->cut, of->number));
  *at++ = (int64_t)of->grows;
  const bool is_ready = report_processes(of, &at);
  for (size_t k = 0; k < of->part.channel_count; k++) {
    if (kpn_is_cut(of->net, of->cut, of->part.channels[k])) {
      report_end(of, of->part.channels[k], &at);
    }
  }
  to->at[start + 1] = rests && !is_ready;
  if (rests && is_ready && of->commits == of->settings.most_commits && !of->has_told_stopped) {
    kpn_add_frame(to, FRAME_STOPPED, 0, 0);
    of->has_told_stopped = true;
  }
}

/* Sends what the window has held back, and returns whether there was anything. A rank that has come to rest does so:
   a reader that has come to rest too gets nothing more, and the window would stay as it is. */
static bool send_rest(struct kpn_rank *of) {
  bool any = false;
  for (size_t k = 0; k < of->out_count; k++) {
    if (of->outs[k].is_left || of->outs[k].put == of->outs[k].sent) {
      continue;
    }
    serve_out(of, &of->outs[k], SIZE_MAX);
    any = true;
  }
  return any;
}

/* Tells the chief when the rank has come to rest, and now and then while it works. */
static void tell(struct kpn_rank *of, bool did) {
  if (!did) {
    if (of->rounds_at_rest == ROUNDS_AT_REST || ++of->rounds_at_rest < ROUNDS_AT_REST) {
      return;
    }
    if (send_rest(of)) {
      of->rounds_at_rest = 0;
    } else {
      report(of, true);
    }
    return;
  }
  const double now = of->transport->now(of->transport);
  of->rounds_at_rest = 0;
  if (now - of->told_at < REPORT_EACH) {
    return;
  }
  of->told_at = now;
  report(of, false);
}

/* ---- the chief, and the end */

static void decide(struct kpn_rank *of) {
  while (!of->has_ruled) {
    const struct kpn_verdict wanted = kpn_judge(of->chief);
    if (wanted.grows) {
      const int writer = of->net->channels[wanted.channel].writer;
      struct kpn_words *to = &of->to[of->cut->rank_of[writer]];
      *kpn_add_frame(to, FRAME_GROW, (int64_t)wanted.channel, 1) = (int64_t)wanted.cap;
      continue;
    }
    if (wanted.outcome == NO_OUTCOME) {
      return;
    }
    for (int other = 0; other < of->cut->ranks; other++) {
      kpn_add_frame(&of->to[other], FRAME_STOP, wanted.outcome, 0);
    }
    of->has_ruled = true;
  }
}

/* How many of the ranks this one is in touch with: rank 0 with all, and others with rank 0. */
static int ranks_in_touch(const struct kpn_rank *of) {
  return of->chief ? of->cut->ranks : 1;
}

/* The seconds between beats. */
static double pause_of(const struct kpn_rank *of) {
  return of->settings.timeout < 4 ? of->settings.timeout / 4 : 1;
}

void kpn_beat(struct kpn_rank *of) {
  const bool is_on = of->phase == WORKING || of->phase == ENDING;
  if (!(of->settings.timeout > 0) || !is_on || of->has_results) {
    return; /* the results are the last that it sends */
  }
  const double now = of->transport->now(of->transport);
  if (now - of->beaten_at < pause_of(of)) {
    return;
  }
  of->beaten_at = now;
  struct kpn_words message = {0};
  for (int other = 0; other < ranks_in_touch(of); other++) {
    if (other == of->number) {
      continue; /* who has sent its last message still hears */
    }
    kpn_add_frame(&message, FRAME_BEAT, 0, 0);
    of->transport->send(of->transport, other, &message);
  }
  kpn_free_words(&message);
}

/* Beats, and looks whether others do. While this rank did not look it did not hear either: that time does not count.
   Before the run ranks may wait for their inputs. */
static void keep_in_touch(struct kpn_rank *of) {
  if (!(of->settings.timeout > 0) || of->phase == STARTING || of->phase == REFUSED) {
    return;
  }
  kpn_beat(of);
  const double now = of->transport->now(of->transport), away = now - of->looked_at - pause_of(of);
  of->looked_at = now;
  for (int other = 0; other < ranks_in_touch(of); other++) {
    if (away > 0) {
      of->heard_of[other] = of->heard_of[other] + away < now ? of->heard_of[other] + away : now;
    }
    if (other == of->number || of->has_ended[other]) {
      continue;
    }
    if (now - of->heard_of[other] > of->settings.timeout) {
      kpn_give_up(STATUS_SILENT, "kpn-mpi: rank %d has heard nothing of rank %d for %g seconds", of->number, other,
                  of->settings.timeout);
    }
  }
}

/* Sends what has come together in a round. What is for this rank itself is heard in the next round. */
static bool flush(struct kpn_rank *of) {
  struct kpn_words *own = &of->to[of->number];
  bool any = own->count > 0;
  if (any) {
    memcpy(kpn_extend(&of->self, own->count), own->at, own->count * sizeof *own->at);
  }
  kpn_empty(own);
  for (int other = 0; other < of->cut->ranks; other++) {
    if (other == of->number || !of->to[other].count) {
      continue;
    }
    of->transport->send(of->transport, other, &of->to[other]);
    any = true;
  }
  return any;
}

bool kpn_make_round(struct kpn_rank *of) {
  const bool heard = hear(of);
  const bool did = of->phase == WORKING && work(of, heard);
  if (of->phase == WORKING) {
    tell(of, did);
  }
  if (of->chief && of->must_judge && of->phase == WORKING) {
    decide(of);
    of->must_judge = false;
  }
  keep_in_touch(of);
  return flush(of) || did;
}

size_t kpn_wanted_of(const struct kpn_rank *of, const struct kpn_own_sink *sink) {
  const struct kpn_settings *given = &of->settings;
  return given->has_take && sink->items.count > given->take ? (size_t)given->take : sink->items.count;
}

/* Sends the items of the sinks to the chief. */
static void send_sinks(struct kpn_rank *of) {
  enum { MOST_AT_ONCE = 65536 };
  for (size_t k = 0; k < of->sink_count; k++) {
    const struct kpn_own_sink *sink = &of->sinks[k];
    const size_t wanted = kpn_wanted_of(of, sink);
    for (size_t sent = 0; sent < wanted;) {
      const size_t count = wanted - sent < MOST_AT_ONCE ? wanted - sent : MOST_AT_ONCE;
      memcpy(kpn_add_frame(&of->to[0], FRAME_SINK, (int64_t)sink->channel, count), sink->items.at + sent,
             count * sizeof *sink->items.at);
      sent += count;
      if (of->number) {
        flush(of);
      }
    }
  }
}

void kpn_hand_over(struct kpn_rank *of) {
  struct kpn_text made = {0};
  send_sinks(of);
  kpn_print_trace(&of->part, &made);
  if (of->chief) { /* its own trace need not be sent */
    of->chief->traces[of->number] = made;
    made = (struct kpn_text){0};
  } else {
    kpn_add_text(&of->to[0], FRAME_TRACE, &made);
    kpn_free_text(&made);
  }
  kpn_print_part(&of->part, &made);
  kpn_add_text(&of->to[0], FRAME_PART, &made);
  kpn_free_text(&made);
  of->has_handed = true;
}

void kpn_say_verdict(struct kpn_rank *of, int status) {
  for (int other = 1; other < of->cut->ranks; other++) {
    kpn_add_frame(&of->to[other], FRAME_VERDICT, status, 0);
  }
  of->has_verdict = true;
  of->verdict = status;
}

void kpn_send_results(struct kpn_rank *of, int status) {
  if (!of->has_handed && (of->outcome == ENDED || of->outcome == ENOUGH)) {
    send_sinks(of);
  }
  for (int other = 0; other < of->cut->ranks; other++) {
    kpn_add_frame(&of->to[other], FRAME_END, status, 0);
  }
  of->has_results = true;
}

bool kpn_is_over(const struct kpn_rank *of) {
  for (int other = 0; other < of->cut->ranks; other++) {
    if (!of->has_ended[other]) {
      return false;
    }
  }
  return of->has_results;
}
