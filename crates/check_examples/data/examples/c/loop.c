/* A simulator of a motor, whose speed a cascade of two controllers holds in lock step: in each step one call of
   kpn_move feeds what is wanted and measured, lets the network go on until it can't, and takes the voltage.

   The network has 11 processes: two PI controllers that stop to sum up where their limiter is at a stop, an observer of
   the load, two forks, two delays, and two decimators, which give every second item to a log. docs/COMPILED.md says how
   to compile it, and how many instructions a step takes. */
#include <inttypes.h>
#include <stdio.h>
#include <string.h>
#include "kpn.h"

/* Numbers have 8 bits after the point. */
static const char cascade[] =
    "process fork(in i; out o, p) { while 1 { read i x; write o x; write p x; } }\n"
    "process delay(in i; out o) { write o 0; while 1 { read i x; write o x; } }\n"
    "process control(in wanted, is, over; out o; par p, i) {\n"
    "  total = 0;\n"
    "  while 1 {\n"
    "    read wanted w; read is x; read over cut;\n"
    "    e = (w - x);\n"
    "    if ((cut * e) > 0) {} else { total = (total + e); }\n"
    "    write o (((p * e) + (i * total)) / 256);\n"
    "  }\n"
    "}\n"
    "process saturate(in i; out o, over; par most) {\n"
    "  while 1 {\n"
    "    read i x;\n"
    "    y = x;\n"
    "    if (y > most) { y = most; } else { if (y < (0 - most)) { y = (0 - most); } else {} }\n"
    "    write o y; write over (x - y);\n"
    "  }\n"
    "}\n"
    "process drive(in i; out o, over, log; par most) {\n"
    "  while 1 {\n"
    "    read i x;\n"
    "    y = x;\n"
    "    if (y > most) { y = most; } else { if (y < (0 - most)) { y = (0 - most); } else {} }\n"
    "    write o y; write over (x - y); write log y;\n"
    "  }\n"
    "}\n"
    "process observe(in speed, current; out load) {\n"
    "  model = 0; found = 0;\n"
    "  while 1 {\n"
    "    read speed w; read current i;\n"
    "    e = (w - model);\n"
    "    found = (found + (e / 8));\n"
    "    model = ((model + ((i + found) / 16)) + (e / 4));\n"
    "    write load found;\n"
    "  }\n"
    "}\n"
    "process second(in i; out o) { while 1 { read i x; read i x; write o x; } }\n"
    "network {\n"
    "  limit 8;\n"
    "  source wanted; source speed; source current;\n"
    "  channel speed1 cap 2; channel speed2 cap 2; channel current1 cap 2; channel current2 cap 2;\n"
    "  channel asked cap 2; channel demand cap 2; channel cut1 cap 2; channel held1 cap 2;\n"
    "  channel force cap 2; channel cut2 cap 2; channel held2 cap 2; channel given cap 2; channel load cap 2;\n"
    "  sink voltage cap 2; sink voltages cap 2; sink loads cap 2;\n"
    "  speeds = fork(speed; speed1, speed2);\n"
    "  currents = fork(current; current1, current2);\n"
    "  outer = control(wanted, speed1, held1; asked; 512, 24);\n"
    "  bound = saturate(asked; demand, cut1; 20000);\n"
    "  hold1 = delay(cut1; held1);\n"
    "  inner = control(demand, current1, held2; force; 300, 40);\n"
    "  drive = drive(force; voltage, cut2, given; 12000);\n"
    "  hold2 = delay(cut2; held2);\n"
    "  observe = observe(speed2, current2; load);\n"
    "  each_second = second(given; voltages);\n"
    "  each_load = second(load; loads);\n"
    "}\n";

enum { STEPS = 400, MOST = 1000 };

/* What a step makes of the motor: the voltage drives the current, and that the speed, against a load. */
static void turn(int64_t *speed, int64_t *current, int64_t voltage, int64_t load) {
  *current += (voltage - *current - *speed / 4) / 8;
  *speed += (*current - load) / 16;
}

static size_t channel(kpn_session *session, const char *name) {
  size_t number;
  return kpn_channel(session, name, strlen(name), &number) == KPN_OK ? number : SIZE_MAX;
}

/* Runs the simulation, and returns the first fault, or KPN_OK. */
static uint32_t simulate(kpn_session *session) {
  int64_t speed = 0, current = 0;
  kpn_item items[3] = {{channel(session, "wanted"), 0}, {channel(session, "speed"), 0},
                       {channel(session, "current"), 0}};
  kpn_wanted places[3] = {{channel(session, "voltage"), 0, false}, {channel(session, "voltages"), 0, false},
                          {channel(session, "loads"), 0, false}};
  kpn_amounts amounts;
  for (int step = 0; step < STEPS; step++) {
    items[0].item = step < STEPS / 2 ? 10000 : -4000;
    items[1].item = speed;
    items[2].item = current;
    uint32_t fault = kpn_move(session, items, 3, MOST, places, 3, &amounts);
    if (fault) return fault;
    turn(&speed, &current, places[0].item, step > 100 ? 800 : 0);
    if (step % 40 == 39) {
      printf("step %3d: speed %6" PRId64 ", voltage %6" PRId64 ", load %6" PRId64 "\n", step + 1, speed,
             places[0].item, places[2].item);
    }
  }
  return KPN_OK;
}

int main(void) {
  kpn_session session;
  kpn_place place;
  uint32_t fault = kpn_open(cascade, strlen(cascade), &session, &place);
  if (!fault) fault = simulate(&session);
  if (fault) fprintf(stderr, "fault %" PRIu32 " at %zu\n", fault, place.place);
  kpn_free(&session);
  return fault ? 1 : 0;
}
