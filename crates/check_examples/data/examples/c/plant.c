/* A simulator of a heated tank. It steps the tank itself, and a network controls the heater: in each step the simulator
   feeds the temperature, lets the network go on until it can't, and takes the power of the heater.

   README.md says how to build it. */
#include <inttypes.h>
#include <stdio.h>
#include <string.h>
#include "kpn.h"

/* A PI controller: the error is summed up, and the power is limited. Temperatures are in hundredths of a degree. */
static const char controller[] =
    "process subtract(in wanted, is; out error) {\n"
    "  while 1 { read wanted w; read is t; write error (w - t); }\n"
    "}\n"
    "process sum_up(in error; out power; par p, i) {\n"
    "  total = 0;\n"
    "  while 1 {\n"
    "    read error e;\n"
    "    total = (total + e);\n"
    "    write power (((p * e) + (i * total)) / 256);\n"
    "  }\n"
    "}\n"
    "process clamp(in power; out clamped; par least, most) {\n"
    "  while 1 {\n"
    "    read power x;\n"
    "    if (x < least) { x = least; } else {}\n"
    "    if (x > most) { x = most; } else {}\n"
    "    write clamped x;\n"
    "  }\n"
    "}\n"
    "network {\n"
    "  limit 8;\n"
    "  source wanted; source temperature;\n"
    "  channel error cap 1; channel power cap 1;\n"
    "  sink heater cap 1;\n"
    "  subtract = subtract(wanted, temperature; error);\n"
    "  sum_up = sum_up(error; power; 400, 8);\n"
    "  clamp = clamp(power; heater; 0, 2000);\n"
    "}\n";

enum { STEPS = 200, ROOM = 1000 };

/* What a step of the tank makes of its temperature: the heater warms it, and the room cools it. */
static int64_t warmed(int64_t temperature, int64_t power) {
  return temperature + power / 20 - (temperature - 2000) / 50;
}

static size_t channel(kpn_session *session, const char *name) {
  size_t number;
  return kpn_channel(session, name, strlen(name), &number) == KPN_OK ? number : SIZE_MAX;
}

/* Runs the simulation, and returns the first fault, or KPN_OK. */
static uint32_t simulate(kpn_session *session) {
  const size_t wanted = channel(session, "wanted"), is = channel(session, "temperature");
  const size_t heater = channel(session, "heater");
  const int64_t target = 6000;
  int64_t temperature = 2000, power = 0;
  size_t count;
  uint64_t commits;
  uint32_t fault;
  for (int step = 0; step < STEPS; step++) {
    if ((fault = kpn_feed(session, wanted, &target, 1, &count))) return fault;
    if ((fault = kpn_feed(session, is, &temperature, 1, &count))) return fault;
    if ((fault = kpn_step(session, ROOM, &commits))) return fault;
    if ((fault = kpn_take(session, heater, &power, 1, &count))) return fault;
    temperature = warmed(temperature, power);
    if (step % 20 < 19) continue;
    printf("step %3d: power %4" PRId64 ", temperature %4" PRId64 "\n", step + 1, power, temperature);
  }
  return KPN_OK;
}

int main(void) {
  kpn_session session;
  kpn_place place;
  uint32_t fault = kpn_open(controller, strlen(controller), &session, &place);
  if (!fault) fault = simulate(&session);
  if (fault) fprintf(stderr, "fault %" PRIu32 " at %zu\n", fault, place.place);
  kpn_free(&session);
  return fault ? 1 : 0;
}
