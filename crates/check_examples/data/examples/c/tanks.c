/* A simulator of two heated tanks in a row: the second gets its water from the first. It steps the tanks, and a network
   controls both heaters. In each step one call of kpn_move feeds the temperatures, lets the network go on until it
   can't, and takes the powers of the heaters.

   It prints a table: the step, the two temperatures, the two powers. gnuplot draws it:

     ./tanks > tanks.table
     gnuplot -p -e "plot for [k=2:3] 'tanks.table' using 1:k with lines title columnheader"

   README.md says how to build it. */
#include <inttypes.h>
#include <stdio.h>
#include <string.h>
#include "kpn.h"

/* A controller for each tank: power for the error, and for the sum of the errors. Temperatures are in hundredths of a
   degree. The second tank is warmed less if the first one is warmer, since that water comes to it. */
static const char controllers[] =
    "process control(in is; out power, error; par wanted, p, i) {\n"
    "  total = 0;\n"
    "  while 1 {\n"
    "    read is t;\n"
    "    e = (wanted - t);\n"
    "    total = (total + e);\n"
    "    write error e;\n"
    "    write power (((p * e) + (i * total)) / 256);\n"
    "  }\n"
    "}\n"
    "process lower(in power, error; out lowered) {\n"
    "  while 1 { read power x; read error e; write lowered (x + (e / 4)); }\n"
    "}\n"
    "process clamp(in power; out clamped; par least, most) {\n"
    "  while 1 {\n"
    "    read power x;\n"
    "    if (x < least) { x = least; } else {}\n"
    "    if (x > most) { x = most; } else {}\n"
    "    write clamped x;\n"
    "  }\n"
    "}\n"
    "process drop(in error) { while 1 { read error e; } }\n"
    "network {\n"
    "  limit 8;\n"
    "  source first; source second;\n"
    "  channel p1 cap 1; channel e1 cap 1; channel p2 cap 1; channel e2 cap 1; channel l2 cap 1;\n"
    "  sink heater1 cap 1; sink heater2 cap 1;\n"
    "  one = control(first; p1, e1; 5000, 300, 4);\n"
    "  two = control(second; p2, e2; 6000, 300, 4);\n"
    "  lower = lower(p2, e1; l2);\n"
    "  clamp1 = clamp(p1; heater1; 0, 3000);\n"
    "  clamp2 = clamp(l2; heater2; 0, 3000);\n"
    "  drop = drop(e2;);\n"
    "}\n";

enum { STEPS = 300, MOST = 1000 };

/* What a step makes of the temperatures: the heaters warm the tanks, water flows on, and the room cools them. */
static void warm(int64_t temperatures[2], const kpn_wanted powers[2]) {
  const int64_t inflow = (temperatures[0] - temperatures[1]) / 20;
  temperatures[0] += powers[0].item / 20 - (temperatures[0] - 1500) / 40;
  temperatures[1] += powers[1].item / 20 - (temperatures[1] - 1500) / 60 + inflow;
}

static size_t channel(kpn_session *session, const char *name) {
  size_t number;
  return kpn_channel(session, name, strlen(name), &number) == KPN_OK ? number : SIZE_MAX;
}

/* Runs the simulation, and returns the first fault, or KPN_OK. */
static uint32_t simulate(kpn_session *session) {
  int64_t temperatures[2] = {1500, 1500};
  kpn_item items[2] = {{channel(session, "first"), 0}, {channel(session, "second"), 0}};
  kpn_wanted powers[2] = {{channel(session, "heater1"), 0, false}, {channel(session, "heater2"), 0, false}};
  kpn_amounts done;
  printf("step first second heater1 heater2\n");
  for (int step = 0; step < STEPS; step++) {
    for (int k = 0; k < 2; k++) items[k].item = temperatures[k];
    const uint32_t fault = kpn_move(session, items, 2, MOST, powers, 2, &done);
    if (fault) return fault;
    printf("%d %.2f %.2f %" PRId64 " %" PRId64 "\n", step, (double)temperatures[0] / 100, (double)temperatures[1] / 100,
           powers[0].item, powers[1].item);
    warm(temperatures, powers);
  }
  return KPN_OK;
}

int main(void) {
  kpn_session session;
  kpn_place place;
  uint32_t fault = kpn_open(controllers, strlen(controllers), &session, &place);
  if (!fault) fault = simulate(&session);
  if (fault) fprintf(stderr, "fault %" PRIu32 " at %zu\n", fault, place.place);
  kpn_free(&session);
  return fault ? 1 : 0;
}
