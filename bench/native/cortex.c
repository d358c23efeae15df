/* The network of examples/c/loop.c on a Cortex-M4 without a system: cortex.py compiles it, and QEMU runs it. With
   -icount shift=0 an instruction takes 1 ns there, and SysTick counts 25 million a second. So it tells instructions. */
#include <stdbool.h>
#include <stdint.h>
#include <stdio.h>

#include "kpn.h"

enum { STEPS = 20000, FIRST = 100, PER_TICK = 40, MOST = 1000 };

#define SYSTICK ((volatile uint32_t *)0xe000e010)

int main(void);
extern uint32_t stack_top[];

/* Asks QEMU by semihosting. */
static int ask(int operation, const void *of) {
  register int r0 __asm__("r0") = operation;
  register const void *r1 __asm__("r1") = of;
  __asm__ volatile("bkpt 0xab" : "+r"(r0) : "r"(r1) : "memory");
  return r0;
}

static void tell(const char *text) {
  ask(4, text);
}

static void leave(int status) {
  uint32_t words[2] = {0x20026, (uint32_t)status};
  ask(0x20, words);
}

static void reset(void) {
  *(volatile uint32_t *)0xe000ed88 |= 0xf << 20; /* the unit for floats, which no code here needs */
  leave(main());
}

static void fault(void) {
  tell("a fault of the processor\n");
  leave(3);
}

__attribute__((section(".vectors"), used)) static const void *const vectors[16] = {
    stack_top, (const void *)reset, (const void *)fault, (const void *)fault,
    (const void *)fault, (const void *)fault, (const void *)fault};

/* What a step makes of the motor. */
static void turn(int64_t *speed, int64_t *current, int64_t voltage, int64_t load) {
  *current += (voltage - *current - *speed / 4) / 8;
  *speed += (*current - load) / 16;
}

static void put(const char *what, uint32_t number) {
  char text[32], *at = text + sizeof text;
  *--at = 0;
  *--at = '\n';
  do {
    *--at = (char)('0' + number % 10);
    number /= 10;
  } while (number);
  tell(what);
  tell(at);
}

/* The ticks since the call before. It counts down in 24 bits. */
static uint32_t ticks(uint32_t *before) {
  uint32_t now = SYSTICK[2], passed = (*before - now) & 0xffffff;
  *before = now;
  return passed;
}

int main(void) {
  kpn_session session;
  kpn_place place;
  int64_t speed = 0, current = 0;
  uint32_t before = 0, sum = 0, least = UINT32_MAX, most = 0, check = 0;
  kpn_item items[3] = {{0, 0}, {1, 0}, {2, 0}};
  kpn_wanted places[3] = {{16, 0, false}, {17, 0, false}, {18, 0, false}};
  kpn_amounts amounts;
  SYSTICK[1] = 0xffffff;
  SYSTICK[2] = 0;
  SYSTICK[0] = 5;
  if (kpn_open("", 0, &session, &place)) {
    return 1;
  }
  for (int step = 0; step < STEPS; step++) {
    items[0].item = step % 400 < 200 ? 10000 : -4000;
    items[1].item = speed;
    items[2].item = current;
    ticks(&before);
    if (kpn_move(&session, items, 3, MOST, places, 3, &amounts)) {
      return 2;
    }
    uint32_t passed = ticks(&before);
    check = check * 31 + (uint32_t)places[0].item;
    turn(&speed, &current, places[0].item, step > 100 ? 800 : 0);
    if (step >= FIRST) {
      sum += passed;
      least = passed < least ? passed : least;
      most = passed > most ? passed : most;
    }
  }
  put("mean ", sum / ((STEPS - FIRST) / PER_TICK));
  put("least ", least * PER_TICK);
  put("most ", most * PER_TICK);
  put("check ", check);
  return 0;
}
