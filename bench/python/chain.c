/* The chain of bench/python/chain.py: whole numbers of 8 bytes from standard input to standard output. The taps are
   the words of the command line, and after them the five coefficients of the notch. */
#include <inttypes.h>
#include <stdint.h>
#include <stdio.h>
#include <stdlib.h>

enum { TAPS = 31, THRESHOLD = 8000, RATIO = 4, ATTACK = 48, RELEASE = 4800 };

static int64_t nearest(int64_t a, int64_t b) { return (a < 0 ? a - b / 2 : a + b / 2) / b; }

int main(int count, char **words) {
  int64_t taps[TAPS], c[5], line[TAPS] = {0}, x1 = 0, x2 = 0, y1 = 0, y2 = 0, r1 = 0, r2 = 0, level = 0, item;
  if (count != TAPS + 6) return 2;
  for (int k = 0; k < TAPS; k++) taps[k] = strtoll(words[1 + k], NULL, 10);
  for (int k = 0; k < 5; k++) c[k] = strtoll(words[1 + TAPS + k], NULL, 10);
  while (fread(&item, sizeof item, 1, stdin) == 1) {
    int64_t sum = 0;
    for (int k = TAPS - 1; k > 0; k--) line[k] = line[k - 1];
    line[0] = item;
    for (int k = 0; k < TAPS; k++) sum += taps[k] * line[k];
    int64_t x = nearest(sum, 1 << 15);
    sum = c[0] * x + c[1] * x1 + c[2] * x2 - c[3] * y1 - c[4] * y2 + 2 * r1 - r2;
    int64_t y = nearest(sum, 1 << 30);
    r2 = r1, r1 = sum - (y << 30), x2 = x1, x1 = x, y2 = y1, y1 = y;
    int64_t step = (y < 0 ? -y : y) * 65536 - level;
    level += step / (step > 0 ? ATTACK : RELEASE);
    int64_t v = level / 65536;
    if (v > THRESHOLD) y = nearest(y * (THRESHOLD * (RATIO - 1) + v), v * RATIO);
    fwrite(&y, sizeof y, 1, stdout);
  }
  return 0;
}
