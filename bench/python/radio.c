/* The receiver of examples/applications/fm in floating point: samples of 16 bits from standard input, I and Q in turn,
   to samples of 16 bits. The words of the command line are the part of the emphasis that stays, and the taps. */
#include <math.h>
#include <stdint.h>
#include <stdio.h>
#include <stdlib.h>

enum { FACTOR = 5, MOST = 256 };
static const double TURN = 6.283185307179586;

int main(int count, char **words) {
  double taps[MOST] = {0}, line[MOST] = {0}, before = 0, sound = 0;
  int size = count - 2;
  if (size < 1 || size > MOST) return 2;
  double stays = strtod(words[1], NULL);
  for (int k = 0; k < size; k++) taps[k] = strtod(words[2 + k], NULL);
  int16_t point[2];
  for (int n = 0; fread(point, sizeof point, 1, stdin) == 1; n++) {
    double angle = atan2(point[1], point[0]), step = remainder(angle - before, TURN), sum = 0;
    before = angle;
    for (int k = size - 1; k > 0; k--) line[k] = line[k - 1];
    line[0] = step;
    if (n % FACTOR) continue;
    for (int k = 0; k < size; k++) sum += taps[k] * line[k];
    sound = (1 - stays) * sum + stays * sound;
    int16_t made = (int16_t)lrint(sound);
    fwrite(&made, sizeof made, 1, stdout);
  }
  return 0;
}
