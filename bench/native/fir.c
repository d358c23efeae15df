/* The filter of examples/gallery/fir.kpn as one loop with checked arithmetic, on the numbers of its input. */
#include <inttypes.h>
#include <stdint.h>
#include <stdio.h>
#include <stdlib.h>
#include <time.h>

static const int64_t taps[8] = {-3, 0, 19, 48, 48, 19, 0, -3};

int main(int count, char **words) {
  size_t items = count > 1 ? strtoull(words[1], NULL, 10) : 0;
  int64_t before[8] = {0}, total = 0;
  for (size_t k = 0; k < items; k++) {
    for (int t = 7; t > 0; t--) before[t] = before[t - 1];
    before[0] = (int64_t)(k * 2654435761u % 40001) - 20000;
    int64_t sum = 0;
    for (int t = 0; t < 8; t++) {
      int64_t product;
      if (__builtin_mul_overflow(taps[t], before[t], &product) || __builtin_add_overflow(sum, product, &sum)) return 1;
    }
    total ^= sum;
  }
  printf("%" PRId64 "\n", total);
  return 0;
}
