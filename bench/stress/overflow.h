/* The checked operations of gcc and clang, for compilers without them: `-include overflow.h`. */
#include <stdint.h>

static inline int overflows_add(int64_t a, int64_t b, int64_t *sum) {
  *sum = (int64_t)((uint64_t)a + (uint64_t)b);
  return ((a ^ *sum) & (b ^ *sum)) < 0;
}

static inline int overflows_sub(int64_t a, int64_t b, int64_t *difference) {
  *difference = (int64_t)((uint64_t)a - (uint64_t)b);
  return ((a ^ b) & (a ^ *difference)) < 0;
}

static inline int overflows_mul(int64_t a, int64_t b, int64_t *product) {
  *product = (int64_t)((uint64_t)a * (uint64_t)b);
  if (a == -1 || b == -1) {
    return a == INT64_MIN || b == INT64_MIN;
  }
  return a != 0 && *product / a != b;
}

#define __builtin_add_overflow overflows_add
#define __builtin_sub_overflow overflows_sub
#define __builtin_mul_overflow overflows_mul
