/* vectors.c: items between rings and the arrays of loops without checks. */
#include "network.h"

/* How many of these items lie in one piece of the ring. */
static size_t piece(size_t at, size_t mask, size_t count) {
  size_t behind = mask - (at & mask);
  return behind < count ? behind + 1 : count;
}

KPN_VECTORS static uint64_t copy_piece(int32_t *restrict to, const int64_t *restrict from, size_t count) {
  uint64_t all = 0;
  for (size_t k = 0; k < count; k++) {
    all |= (uint64_t)from[k] + 32768;
    to[k] = (int32_t)from[k];
  }
  return all;
}

KPN_VECTORS static void widen_piece(int64_t *restrict to, const int32_t *restrict from, size_t count) {
  for (size_t k = 0; k < count; k++) {
    to[k] = from[k];
  }
}

bool kpn_copy_small(int32_t *to, const int64_t *ring, size_t at, size_t mask, size_t count) {
  uint64_t all = 0;
  for (size_t done = 0, next; done < count; done += next) {
    next = piece(at + done, mask, count - done);
    all |= copy_piece(to + done, ring + ((at + done) & mask), next);
  }
  return all < 65536;
}

void kpn_widen(const int32_t *from, int64_t *ring, size_t at, size_t mask, size_t first, size_t end) {
  for (size_t next; first < end; first += next) {
    next = piece(at + first, mask, end - first);
    widen_piece(ring + ((at + first) & mask), from + first, next);
  }
}

bool kpn_are_same(const int32_t *from, const int64_t *ring, size_t at, size_t mask, size_t first, size_t end) {
  while (first < end && ring[(at + first) & mask] == from[first]) {
    first++;
  }
  return first == end;
}
