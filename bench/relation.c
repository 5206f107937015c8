// Matrices of bits, 2,048 rows of 32 words: our functions beside plain C, on the same input.
#include <stdint.h>
#include <stdbool.h>
#include <stdio.h>
#include <stdlib.h>
#include <string.h>
#include <time.h>

#define WORDS 65536
void relation_union_within(uint64_t *, size_t, size_t, size_t);
bool relation_meet(const uint64_t *, size_t, size_t, const uint64_t *, size_t, size_t);

static uint64_t a[WORDS], b[WORDS], c[WORDS];

static double now(void) {
  struct timespec t;
  clock_gettime(CLOCK_MONOTONIC, &t);
  return t.tv_sec * 1e9 + t.tv_nsec;
}

static uint64_t seed = 88172645463325252u;
static uint64_t next(void) {
  seed ^= seed << 13;
  seed ^= seed >> 7;
  seed ^= seed << 17;
  return seed;
}

__attribute__((noinline)) static void c_union_row(uint64_t *dst, size_t r, const uint64_t *src, size_t s) {
  for (size_t i = 0; i < 32; i++) dst[r * 32 + i] |= src[s * 32 + i];
}

__attribute__((noinline)) static bool c_meet(const uint64_t *m, size_t r, const uint64_t *n, size_t s) {
  for (size_t i = 0; i < 32; i++)
    if (m[r * 32 + i] & n[s * 32 + i]) return true;
  return false;
}

// the lower triangle, every one in `rare` bits of it
static void fill(uint64_t *m, unsigned rare) {
  memset(m, 0, WORDS * 8);
  for (size_t r = 0; r < 2048; r++)
    for (size_t i = 0; i <= r; i++)
      if (next() % rare == 0) m[r * 32 + i / 64] |= (uint64_t)1 << (i % 64);
}

static void report(const char *what, double ours, double plain) {
  printf("relation %s: ours %.1f ns, C %.1f ns, ratio %.2f\n", what, ours, plain, ours / plain);
}

static volatile size_t sink;

#define BEST(out, times, ...) \
  do { \
    out = 1e30; \
    for (int rep_ = 0; rep_ < 7; rep_++) { \
      double t0_ = now(); \
      for (int k = 0; k < times; k++) { __VA_ARGS__; } \
      double t_ = (now() - t0_) / times; \
      if (t_ < out) out = t_; \
    } \
  } while (0)

int main(void) {
  double ours, plain;
  fill(a, 2);
  fill(b, 2);
  memset(c, 0, sizeof c);
  BEST(ours, 100000, relation_union_within(c, WORDS, k % 2048, (k * 7) % 2048));
  BEST(plain, 100000, c_union_row(c, k % 2048, c, (k * 7) % 2048));
  report("union of two rows of one matrix", ours, plain);
  fill(a, 1 << 30);
  BEST(ours, 100000, sink += relation_meet(a, WORDS, k % 2048, b, WORDS, (k * 7) % 2048));
  BEST(plain, 100000, sink += c_meet(a, k % 2048, b, (k * 7) % 2048));
  report("meeting of two rows", ours, plain);
  return 0;
}
