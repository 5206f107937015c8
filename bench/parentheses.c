// Rank and matching on the bits of a tree of 10,240 nodes, deep, flat and bushy: our functions beside plain C, on the same bits. The
// search for a closing parenthesis is there three times in C: a byte at a time; eight at a time where the depth is above 64; and by our
// own loops.
#include <stdint.h>
#include <stdio.h>
#include <stdlib.h>
#include <string.h>
#include <time.h>

#define NODES 10240
#define BITS (2 * NODES)
#define BYTES (BITS / 8)

size_t parentheses_ones_before(const uint8_t *, size_t, size_t);
size_t parentheses_find_close(const uint8_t *, size_t, size_t);
size_t parentheses_subtree_end(const uint8_t *, size_t, size_t);

static uint8_t bytes[BYTES];
static uint8_t ones[256];
static int8_t lowest[256];

static double now(void) {
  struct timespec t;
  clock_gettime(CLOCK_MONOTONIC, &t);
  return t.tv_sec * 1e9 + t.tv_nsec;
}

static void tables(void) {
  for (int b = 0; b < 256; b++) {
    int low = 8, excess = 0;
    for (int j = 0; j < 8; j++) {
      excess += b >> j & 1 ? 1 : -1;
      if (excess < low) low = excess;
      ones[b] += b >> j & 1;
    }
    lowest[b] = low;
  }
}

__attribute__((noinline)) static size_t c_ones_before(const uint8_t *s, size_t len, size_t k) {
  if (len > BYTES || k > len * 8) return 0;
  size_t n = 0;
  for (size_t i = 0; i < k >> 3; i++) n += ones[s[i]];
  if ((k & 7) == 0) return n;
  return n + ones[s[k >> 3] & ((1 << (k & 7)) - 1)];
}

__attribute__((noinline)) static size_t c_find_close(const uint8_t *s, size_t len, size_t open) {
  if (len > BYTES || open >= len * 8 || !(s[open >> 3] >> (open & 7) & 1)) return 0;
  size_t end = len << 3, depth = 1, p = open + 1;
  while (p < end) {
    if ((p & 7) == 0) {
      uint8_t b = s[p >> 3];
      if (depth + (lowest[b] + 8) > 8) {
        depth = depth + 2 * ones[b] - 8;
        p += 8;
        continue;
      }
    }
    size_t one = s[p >> 3] >> (p & 7) & 1;
    depth = depth + one - (1 - one);
    if (depth == 0) return p;
    p++;
  }
  return end;
}

// Eight bytes at a time where the depth is above 64, so that they cannot close it.
__attribute__((noinline)) static size_t c_find_close_eight(const uint8_t *s, size_t len, size_t open) {
  size_t end = len << 3, depth = 1, p = open + 1;
  while (p < end) {
    if ((p & 7) == 0) {
      if (depth > 64 && p + 64 <= end) {
        uint64_t w;
        memcpy(&w, s + (p >> 3), 8);
        depth = depth + 2 * __builtin_popcountll(w) - 64;
        p += 64;
        continue;
      }
      uint8_t b = s[p >> 3];
      if (depth + (lowest[b] + 8) > 8) {
        depth = depth + 2 * ones[b] - 8;
        p += 8;
        continue;
      }
    }
    size_t one = s[p >> 3] >> (p & 7) & 1;
    depth = depth + one - (1 - one);
    if (depth == 0) return p;
    p++;
  }
  return end;
}

static inline size_t c_run(size_t n, size_t left) {
  size_t m = n >> 3 ? n >> 3 : 1;
  return left < m ? left : m;
}

static inline size_t c_passable(const uint8_t *s, size_t len, size_t i, size_t depth) {
  if (depth > 64) return c_run(depth - 1, len - i);
  size_t most = c_run(128, len - i), m = 0, floor = depth;
  while (m < most) {
    size_t margin = lowest[s[i + m]] + 8;
    if (floor + margin <= 8) return m;
    floor = floor + margin - 8;
    m++;
  }
  return m;
}

// Our loops.
__attribute__((noinline)) static size_t c_find_close_runs(const uint8_t *s, size_t len, size_t open) {
  if (len > BYTES || open >= len * 8 || !(s[open >> 3] >> (open & 7) & 1)) return 0;
  size_t end = len << 3, depth = 1, p = open + 1, next = p >> 3;
  if (next == len) return end;
  for (; p >> 3 == next; p++) {
    size_t one = s[p >> 3] >> (p & 7) & 1;
    depth = depth + one - (1 - one);
    if (depth == 0) return p;
  }
  while (p < end) {
    if ((p & 7) == 0) {
      size_t i = p >> 3, m = c_passable(s, len, i, depth), n = 0;
      if (m > 0) {
        for (size_t j = i; j < i + m; j++) n += ones[s[j]];
        depth = depth + n - (8 * m - n);
        p += 8 * m;
        continue;
      }
    }
    size_t one = s[p >> 3] >> (p & 7) & 1;
    depth = depth + one - (1 - one);
    if (depth == 0) return p;
    p++;
  }
  return end;
}

static uint64_t state = 1;
static int coin(void) {
  state = (state * 1103515245 + 12345) % 2147483648u;
  return state >> 16 & 1;
}

// 0 deep, 1 flat, 2 bushy
static void generate(int shape) {
  memset(bytes, 0, BYTES);
  size_t opened = 0, depth = 0;
  for (size_t k = 0; k < BITS; k++) {
    int one = depth == 0 || (opened < NODES && (shape == 0 || (shape == 1 ? depth < 2 : coin())));
    if (one) bytes[k >> 3] |= 1 << (k & 7), opened++, depth++;
    else depth--;
  }
}

typedef size_t (*question)(const uint8_t *, size_t, size_t);
static size_t asked[NODES];
static size_t sum;

// ns a call over every node
static double run(question q) {
  double t = now();
  for (size_t i = 0; i < NODES; i++) sum += q(bytes, BYTES, asked[i]);
  return (now() - t) / NODES;
}

// the best of 25 runs of each, taken in turn
static void report(const char *shape, const char *what, question ours, question c) {
  double x = 1e18, y = 1e18;
  for (size_t i = 0; i < NODES; i++)
    if (ours(bytes, BYTES, asked[i]) != c(bytes, BYTES, asked[i])) {
      printf("parentheses %s %s: DIFFERENT at %zu\n", shape, what, asked[i]);
      exit(1);
    }
  for (int i = 0; i < 25; i++) {
    double t = run(ours), u = run(c);
    if (t < x) x = t;
    if (u < y) y = u;
  }
  printf("parentheses %s %s: ours %.1f ns, C %.1f ns, ratio %.2f\n", shape, what, x, y, x / y);
}

int main(void) {
  const char *names[] = {"deep", "flat", "bushy"};
  tables();
  for (int shape = 0; shape < 3; shape++) {
    generate(shape);
    size_t n = 0;
    for (size_t k = 0; k < BITS; k++)
      if (bytes[k >> 3] >> (k & 7) & 1) asked[n++] = k;
    report(names[shape], "ones_before", parentheses_ones_before, c_ones_before);
    report(names[shape], "find_close, C by bytes", parentheses_find_close, c_find_close);
    report(names[shape], "find_close, C by eights", parentheses_find_close, c_find_close_eight);
    report(names[shape], "find_close, C by our loops", parentheses_find_close, c_find_close_runs);
  }
  return sum == 1;
}
