// Rows 3 to 9 at 8,192 records: our function beside the same check in plain C, with the same filter in front of row 9, on the same book;
// and beside C without the filter on the books that the filter serves worst.
#include <stdint.h>
#include <stdio.h>
#include <stdlib.h>
#include <string.h>
#include <time.h>

#define RECORDS 8192
#define SLOTS 257731
#define OTHER_SLOTS 246731
uint8_t records_check_book(const uint8_t *, size_t);

static uint8_t book[RECORDS * 6];

static double now(void) {
  struct timespec t;
  clock_gettime(CLOCK_MONOTONIC, &t);
  return t.tv_sec * 1e9 + t.tv_nsec;
}

static inline int mark(uint64_t *seen, size_t slot) {
  int was = seen[slot / 64] >> slot % 64 & 1;
  seen[slot / 64] |= (uint64_t)1 << slot % 64;
  return was;
}

// the records packed into keys once, each compared with the earlier ones where both its bits were set before, left at the first refusal
static inline __attribute__((always_inline)) int check(const uint8_t *s, size_t length, int filter) {
  static uint64_t keys[RECORDS];
  uint64_t seen[4096] = {0};
  if (length % 6) return 3;
  size_t n = length / 6;
  if (RECORDS < n) return 4;
  size_t pieces = 1;
  for (size_t i = 0; i < n; i++) {
    const uint8_t *r = s + 6 * i;
    size_t a = r[2] + 256 * r[3], b = r[4] + 256 * r[5];
    int stated = 1 <= r[0] && r[0] <= 4;
    size_t largest = stated && a < b ? b : a;
    if (!stated) return 5;
    if (1 < r[1]) return 6;
    if (2047 < largest) return 7;
    if (r[0] == 1 && a <= b) return 8;
    uint64_t key = r[0] | (uint64_t)r[1] << 8 | (uint64_t)a << 16 | (uint64_t)b << 32;
    keys[i] = key;
    int first = mark(seen, key % SLOTS), second = mark(seen, key % OTHER_SLOTS);
    for (size_t j = !filter || (first && second) ? 0 : i; j < i; j++)
      if (keys[j] == key) return 9;
    if (pieces < largest + 1) pieces = largest + 1;
  }
  return pieces ? 0 : 1;
}

__attribute__((noinline)) static int c_check_book(const uint8_t *s, size_t length) { return check(s, length, 1); }
__attribute__((noinline)) static int c_check_unfiltered(const uint8_t *s, size_t length) { return check(s, length, 0); }

static void put_of(size_t i, int kind, int origin, unsigned a, unsigned b) {
  uint8_t r[6] = {kind, origin, a % 256, a / 256, b % 256, b / 256};
  memcpy(book + 6 * i, r, 6);
}

static void put(size_t i, int kind, unsigned a, unsigned b) { put_of(i, kind, 0, a, b); }

static int order(const void *x, const void *y) {
  double a = *(const double *)x, b = *(const double *)y;
  return (a > b) - (a < b);
}

// the median of 11 runs of each, one after the other
static void compare(const char *what, int (*other)(const uint8_t *, size_t)) {
  double ours[11], theirs[11];
  for (int k = 0; k < 11; k++) {
    double t0 = now();
    int x = records_check_book(book, sizeof book);
    double t1 = now();
    int y = other(book, sizeof book);
    double t2 = now();
    if (x != y) {
      printf("records %s: ours says %d, C %d\n", what, x, y);
      exit(1);
    }
    ours[k] = t1 - t0;
    theirs[k] = t2 - t1;
  }
  qsort(ours, 11, sizeof *ours, order);
  qsort(theirs, 11, sizeof *theirs, order);
  printf("records %s: ours %.0f ns, C %.0f ns, ratio %.2f\n", what, ours[5], theirs[5], ours[5] / theirs[5]);
}

// Keys that fall on as few bits as they can, the lowest 4,600 of each prime.
static void crowd(void) {
  size_t i = 0;
  for (uint64_t kind = 2; kind < 5; kind++)
    for (uint64_t origin = 0; origin < 2; origin++)
      for (uint64_t b = 0; b < 2048; b++)
        for (uint64_t a = 0; a < 2048 && i < RECORDS; a++) {
          uint64_t key = kind + (origin << 8) + (a << 16) + (b << 32);
          if (key % SLOTS < 4600 && key % OTHER_SLOTS < 4600) put_of(i++, kind, origin, a, b);
        }
}

static int repeats(size_t i) {
  for (size_t j = 0; j < i; j++)
    if (memcmp(book + 6 * i, book + 6 * j, 6) == 0) return 1;
  return 0;
}

static void scatter(void) {
  uint64_t x = 1;
  for (size_t i = 0; i < RECORDS; i += !repeats(i)) {
    x = x * 6364136223846793005u + 1442695040888963407u;
    put(i, 2 + (x >> 60) % 3, x >> 49 & 2047, x >> 38 & 2047);
  }
}

int main(void) {
  for (size_t i = 0; i < RECORDS; i++) put(i, 2 + i / 4096, i % 2048, i / 2048);
  compare("rows 3 to 9, 8192 APART and MEETS records", c_check_book);
  put(RECORDS - 1, 2, 0, 0);
  compare("rows 3 to 9, the last record repeats the first", c_check_book);
  scatter();
  compare("rows 3 to 9, 8192 random records", c_check_book);
  crowd();
  compare("rows 3 to 9, keys on few bits", c_check_book);
  compare("rows 3 to 9, keys on few bits, C without a filter", c_check_unfiltered);
}
