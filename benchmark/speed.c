// Plans, judgements and wake books a second of the proved library and of the second reading (tests/independent/second.c), on five yards: the longest sheet, sixty probes at random, a star, yard A of docs/RULES.md, and sixty at random with relays; and the book of the longest plan that passes, with 65,535 slots, and the merged plan of the sixty.
// Both answer the same calls turn by turn in one run, and first their answers are compared. Each buffer is cleared before a plan is made, outside the
// time. speed [TURNS]
#include "second.h"
#include <stdio.h>
#include <stdlib.h>
#include <string.h>
#include <time.h>

enum { MOST = 1001, ANY = 0, RELAYS = -1 };

static int turns = 21;

static uint8_t sheet[YARD_SHEET_BYTES], buf[YARD_JUDGED_BYTES], other[YARD_PLAN_BYTES], book[YARD_BOOK_BYTES], other_book[YARD_BOOK_BYTES];
static size_t length;

// RULES, "Yards to try".
static const uint8_t A[] = {0x03, 0x01, 0x01, 0x02, 0x01, 0x01, 0x01, 0x00, 0x00};

static double now(void) {
  struct timespec t;
  clock_gettime(CLOCK_MONOTONIC, &t);
  return (double)t.tv_sec + 1e-9 * (double)t.tv_nsec;
}

static uint32_t rnd(uint32_t below) {
  static uint64_t state = 2026;
  state = state * 6364136223846793005u + 1442695040888963407u;
  return (uint32_t)((state >> 33) % below);
}

// A yard of p probes: parent(v) by shape; packets (ANY: 1 to 15 at random; RELAYS: the same, but every third probe has none); a pair with chance 1 in `among` (0: none).
static void yard(int p, int shape, int packets, uint32_t among) {
  size_t at = 0, count;
  int q = 0;
  sheet[at++] = (uint8_t)p;
  for (int v = 2; v <= p + 1; v++) {
    sheet[at++] = (uint8_t)(shape == 0 ? v - 1 : shape == 1 ? 1 : 1 + (int)rnd((uint32_t)v - 1));
    sheet[at++] = (uint8_t)(packets > 0 ? packets : packets == RELAYS && v % 3 == 0 ? 0 : 1 + (int)rnd(15));
  }
  count = at, at += 2;
  for (int a = 1; a <= p + 1; a++)
    for (int b = a + 1; b <= p + 1; b++)
      if (among && rnd(among) == 0) sheet[at++] = (uint8_t)a, sheet[at++] = (uint8_t)b, q++;
  sheet[count] = (uint8_t)(q / 256), sheet[count + 1] = (uint8_t)(q % 256);
  length = at;
}

typedef yard_planned planner(const uint8_t *, size_t, uint8_t *, size_t);
typedef yard_verdict judge(const uint8_t *, size_t, const uint8_t *, size_t);

static double planning(planner *plan, uint8_t *to, int calls) {
  double taken = 0;
  for (int k = 0; k < calls; k++) {
    memset(to, 0, YARD_PLAN_BYTES);
    double start = now();
    plan(sheet, length, to, YARD_PLAN_BYTES);
    taken += now() - start;
  }
  return taken / calls;
}

static double judging(judge *test, size_t bytes, int calls) {
  double start = now();
  for (int k = 0; k < calls; k++) test(sheet, length, buf, bytes);
  return (now() - start) / calls;
}

static int by_value(const void *a, const void *b) { return *(const double *)a < *(const double *)b ? -1 : *(const double *)a > *(const double *)b; }

static void report(const char *yard, const char *what, double *ratio, double ours, double theirs) {
  qsort(ratio, (size_t)turns, sizeof *ratio, by_value);
  printf("%-12s %-9s %10.0f %10.0f   %.2f (%.2f to %.2f)\n", yard, what, 1 / ours, 1 / theirs, ratio[turns / 2], ratio[turns / 10], ratio[turns - 1 - turns / 10]);
}

static int calls_for(double seconds) { return seconds > 2e-2 ? 1 : (int)(2e-2 / seconds) + 1; }

static void plans(const char *name, const char *what, planner *ours, planner *theirs) {
  double ratio[MOST], best = 1e9, other_best = 1e9;
  yard_planned a = ours(sheet, length, buf, YARD_PLAN_BYTES), b = theirs(sheet, length, other, YARD_PLAN_BYTES);
  if (a.number || b.number || a.place != b.place || a.colours != b.colours || a.slots != b.slots || a.bytes != b.bytes || memcmp(buf, other, a.bytes)) printf("bench: the two planners differ on %s\n", name), exit(1);
  int calls = calls_for(planning(ours, buf, 1));
  for (int k = 0; k < turns; k++) {
    double x = planning(ours, buf, calls), z = planning(theirs, other, calls);
    ratio[k] = x / z, best = x < best ? x : best, other_best = z < other_best ? z : other_best;
  }
  report(name, what, ratio, best, other_best);
}

static void judgements(const char *name) {
  double ratio[MOST], best = 1e9, other_best = 1e9;
  size_t bytes = yard_by_probe(sheet, length, buf, YARD_PLAN_BYTES).bytes;
  yard_verdict a = yard_judge(sheet, length, buf, bytes), b = second_judge(sheet, length, buf, bytes);
  if (a.number || b.number || a.place != b.place || a.slots != b.slots || a.first != b.first || a.second != b.second) printf("bench: the two judges differ on %s\n", name), exit(1);
  int calls = calls_for(judging(yard_judge, bytes, 1));
  for (int k = 0; k < turns; k++) {
    double x = judging(yard_judge, bytes, calls), z = judging(second_judge, bytes, calls);
    ratio[k] = x / z, best = x < best ? x : best, other_best = z < other_best ? z : other_best;
  }
  report(name, "judge", ratio, best, other_best);
}

typedef yard_booked maker(const uint8_t *, size_t, const uint8_t *, size_t, uint8_t *, size_t);

static double booking(maker *make, size_t bytes, uint8_t *to, int calls) {
  double start = now();
  for (int k = 0; k < calls; k++) make(sheet, length, buf, bytes, to, YARD_BOOK_BYTES);
  return (now() - start) / calls;
}

// The plan stands in buf.
static void books(const char *name, size_t bytes) {
  double ratio[MOST], best = 1e9, other_best = 1e9;
  yard_booked a = yard_book(sheet, length, buf, bytes, book, YARD_BOOK_BYTES), b = second_book(sheet, length, buf, bytes, other_book, YARD_BOOK_BYTES);
  if (a.number || b.number || a.bytes != b.bytes || memcmp(book, other_book, a.bytes)) printf("bench: the two books differ on %s\n", name), exit(1);
  int calls = calls_for(booking(yard_book, bytes, book, 1));
  for (int k = 0; k < turns; k++) {
    double x = booking(yard_book, bytes, book, calls), z = booking(second_book, bytes, other_book, calls);
    ratio[k] = x / z, best = x < best ? x : best, other_best = z < other_best ? z : other_best;
  }
  report(name, "book", ratio, best, other_best);
}

// The longest plan that passes: slots without a sender behind those of the plan by probe.
static void longest_book(void) {
  yard_planned own = yard_by_probe(sheet, length, buf, YARD_PLAN_BYTES);
  memset(buf, 255, 2), memset(buf + own.bytes, 0, 65535u - own.slots);
  books("65,535 slots", own.bytes + 65535u - own.slots);
}

static void all(const char *name) {
  plans(name, "by probe", yard_by_probe, second_by_probe);
  plans(name, "by level", yard_by_level, second_by_level);
  judgements(name);
  books(name, yard_by_probe(sheet, length, buf, YARD_PLAN_BYTES).bytes);
}

int main(int argc, char **argv) {
  if (argc == 2) turns = atoi(argv[1]);
  if (turns < 1 || turns > MOST) return printf("usage: speed [TURNS], 1 to %d\n", MOST), 2;
  printf("%-12s %-9s %10s %10s   %s\n", "yard", "work", "ours / s", "C / s", "our time / C's time: median (80% of the turns)");
  yard(63, 0, 15, 1), all("longest"), longest_book();
  yard(60, 2, ANY, 60), all("sixty"), plans("sixty", "merged", yard_merged, second_merged);
  yard(63, 1, 15, 0), all("star");
  memcpy(sheet, A, sizeof A), length = sizeof A, all("A");
  yard(60, 2, RELAYS, 60), all("relays");
  return 0;
}
