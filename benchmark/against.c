// The time that the library takes on sheets, by the time that an earlier library takes, whose functions have the prefix before_: against TURNS SHEET..
// A line for each sheet that is accepted and each work: the median over the turns. Both answer the same calls in turn, and first their answers are compared.
#include "yard.h"
#include <stdio.h>
#include <stdlib.h>
#include <string.h>
#include <time.h>

yard_planned before_yard_by_probe(const uint8_t *, size_t, uint8_t *, size_t);
yard_planned before_yard_by_level(const uint8_t *, size_t, uint8_t *, size_t);
yard_verdict before_yard_judge(const uint8_t *, size_t, const uint8_t *, size_t);

// Code that is never run, so that what is linked behind it lies elsewhere.
#define PADS "nop; nop; nop; nop; nop; nop; nop; nop; nop; nop; nop; nop; nop; nop; nop; nop;"
#if LAYOUT & 1
__asm__(".text\n" PADS);
#endif
#if LAYOUT & 2
__asm__(".text\n" PADS PADS);
#endif
#if LAYOUT & 4
__asm__(".text\n" PADS PADS PADS PADS);
#endif

enum { MOST = 1001 };

static uint8_t sheet[YARD_SHEET_BYTES], buf[YARD_PLAN_BYTES], other[YARD_PLAN_BYTES];
static size_t length, bytes;

typedef yard_planned planner(const uint8_t *, size_t, uint8_t *, size_t);
typedef yard_verdict judge(const uint8_t *, size_t, const uint8_t *, size_t);

static double now(void) {
  struct timespec t;
  clock_gettime(CLOCK_MONOTONIC, &t);
  return (double)t.tv_sec + 1e-9 * (double)t.tv_nsec;
}

static double planning(planner *plan, uint8_t *to, int calls) {
  double start = now();
  for (int k = 0; k < calls; k++) plan(sheet, length, to, YARD_PLAN_BYTES);
  return now() - start;
}

static double judging(judge *test, int calls) {
  double start = now();
  for (int k = 0; k < calls; k++) test(sheet, length, buf, bytes);
  return now() - start;
}

static int by_value(const void *a, const void *b) { return *(const double *)a < *(const double *)b ? -1 : *(const double *)a > *(const double *)b; }

// As many calls as take some milliseconds.
static int calls_for(double seconds) { return seconds > 5e-3 ? 1 : (int)(5e-3 / (seconds + 1e-9)) + 1; }

static void report(const char *yard, const char *work, double *ratio, int turns) {
  qsort(ratio, (size_t)turns, sizeof *ratio, by_value);
  printf("%s %s %.4f\n", yard, work, ratio[turns / 2]);
}

static void plans(const char *yard, const char *work, planner *ours, planner *before, int turns) {
  double ratio[MOST];
  yard_planned a = ours(sheet, length, buf, YARD_PLAN_BYTES), b = before(sheet, length, other, YARD_PLAN_BYTES);
  if (a.number != b.number || a.colours != b.colours || a.slots != b.slots || a.bytes != b.bytes || memcmp(buf, other, a.bytes)) printf("against: the two plans differ on %s\n", yard), exit(1);
  int calls = calls_for(planning(ours, buf, 1));
  for (int k = 0; k < turns; k++) {
    double x = planning(ours, buf, calls);
    ratio[k] = x / planning(before, other, calls);
  }
  report(yard, work, ratio, turns);
}

static void judgements(const char *yard, int turns) {
  double ratio[MOST];
  bytes = yard_by_probe(sheet, length, buf, YARD_PLAN_BYTES).bytes;
  yard_verdict a = yard_judge(sheet, length, buf, bytes), b = before_yard_judge(sheet, length, buf, bytes);
  if (a.number != b.number || a.slots != b.slots) printf("against: the two verdicts differ on %s\n", yard), exit(1);
  int calls = calls_for(judging(yard_judge, 1));
  for (int k = 0; k < turns; k++) {
    double x = judging(yard_judge, calls);
    ratio[k] = x / judging(before_yard_judge, calls);
  }
  report(yard, "judge", ratio, turns);
}

int main(int argc, char **argv) {
  int turns = argc > 1 ? atoi(argv[1]) : 0;
  if (turns < 1 || turns > MOST) return printf("usage: against TURNS SHEET.., 1 to %d turns\n", MOST), 2;
  for (int k = 2; k < argc; k++) {
    FILE *file = fopen(argv[k], "rb");
    if (!file) return printf("against: cannot read %s\n", argv[k]), 2;
    length = fread(sheet, 1, sizeof sheet, file);
    fclose(file);
    if (yard_by_probe(sheet, length, buf, YARD_PLAN_BYTES).number) continue;
    const char *slash = strrchr(argv[k], '/'), *yard = slash ? slash + 1 : argv[k];
    plans(yard, "by-probe", yard_by_probe, before_yard_by_probe, turns);
    plans(yard, "by-level", yard_by_level, before_yard_by_level, turns);
    judgements(yard, turns);
  }
  return 0;
}
