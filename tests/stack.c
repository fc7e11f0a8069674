// How deep each function of yard.h goes, on a painted stack: YARD_STACK and YARD_LIST_STACK must be enough, and less than twice what is used.
#include "yard.h"
#include <stdio.h>
#include <stdlib.h>
#include <string.h>
#include <ucontext.h>

enum { BY_PROBE, BY_LEVEL, JUDGE, CHOOSE, GRAPH_WRITE, GRAPH_READ, SPREAD, WORST, BEST, BOOK, MERGED, MERGED_JUDGE, MERGED_ASK, LIST, ASK, FUNCTIONS, PAINT = 0xa5, LENT = 1 << 20, LAST_SLOT = 255, MOST_SLOTS = 65535 };

static uint8_t lent[LENT], sheet[YARD_SHEET_BYTES], plan[YARD_JUDGED_BYTES + 1], out[YARD_TEXT_BYTES], text[YARD_GRAPH_BYTES];
static uint64_t rows[64];
static size_t length, bytes, room, text_bytes, deepest[FUNCTIONS];
static ucontext_t here, there;
static int function;

static void call(void) {
  if (function == BY_PROBE) yard_by_probe(sheet, length, out, room);
  if (function == BY_LEVEL) yard_by_level(sheet, length, out, room);
  if (function == JUDGE) yard_judge(sheet, length, plan, bytes);
  if (function == CHOOSE) yard_choose(sheet, length, plan, bytes, plan, bytes);
  if (function == GRAPH_WRITE) yard_graph_write(sheet, length, out, room);
  if (function == GRAPH_READ) yard_graph_read(text, text_bytes, rows);
  if (function == SPREAD) yard_ask_spread(sheet, length);
  if (function == WORST) yard_worst(sheet, length, out, room);
  if (function == BEST) yard_best(sheet, length, out, room);
  if (function == BOOK) yard_book(sheet, length, plan, bytes, out, room);
  if (function == MERGED) yard_merged(sheet, length, out, room);
  if (function == MERGED_JUDGE) yard_merged_judge(sheet, length, plan, bytes);
  if (function == MERGED_ASK) yard_merged_ask(sheet, length);
  if (function == LIST) yard_list(sheet, length, out, room);
  if (function == ASK) yard_ask(sheet, length);
}

static void measure(int which) {
  size_t unused = 0;
  function = which;
  memset(lent, PAINT, LENT);
  getcontext(&there);
  there.uc_stack.ss_sp = lent, there.uc_stack.ss_size = LENT, there.uc_link = &here;
  makecontext(&there, call, 0);
  swapcontext(&here, &there);
  while (unused < LENT && lent[unused] == PAINT) unused++;
  if (LENT - unused > deepest[which]) deepest[which] = LENT - unused;
}

static void judged(size_t size) {
  bytes = size, measure(JUDGE), measure(CHOOSE), measure(MERGED_JUDGE);
  for (room = 0; room <= YARD_TEXT_BYTES; room += YARD_TEXT_BYTES) measure(BOOK);
}

static void small_plan(const char *its_bytes, size_t size) { memcpy(plan, its_bytes, size), judged(size); }

// Probe 64 sends once more than it has packets.
static void sent_too_often(void) {
  plan[0] = 0, plan[1] = 16;
  for (int k = 1; k <= 16; k++) plan[2 * k] = 1, plan[2 * k + 1] = 64;
  judged(34);
}

// Plans cut, too long and refused in each way, and last the longest that decide a verdict: empty slots behind ours, then one with too many senders.
static void plans(size_t own, size_t slots) {
  judged(own), judged(own - 1), judged(own + 1);
  size_t size = own + MOST_SLOTS - slots;
  memset(plan + own, 0, size - own), memset(plan, 255, 2);
  judged(size);
  plan[size - 1] = LAST_SLOT, memset(plan + size, 2, LAST_SLOT);
  judged(size + LAST_SLOT);
  small_plan("\0\0", 2), small_plan("\0\1\1\1", 4), small_plan("\0\2\1\2\1\2", 6), small_plan("\0\1\2\2\3", 5), sent_too_often();
}

static void read_text(size_t size) { text_bytes = size, measure(GRAPH_READ); }

static void small_text(const char *its_bytes, int number) {
  memcpy(text, its_bytes, strlen(its_bytes)), read_text(strlen(its_bytes));
  if (yard_graph_read(text, text_bytes, rows).number != number) printf("the text %s is not answered %d\n", its_bytes, number), exit(1);
}

// The graph's text, cut off too, and small ones that are answered in each way.
static void texts(size_t size) {
  read_text(size), read_text(size - 1);
  small_text("", 18), small_text("c\np edge 2 1\ne 2 1\n", 0), small_text("p edge 2 1\ne 1 1\n", 19), small_text("p edge 2 1\ne 1 64\n", 19),
      small_text("p edge 2 100000000000000000000\n", 20);
}

// Every function on the sheet that stands there; each judge has both plans to judge, its own and the other's.
static void sheet_done(void) {
  yard_planned own = yard_by_probe(sheet, length, plan, YARD_PLAN_BYTES);
  for (room = 0; room <= YARD_TEXT_BYTES; room += YARD_TEXT_BYTES)
    measure(BY_PROBE), measure(BY_LEVEL), measure(LIST), measure(ASK), measure(GRAPH_WRITE), measure(SPREAD), measure(WORST), measure(BEST), measure(MERGED), measure(MERGED_ASK);
  yard_drawn drawn = yard_graph_write(sheet, length, text, YARD_GRAPH_BYTES);
  if (drawn.number == 0) texts(drawn.bytes);
  if (own.number) judged(0);
  else plans(own.bytes, own.slots), own = yard_merged(sheet, length, plan, YARD_MERGED_BYTES), plans(own.bytes, own.slots);
}

// 63 probes of 15 packets, in a chain or next to the gateway, with all pairs or none.
static void yard(int is_chain, int all_pairs) {
  length = 0, sheet[length++] = 63;
  for (int v = 2; v <= 64; v++) sheet[length++] = (uint8_t)(is_chain ? v - 1 : 1), sheet[length++] = 15;
  sheet[length++] = all_pairs ? 2016 / 256 : 0, sheet[length++] = all_pairs ? 2016 % 256 : 0;
  for (int a = 1; all_pairs && a <= 64; a++)
    for (int b = a + 1; b <= 64; b++) sheet[length++] = (uint8_t)a, sheet[length++] = (uint8_t)b;
}

// The longest sheet with one byte changed, so that it is refused as late as can be.
static void damaged(size_t at, int byte, int number) {
  yard(1, 1), sheet[at] = (uint8_t)byte;
  if (yard_judge(sheet, length, plan, 0).number != number) printf("the sheet with another byte %zu is not refused %d\n", at, number), exit(1);
  sheet_done();
}

static void sheets(void) {
  for (int shape = 0; shape < 4; shape++) yard(shape / 2, shape % 2), sheet_done();
  length++, sheet_done();
  length -= 2, sheet_done();
  damaged(0, 64, 2), damaged(125, 64, 4), damaged(126, 16, 5), damaged(1, 64, 6), damaged(4160, 65, 7), damaged(4159, 62, 8);
  memset(sheet, 0, 3), length = 3, sheet_done();
  length = 0, sheet_done();
}

static int fits(const char *name, size_t used, size_t named) {
  if (used > named) printf("%s names %zu bytes, but %zu are used\n", name, named, used);
  if (2 * used <= named) printf("%s names %zu bytes, twice too much: %zu are used\n", name, named, used);
  return used <= named && 2 * used > named;
}

int main(void) {
  sheets();
  size_t most = 0;
  for (int k = 0; k < LIST; k++) most = deepest[k] > most ? deepest[k] : most;
  printf("stack used by probe %zu, by level %zu, to judge %zu, to choose %zu, to write a graph %zu, to read one %zu, at worst and best %zu, to hang them %zu and %zu, to make a book %zu, to merge %zu, to judge that %zu, to ask of it %zu of %d bytes; to list %zu, to ask %zu of %d\n", deepest[BY_PROBE],
    deepest[BY_LEVEL], deepest[JUDGE], deepest[CHOOSE], deepest[GRAPH_WRITE], deepest[GRAPH_READ], deepest[SPREAD], deepest[WORST], deepest[BEST], deepest[BOOK], deepest[MERGED],
    deepest[MERGED_JUDGE], deepest[MERGED_ASK], YARD_STACK, deepest[LIST], deepest[ASK], YARD_LIST_STACK);
  int all = fits("YARD_STACK", most, YARD_STACK), list = fits("YARD_LIST_STACK", deepest[LIST] > deepest[ASK] ? deepest[LIST] : deepest[ASK], YARD_LIST_STACK);
  return all && list ? 0 : 1;
}
