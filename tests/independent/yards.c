// Compares the proved library with the second reading of the rules on random and damaged sheets, plans and graphs' texts.
//   yards SEED YARDS PLANS                 compares; a case that differs is kept in files, and printed, so that it can be run again
//   yards show ROOM SHEET [PLAN [PLAN]]    prints what both sides answer for the sheet and the plans in these files, with a buffer of ROOM bytes
//   yards read TEXT                        prints what both sides answer for the graph's text in this file
#include "second.h"
#include <stdio.h>
#include <stdlib.h>
#include <string.h>

enum { NODES = 65, MOST_SHEET = 5000, MOST_PLAN = 300000, MOST_TEXT = 200000, MOST_LINES = 2100, MOST_LINE = 128, FILL = 0xee, ENOUGH = 200, NUMBERS = 23 };

// The ways to plan.
enum { BY_PROBE, BY_LEVEL, MERGED };

// Where a graph's text is refused: nowhere in it, in its first line, between, in its last, or behind line 65,535.
enum { NOWHERE, FIRST, BETWEEN, LAST, FAR, PLACES };

// Other orders of search, which may name others in a refused slot: backwards, so that the last offender or the highest two are named, and one more for each number.
enum { BACKWARDS, OTHERWISE, ORDERS };

static unsigned char sheet[MOST_SHEET], got[YARD_TEXT_BYTES + 8], want[YARD_TEXT_BYTES + 8], plan[2][MOST_PLAN], own[YARD_PLAN_BYTES];
static unsigned char sheet_lent[MOST_SHEET], plan_lent[2][MOST_PLAN];
static unsigned char text[MOST_TEXT], text_lent[MOST_TEXT];
static long sheets, yards, relayed, listings, spreads, books, drawings, texts, placed[NUMBERS][PLACES];

// Whether the reading that is planned and judged now is a merged one; what is counted of both kinds stands apart by it.
static int merged;
static long plannings[2], plans[2], asked[2], numbers[2][NUMBERS], blamed[2], ordered[2], ordered_by[2][NUMBERS][ORDERS], others[2], shorter[2], shortest[2];

// ---- chance

static uint64_t state;

static uint32_t rnd(uint32_t below) {
  state = state * 6364136223846793005u + 1442695040888963407u;
  return below ? (uint32_t)((state >> 33) % below) : 0;
}

// ---- a case that differs

static void keep(const char *name, const unsigned char *bytes, size_t size) {
  char path[64];
  snprintf(path, sizeof path, "target/different.%s", name);
  FILE *f = fopen(path, "wb");
  if (f) fwrite(bytes, 1, size, f), fclose(f);
  printf("%s, %zu bytes: ", path, size);
  for (size_t k = 0; k < size; k++) printf("%02x", bytes[k]);
  printf("\n");
}

static void differ(const char *what, size_t len, size_t room, size_t first, size_t second) {
  printf("DIFFERENT: %s, buffer of %zu bytes\n", what, room);
  keep("sheet", sheet, len), keep("first", plan[0], first), keep("second", plan[1], second);
  printf("again: tests/independent/run show %zu target/different.sheet target/different.first target/different.second\n", room);
  exit(1);
}

static void differ_text(const char *what, size_t size) {
  printf("DIFFERENT: %s\n", what);
  keep("text", text, size);
  printf("again: tests/independent/run read target/different.text\n");
  exit(1);
}

// What is only lent to be read is copied before the calls, and must be the same afterwards.
static void lend(size_t len, size_t first, size_t second) {
  memcpy(sheet_lent, sheet, len), memcpy(plan_lent[0], plan[0], first), memcpy(plan_lent[1], plan[1], second);
}

static void unchanged(size_t len, size_t first, size_t second) {
  if (memcmp(sheet_lent, sheet, len) || memcmp(plan_lent[0], plan[0], first) || memcmp(plan_lent[1], plan[1], second))
    differ("a sheet or a plan was written to", len, 0, first, second);
}

// ---- the comparisons

static int same_plan(yard_planned a, yard_planned b) {
  return a.number == b.number && a.place == b.place && a.colours == b.colours && a.slots == b.slots && a.bytes == b.bytes;
}

static int same_verdict(yard_verdict a, yard_verdict b) {
  return a.number == b.number && a.place == b.place && a.slots == b.slots && a.first == b.first && a.second == b.second;
}

typedef yard_planned planner(const uint8_t *, size_t, uint8_t *, size_t);

static yard_planned compare_planner(size_t len, int way, size_t room) {
  static planner *const ours[] = {yard_by_probe, yard_by_level, yard_merged}, *const theirs[] = {second_by_probe, second_by_level, second_merged};
  static const char *const names[] = {"planner by probe", "planner by level", "merged planner"};
  lend(len, 0, 0);
  memset(got, FILL, room + 8), memset(want, FILL, room + 8);
  yard_planned a = ours[way](sheet, len, got, room), b = theirs[way](sheet, len, want, room);
  plannings[merged]++, numbers[merged][b.number]++;
  unchanged(len, 0, 0);
  if (!same_plan(a, b) || memcmp(got, want, room + 8)) differ(names[way], len, room, 0, 0);
  return b;
}

// What each node holds: its packets, and in a merged reading 1 where it is ready; there it waits for so many children.
static int held[NODES], waits[NODES];
static uint64_t conflicts[64]; // as second_conflicts has them

static int parent_of(int v) { return sheet[2 * v - 3]; }

static void hold_all(void) {
  memset(held, 0, sizeof held), memset(waits, 0, sizeof waits);
  for (int v = 2; v <= sheet[0] + 1; v++) waits[parent_of(v)]++;
  for (int v = 2; v <= sheet[0] + 1; v++) held[v] = merged ? waits[v] == 0 : sheet[2 * v - 2];
}

// A packet comes to the parent; in a merged reading the parent gets ready by the last of its children.
static void hand_on(int v) {
  int parent = parent_of(v);
  held[v]--, waits[parent]--;
  held[parent] += !merged || waits[parent] == 0;
}

static int conflict(int a, int b) { return conflicts[a - 1] >> (b - 1) & 1; }

// Where a slot of a plan begins, those before it having passed; held is then what each node holds before it.
static size_t come_to(const unsigned char *from, int place) {
  size_t at = 2;
  hold_all();
  for (; place > 1; place--)
    for (int many = from[at++]; many > 0; many--, at++) hand_on(from[at]);
  return at;
}

static int is_probe(int v) { return v >= 2 && v <= sheet[0] + 1; }

// Whom other orders name for 12, 13 or 14, -1 for nobody. Otherwise: for 12 the lowest, for 13 the earlier of two, for 14 the first that the sheet gives no packet, in
// a merged reading the first that waits for nobody, having sent.
static void who_else(const unsigned char *who, int many, int number, int *other) {
  for (int i = 0; i < many; i++) {
    int v = who[i], is_first = other[OTHERWISE] < 0, falls = i > 0 && v <= who[i - 1];
    if (number == 12 ? !is_probe(v) : number == 13 ? falls : held[v] == 0) other[BACKWARDS] = v;
    if (number == 12 && !is_probe(v) && (is_first || v < other[OTHERWISE])) other[OTHERWISE] = v;
    if (number == 13 && falls && is_first) other[OTHERWISE] = who[i - 1];
    if (number == 14 && (merged ? held[v] + waits[v] : sheet[2 * v - 2]) == 0 && is_first) other[OTHERWISE] = v;
  }
}

// Which two they name for 15, as one number. Otherwise: the lowest by the larger and then the smaller.
static void which_else(const unsigned char *who, int many, int *other) {
  for (int j = 0; j < many; j++)
    for (int i = 0; i < j; i++) {
      int two = 256 * who[i] + who[j];
      if (!conflict(who[i], who[j])) continue;
      if (two > other[BACKWARDS]) other[BACKWARDS] = two;
      if (other[OTHERWISE] < 0) other[OTHERWISE] = two;
    }
}

static void count_orders(size_t len, const unsigned char *from, yard_verdict r) {
  int other[ORDERS] = {-1, -1}, ours = r.number == 15 ? 256 * r.first + r.second : r.first, differs = 0;
  const unsigned char *slot = from + come_to(from, r.place);
  second_conflicts(sheet, len, conflicts);
  if (r.number == 15) which_else(slot + 1, slot[0], other);
  else who_else(slot + 1, slot[0], r.number, other);
  for (int k = 0; k < ORDERS; k++)
    if (other[k] >= 0 && other[k] != ours) ordered_by[merged][r.number][k]++, differs = 1;
  blamed[merged]++, ordered[merged] += differs;
}

typedef yard_verdict judge(const uint8_t *, size_t, const uint8_t *, size_t);

// The first bytes of a plan decide its verdict (docs/DECISIONS.md), so a plan that goes on is judged by them as well. Only 12 to 15 name anyone, and only 15 two.
static yard_verdict compare_judge(size_t len, int which, size_t size) {
  judge *ours = merged ? yard_merged_judge : yard_judge, *theirs = merged ? second_merged_judge : second_judge;
  size_t deciding = merged ? YARD_MERGED_JUDGED_BYTES : YARD_JUDGED_BYTES, first = which ? 0 : size, second = which ? size : 0;
  yard_verdict a = ours(sheet, len, plan[which], size), b = theirs(sheet, len, plan[which], size);
  int names = b.number == 15 ? 2 : b.number >= 12 && b.number <= 14;
  plans[merged]++, numbers[merged][b.number]++;
  if (!same_verdict(a, b)) differ(merged ? "merged judge" : "judge", len, 0, first, second);
  if (merged && !same_verdict(yard_judge(sheet, len, plan[which], size), second_judge(sheet, len, plan[which], size))) differ("judge of packets, of a merged plan", len, 0, first, second);
  if ((names < 1 && a.first) || (names < 2 ? a.second != 0 : a.second <= a.first)) differ("judge's names", len, 0, first, second);
  if (names) count_orders(len, plan[which], b);
  if (size > deciding && !same_verdict(a, ours(sheet, len, plan[which], deciding))) differ("judge of the deciding bytes", len, 0, first, second);
  return b;
}

// Known from the sheet alone: four bytes a probe and four a hop, less two a packet.
static size_t book_length(size_t len) {
  size_t room = second_room(sheet, len), need = room ? 4 * (size_t)sheet[0] + 2 * (room - 2) : 0;
  for (int v = 2; room && v <= sheet[0] + 1; v++) need -= 2 * (size_t)sheet[2 * v - 2];
  return need;
}

// The wake book of a plan, into a buffer that is one byte short, exact or longer; every byte of the buffer is compared.
static void compare_book(size_t len, int which, size_t size, yard_verdict r) {
  uint32_t off = rnd(4);
  size_t need = book_length(len), room = r.number ? rnd(40) : off == 0 && need > 0 ? need - 1 : off == 1 ? need + rnd(9) : need;
  memset(got, FILL, room + 8), memset(want, FILL, room + 8);
  yard_booked a = yard_book(sheet, len, plan[which], size, got, room), b = second_book(sheet, len, plan[which], size, want, room);
  books++, numbers[merged][22] += b.number == 22;
  if (a.number != b.number || a.place != b.place || a.first != b.first || a.second != b.second || a.bytes != b.bytes || memcmp(got, want, room + 8))
    differ("wake book", len, room, which ? 0 : size, which ? size : 0);
  if (r.number ? b.number != r.number || b.bytes : b.number ? b.number != 22 || room >= need : b.bytes != need) differ("length of a wake book", len, room, which ? 0 : size, which ? size : 0);
}

// What the second reading tells of the sheet must hold of every plan that passes, whoever made it. Of a merged reading no times are told.
static yard_told told;

static void limits(size_t len, yard_verdict r, size_t first, size_t second) {
  if (r.number == 0 && (r.slots < told.least || (!merged && told.times * r.slots < told.ours))) differ("limits on anybody's plan", len, 0, first, second);
}

static void compare_plans(size_t len, size_t first, size_t second) {
  lend(len, first, second);
  yard_verdict a = compare_judge(len, 0, first), b = compare_judge(len, 1, second);
  limits(len, a, first, 0), limits(len, b, 0, second);
  compare_book(len, 0, first, a), compare_book(len, 1, second, b);
  if (yard_choose(sheet, len, plan[0], first, plan[1], second) != second_choose(sheet, len, plan[0], first, plan[1], second))
    differ("chooser", len, 0, first, second);
  unchanged(len, first, second);
}

// The telephone's answer, of which the limits must hold.
static yard_told compare_told(size_t len) {
  lend(len, 0, 0);
  yard_told a = yard_ask(sheet, len), b = second_ask(sheet, len);
  asked[merged]++;
  unchanged(len, 0, 0);
  if (a.number != b.number || a.place != b.place || a.least != b.least || a.ours != b.ours || a.most != b.most || a.times != b.times) differ("telephone", len, 0, 0, 0);
  if (a.least > a.ours || a.ours > a.most) differ("telephone's limits", len, 0, 0, 0);
  return b;
}

// The slots of other arrangements, between which ours must be, and the worst and the best sheet, into buffers about as long as the longest.
static yard_spread compare_spread(size_t len) {
  lend(len, 0, 0);
  yard_spread a = yard_ask_spread(sheet, len), b = second_spread(sheet, len);
  spreads++;
  unchanged(len, 0, 0);
  if (a.number != b.number || a.place != b.place || a.best != b.best || a.worst != b.worst) differ("slots of other arrangements", len, 0, 0, 0);
  return b;
}

static size_t compare_hung(size_t len, int is_worst, size_t room) {
  lend(len, 0, 0);
  memset(got, FILL, room + 8), memset(want, FILL, room + 8);
  size_t a = is_worst ? yard_worst(sheet, len, got, room) : yard_best(sheet, len, got, room), b = 0;
  if (room >= YARD_LONGEST_SHEET) b = is_worst ? second_worst(sheet, len, want) : second_best(sheet, len, want);
  unchanged(len, 0, 0);
  if (a != b || memcmp(got, want, room + 8)) differ(is_worst ? "worst sheet" : "best sheet", len, room, 0, 0);
  return b;
}

// On the worst sheet and on the best our plan has just the slots that are told, which is tried for each fourth.
static void compare_arranged(size_t len, yard_told t) {
  static unsigned char hung[YARD_LONGEST_SHEET];
  yard_spread r = compare_spread(len);
  if (t.ours > r.worst || r.best > t.least) differ("limits over arrangements", len, 0, 0, 0);
  for (int is_worst = 0; is_worst < 2; is_worst++) {
    size_t size = compare_hung(len, is_worst, rnd(16) ? YARD_LONGEST_SHEET + rnd(3) : YARD_LONGEST_SHEET - 1);
    if (size == 0 || rnd(4)) continue;
    memcpy(hung, got, size);
    yard_told there = second_ask(hung, size);
    if (there.number || there.ours != (is_worst ? r.worst : r.best)) differ("slots of a hung sheet", len, 0, 0, 0);
  }
}

static void compare_listing(size_t len, size_t room) {
  lend(len, 0, 0);
  memset(got, FILL, sizeof got), memset(want, FILL, sizeof want);
  size_t a = yard_list(sheet, len, got, room), b = 0;
  if (room >= YARD_TEXT_BYTES) b = second_list(sheet, len, (char *)want), want[b] = FILL;
  listings++;
  unchanged(len, 0, 0);
  if (a != b || memcmp(got, want, sizeof got)) differ("lister", len, room, 0, 0);
}

// The room is filled before, and the bytes behind it too, so that every byte that is written is seen.
static size_t compare_drawing(size_t len, size_t room) {
  lend(len, 0, 0);
  memset(got, FILL, room + 8), memset(want, FILL, room + 8);
  yard_drawn a = yard_graph_write(sheet, len, got, room), b = second_graph_write(sheet, len, want, room);
  drawings++, numbers[merged][b.number]++;
  unchanged(len, 0, 0);
  if (a.number != b.number || a.place != b.place || a.bytes != b.bytes || memcmp(got, want, room + 8)) differ("writer of graphs", len, room, 0, 0);
  return b.bytes;
}

static int kind_of(uint64_t place, size_t size) {
  uint64_t all = size > 0 && text[size - 1] != '\n';
  for (size_t k = 0; k < size; k++) all += text[k] == '\n';
  return place == 0 ? NOWHERE : place > 65535 ? FAR : place == 1 ? FIRST : place < all ? BETWEEN : LAST;
}

// The rows hold random bits before, and one more stands behind them; they are left in rows for who asks.
static uint64_t rows[65];

static yard_graph compare_reading(size_t size) {
  uint64_t other[65];
  for (int k = 0; k < 64; k++) rows[k] = (uint64_t)rnd(UINT32_MAX) << 33 ^ rnd(UINT32_MAX), other[k] = ~rows[k];
  rows[64] = other[64] = state;
  memcpy(text_lent, text, size);
  yard_graph a = yard_graph_read(text, size, rows), b = second_graph_read(text, size, other);
  texts++, numbers[merged][b.number]++, placed[b.number][kind_of(b.place, size)]++;
  if (memcmp(text_lent, text, size)) differ_text("a text was written to", size);
  if (a.number != b.number || a.place != b.place || a.vertices != b.vertices || memcmp(rows, other, sizeof rows)) differ_text("reader of graphs", size);
  return b;
}

// ---- random and damaged sheets

// The packets of a probe, by the kind of yard: each second probe a relay, three of four, all, all but the last that is hung, which has none below it; else no relay.
enum { SECOND, THREE_OF_FOUR, ALL, LONE, NONE };

static int packets_of(int kind, int is_last, int most) {
  if (kind == ALL || (kind == LONE && !is_last) || (kind == SECOND && rnd(2)) || (kind == THREE_OF_FOUR && rnd(4))) return 0;
  return kind == LONE && rnd(2) ? 1 : 1 + (int)rnd((uint32_t)most);
}

static size_t random_sheet(unsigned char *s) {
  static const int sizes[] = {0, 1, 2, 3, 5, 8, 13, 21, 34, 63};
  int p = rnd(3) ? (int)rnd(12) : sizes[rnd(10)], n = p + 1, shape = (int)rnd(4), order[NODES], parent[NODES];
  int kind = rnd(5) < 3 ? NONE : (int)rnd(4);
  if (kind == LONE && rnd(2)) shape = 0;
  for (int k = 0; k < p; k++) {
    int j = (int)rnd((uint32_t)k + 1);
    order[k] = order[j], order[j] = k + 2;
  }
  for (int k = 0; k < p; k++) {
    int back = shape == 0 ? 1 : shape == 1 ? k + 1 : shape == 2 ? 1 + (int)rnd(3) : 1 + (int)rnd((uint32_t)k + 1);
    parent[order[k]] = k - back < 0 ? 1 : order[k - back];
  }
  size_t at = 0;
  int most = rnd(2) ? 15 : 1 + (int)rnd(3);
  s[at++] = (unsigned char)p;
  for (int v = 2; v <= n; v++) s[at++] = (unsigned char)parent[v], s[at++] = (unsigned char)packets_of(kind, v == order[p - 1], most);
  size_t count = at;
  at += 2;
  uint32_t among = rnd(4) == 0 ? 1 : rnd(3) == 0 ? 3 : 1 + (uint32_t)n * 2;
  int q = 0, none = rnd(4) == 0;
  for (int a = 1; a <= n; a++)
    for (int b = a + 1; b <= n; b++)
      if (!none && rnd(among) == 0) s[at++] = (unsigned char)a, s[at++] = (unsigned char)b, q++;
  s[count] = (unsigned char)(q / 256), s[count + 1] = (unsigned char)(q % 256);
  return at;
}

// Some bytes cut, put in, taken out or changed.
static size_t damage(unsigned char *s, size_t len, size_t most) {
  for (uint32_t k = 1 + rnd(2); k > 0; k--) {
    uint32_t how = rnd(6), at = rnd((uint32_t)len + 1);
    if (how == 0 && len > 0) len = rnd((uint32_t)len);
    else if (how == 1 && len < most) memmove(s + at + 1, s + at, len - at), s[at] = (unsigned char)rnd(256), len++;
    else if (how == 2 && at < len) memmove(s + at, s + at + 1, len - at - 1), len--;
    else if (at < len) s[at] = (unsigned char)(rnd(2) ? rnd(256) : rnd(6));
  }
  return len;
}

// A ring of two to four probes, so that their packets and those behind them never arrive.
static void ring(unsigned char *s) {
  uint32_t p = s[0], many = 2 + rnd(3), first = 2 + rnd(p), v = first;
  if (p < 4) return;
  for (; many > 1; many--) {
    uint32_t next = 2 + rnd(p);
    if (next == v || next == first) continue;
    s[2 * v - 3] = (unsigned char)next, v = next;
  }
  if (v != first) s[2 * v - 3] = (unsigned char)first;
}

// A probe with more packets than it may have, often just one more.
static void overload(unsigned char *s) {
  if (s[0]) s[2 * (1 + rnd(s[0]))] = (unsigned char)(rnd(2) ? 16 : 16 + rnd(240));
}

// Two pairs change places, or one stands twice.
static void shuffle_pairs(unsigned char *s, size_t len) {
  size_t at = 3 + 2 * (size_t)s[0], q = (len - at) / 2;
  if (q < 2) return;
  unsigned char *a = s + at + 2 * rnd((uint32_t)q), *b = s + at + 2 * rnd((uint32_t)q), keep[2] = {a[0], a[1]};
  a[0] = b[0], a[1] = b[1];
  if (rnd(2)) b[0] = keep[0], b[1] = keep[1];
}

static int has_relay(void) {
  for (int k = 1; k <= sheet[0]; k++)
    if (sheet[2 * k] == 0) return 1;
  return 0;
}

static size_t some_sheet(void) {
  size_t len = random_sheet(sheet);
  uint32_t how = rnd(13);
  if (how == 0) ring(sheet);
  else if (how == 1) shuffle_pairs(sheet, len);
  else if (how == 2) overload(sheet);
  else if (how < 6) len = damage(sheet, len, MOST_SHEET - 4);
  return len;
}

// ---- good and damaged plans

static void put_count(unsigned char *to, int slots) { to[0] = (unsigned char)(slots / 256), to[1] = (unsigned char)slots; }

static size_t empty_slot(unsigned char *to, size_t size) {
  put_count(to, to[0] * 256 + to[1] + 1);
  memmove(to + 3, to + 2, size - 2), to[2] = 0;
  return size + 1;
}

// 65,535 slots: empty ones behind the plan's own, and then perhaps more bytes than any verdict needs.
static size_t most_slots(unsigned char *to, size_t size) {
  for (int slots = to[0] * 256 + to[1]; slots < 65535; slots++) to[size++] = 0;
  to[0] = to[1] = 255;
  if (rnd(4) == 0) memset(to + size, (int)rnd(3), 60000), size += 60000;
  return size;
}

// The first slot's senders and some other number in rising order, so that two often conflict.
static size_t crowd(unsigned char *to, size_t size, int nodes) {
  int many = size > 2 ? to[2] : 0, more = 2 + (int)rnd((uint32_t)nodes - 1), at = 3;
  if (many == 0) return size;
  while (at < 3 + many && to[at] < more) at++;
  if (at < 3 + many && to[at] == more) return size;
  memmove(to + at + 1, to + at, size - (size_t)at), to[at] = (unsigned char)more, to[2]++;
  return size + 1;
}

static size_t some_plan(unsigned char *to, size_t size) {
  memcpy(to, own, size);
  if (size < 2) size = 2, put_count(to, 0);
  uint32_t how = rnd(9);
  if (how == 0) return empty_slot(to, size);
  if (how == 1 && (!merged || rnd(8) == 0)) return most_slots(to, size); // a merged plan is short, so that these would take most of its time
  if (how == 2) return sheet[0] ? crowd(to, size, sheet[0] + 1) : size;
  return how < 7 ? damage(to, size, MOST_PLAN - 140000) : size;
}

// ---- plans of nobody's planner: each slot is a random one to which no holder can be added, by the conflicts and packets alone; in a lazy plan one of so many is left out

static uint32_t lazy; // 0, or at least 2

static int outside(void) {
  for (int v = 2; v <= sheet[0] + 1; v++)
    if (held[v]) return 1;
  return 0;
}

static int fits(int v, const unsigned char *sends) {
  for (int u = 2; u <= sheet[0] + 1; u++)
    if (sends[u] && conflict(u, v)) return 0;
  return held[v] > 0;
}

static size_t send_slot(unsigned char *to, const unsigned char *sends) {
  size_t many = 0;
  for (int v = 2; v <= sheet[0] + 1; v++)
    if (sends[v]) to[++many] = (unsigned char)v;
  to[0] = (unsigned char)many;
  for (size_t k = 1; k <= many; k++) hand_on(to[k]);
  return many + 1;
}

static size_t random_slot(unsigned char *to) {
  unsigned char sends[NODES] = {0};
  int p = sheet[0], order[NODES];
  for (int k = 0; k < p; k++) {
    int j = (int)rnd((uint32_t)k + 1);
    order[k] = order[j], order[j] = k + 2;
  }
  for (int k = 0; k < p; k++) sends[order[k]] = (unsigned char)(fits(order[k], sends) && (lazy == 0 || rnd(lazy)));
  return send_slot(to, sends);
}

// Such a plan must pass, and the limits must hold of it. How many are shorter than ours, and how many as short as any can be, is counted. Its length.
static size_t anybodys(size_t len) {
  size_t size = come_to(plan[0], 1);
  int slots = 0;
  second_conflicts(sheet, len, conflicts);
  for (; outside(); slots++) size += random_slot(plan[0] + size);
  put_count(plan[0], slots);
  lend(len, size, 0);
  yard_verdict r = compare_judge(len, 0, size);
  if (r.number || r.slots != slots) differ("a plan of nobody's planner", len, 0, size, 0);
  limits(len, r, size, 0);
  if (!merged) compare_book(len, 0, size, r);
  unchanged(len, size, 0);
  others[merged]++, shorter[merged] += slots < told.ours, shortest[merged] += slots == told.least;
  return size;
}

// ---- refused slots; whom each names is told by how it is made, so that the second reading is tried too

static unsigned char slot[255];
static int senders;

static int some_probe(void) { return 2 + (int)rnd(sheet[0]); }

// The gateway, 0, and what is above the last probe.
static int stranger(void) {
  int above = sheet[0] + 2, others[] = {0, 1, above, 200, above + (int)rnd(256 - (uint32_t)above)};
  return others[rnd(5)];
}

// How many more senders stand behind `many`: few, or up to as many as a slot can count.
static int some_more(int many) { return (int)rnd(rnd(8) && many < 250 ? 5 : 256 - (uint32_t)many); }

// Probes in any order up to the first stranger, and then anybody.
static yard_verdict strangers(void) {
  int at = sheet[0] ? some_more(1) : 0;
  senders = at + 1 + some_more(at + 1);
  for (int i = 0; i < senders; i++) slot[i] = (unsigned char)(i == at || sheet[0] == 0 || (i > at && rnd(2)) ? stranger() : some_probe());
  return (yard_verdict){.number = 12, .first = slot[at]};
}

// Rising probes, then one that is not above the last of them, and then any.
static yard_verdict falling(void) {
  int last = some_probe();
  slot[0] = (unsigned char)last, senders = 1;
  for (int v = last + 1; v <= sheet[0] + 1; v++)
    if (rnd(3) == 0) last = v, slot[senders++] = (unsigned char)v;
  unsigned char lower = (unsigned char)(rnd(3) ? 2 + (int)rnd((uint32_t)last - 1) : last);
  slot[senders++] = lower;
  for (int more = some_more(senders); more > 0; more--) slot[senders++] = (unsigned char)some_probe();
  return (yard_verdict){.number = 13, .first = lower};
}

static void send_chosen(const uint8_t *chosen) {
  senders = 0;
  for (int v = 2; v <= sheet[0] + 1; v++)
    if (chosen[v]) slot[senders++] = (unsigned char)v;
}

// One without a packet, some before it that hold one, and anybody behind it.
static yard_verdict without(void) {
  uint8_t chosen[NODES] = {0};
  int empty = 0;
  uint32_t of = 0; // so many to take one of, each alike
  for (int v = 2; v <= sheet[0] + 1; v++)
    if (held[v] == 0 && rnd(++of) == 0) empty = v;
  if (empty == 0) return falling();
  for (int v = 2; v <= sheet[0] + 1; v++) chosen[v] = v == empty || ((v > empty || held[v] > 0) && rnd(2));
  send_chosen(chosen);
  return (yard_verdict){.number = 14, .first = (uint8_t)empty};
}

// Two that conflict, often far from each other, and others that hold a packet too, where every conflict that they bring is of a higher pair.
static yard_verdict conflicting(void) {
  uint8_t chosen[NODES] = {0};
  int a = 0, b = 0, far = rnd(4) > 0;
  uint32_t of = 0; // so many to take one of, each alike
  for (int x = 2; x <= sheet[0] + 1; x++)
    for (int z = x + 1; z <= sheet[0] + 1; z++)
      if (held[x] > 0 && held[z] > 0 && conflict(x, z) && (far ? z - x > b - a : rnd(++of) == 0)) a = x, b = z;
  if (a == 0) return without();
  chosen[a] = chosen[b] = 1;
  for (int v = 2; v <= sheet[0] + 1; v++) {
    int joins = held[v] > 0 && rnd(4);
    for (int u = 2; u <= sheet[0] + 1; u++) {
      int low = u < v ? u : v, high = u < v ? v : u;
      if (chosen[u] && conflict(u, v) && (low < a || (low == a && high < b))) joins = 0;
    }
    chosen[v] |= joins;
  }
  send_chosen(chosen);
  return (yard_verdict){.number = 15, .first = (uint8_t)a, .second = (uint8_t)b};
}

static yard_verdict (*const refusals[])(void) = {strangers, falling, without, without, conflicting, conflicting};

// Our own plan with the slot put in where another begins, or behind the last; its length.
static size_t put_slot(size_t bytes, size_t at) {
  memcpy(plan[0], own, at), plan[0][at] = (unsigned char)senders, memcpy(plan[0] + at + 1, slot, (size_t)senders);
  memcpy(plan[0] + at + 1 + senders, own + at, bytes - at), put_count(plan[0], own[0] * 256 + own[1] + 1);
  return bytes + 1 + (size_t)senders;
}

// Such a slot in our own plan. A refused sheet comes before it, and so does 11 where senders are missing; both name nobody.
static void compare_names(size_t len, size_t bytes) {
  if (bytes < 2) bytes = 2, put_count(own, 0);
  yard_verdict wanted = second_judge(sheet, len, own, 0); // 11, or what is wrong with the sheet
  int is_yard = wanted.number == 11, place = 1 + (rnd(2) ? 0 : (int)rnd(own[0] * 256u + own[1] + 1));
  size_t at = is_yard ? come_to(own, place) : 2;
  if (is_yard) second_conflicts(sheet, len, conflicts), wanted = refusals[sheet[0] ? rnd(6) : 0](), wanted.place = (uint16_t)place;
  else slot[0] = slot[1] = 2, slot[2] = 200, senders = 3;
  size_t size = put_slot(bytes, at);
  if (is_yard && rnd(8) == 0) size = at + 1 + rnd((uint32_t)senders), wanted = (yard_verdict){.number = 11, .place = (uint16_t)place};
  lend(len, size, 0);
  if (!same_verdict(compare_judge(len, 0, size), wanted)) differ("whom a refused slot names", len, 0, size, 0);
  unchanged(len, size, 0);
}

// Every slot of at most four of these bytes, first and then behind another, in the worked yard of docs/RULES.md.
static void slot_by_slot(void) {
  static const unsigned char worked[] = {5, 1, 1, 1, 1, 3, 1, 3, 1, 2, 1, 0, 1, 2, 5}, bytes[] = {0, 1, 2, 3, 4, 5, 6, 7, 200};
  const unsigned char before[] = {0, 2, 2, merged ? 4 : 3, 6};
  memcpy(sheet, worked, sizeof worked);
  for (int all = 1, size = 0; size <= 4; all *= 9, size++)
    for (int which = 0; which < all; which++)
      for (int alone = 0; alone < 2; alone++) {
        size_t at = alone ? 2 : sizeof before;
        memcpy(plan[0], before, sizeof before), plan[0][1] = alone ? 1 : 2, plan[0][at++] = (unsigned char)size;
        for (int k = 0, left = which; k < size; k++, left /= 9) plan[0][at++] = bytes[left % 9];
        compare_judge(sizeof worked, 0, at);
      }
}

// ---- merged readings of the same sheets

// As the telephone's answer of packets, without times.
static yard_told compare_merged_told(size_t len) {
  lend(len, 0, 0);
  yard_merged_told a = yard_merged_ask(sheet, len), b = second_merged_ask(sheet, len);
  asked[merged]++;
  unchanged(len, 0, 0);
  if (a.number != b.number || a.place != b.place || a.least != b.least || a.ours != b.ours || a.most != b.most) differ("merged telephone", len, 0, 0, 0);
  return (yard_told){.number = b.number, .place = b.place, .least = b.least, .ours = b.ours, .most = b.most};
}

static yard_verdict compare_first(size_t len, size_t size) {
  lend(len, size, 0);
  yard_verdict r = compare_judge(len, 0, size);
  limits(len, r, size, 0), unchanged(len, size, 0);
  return r;
}

static int depth(void) {
  int most = 0;
  for (int v = 2; v <= sheet[0] + 1; v++) {
    int level = 0;
    for (int node = v; node != 1; node = parent_of(node)) level++;
    most = level > most ? level : most;
  }
  return most;
}

// What holds of each merged plan of ours, which stands in plan[0]: it passes, each slot has a sender, and slots and bytes are within their limits, which are told too.
static void merged_limits(size_t len, yard_planned r) {
  int deep = depth(), probes = sheet[0], most = r.colours * deep < probes ? r.colours * deep : probes, idle = 0;
  size_t at = 2;
  for (int k = 0; k < r.slots; k++) idle += plan[0][at] == 0, at += 1 + (size_t)plan[0][at];
  yard_verdict v = compare_first(len, r.bytes);
  if (r.number || v.number || v.slots != r.slots || idle || at != r.bytes) differ("our merged plan", len, 0, r.bytes, 0);
  if (r.slots < deep || r.slots > most || r.bytes > 2 + 2 * (size_t)probes) differ("limits of our merged plan", len, 0, r.bytes, 0);
  if (told.least != deep || told.ours != r.slots || told.most != most) differ("limits told of our merged plan", len, 0, r.bytes, 0);
}

// Into buffers that are one byte short, longer and exact, of which every byte is compared; the plan stands in own then. Its length.
static size_t compare_ours(size_t len) {
  size_t room = 2 + 2 * (size_t)sheet[0];
  if (compare_planner(len, MERGED, room - 1).number != 9) differ("room for a merged plan", len, room - 1, 0, 0);
  compare_planner(len, MERGED, room + 1 + rnd(8));
  yard_planned r = compare_planner(len, MERGED, room);
  memcpy(own, got, r.bytes), memcpy(plan[0], got, r.bytes);
  merged_limits(len, r);
  return r.bytes;
}

// In which slot of a merged plan each probe sends, 0 for none, and how many slots there are.
static int sends_in[NODES], all_slots;

static void note_slots(const unsigned char *from) {
  size_t at = 2;
  all_slots = from[0] * 256 + from[1];
  for (int k = 1; k <= all_slots; k++)
    for (int many = from[at++]; many > 0; many--, at++) sends_in[from[at]] = k;
}

// The plan of these slots, in one of which a probe sends again; its length.
static size_t lay_out(int again, int where) {
  size_t size = 2;
  for (int k = 1; k <= all_slots; k++) {
    size_t count = size++;
    for (int v = 2; v <= sheet[0] + 1; v++)
      if (sends_in[v] == k || (v == again && k == where)) plan[0][size++] = (unsigned char)v;
    plan[0][count] = (unsigned char)(size - count - 1);
  }
  put_count(plan[0], all_slots);
  return size;
}

static yard_verdict not_ready(int v, int place) { return (yard_verdict){.number = 14, .place = (uint16_t)place, .first = (uint8_t)v}; }

// A probe that never sends: its parent is never ready, and next to the gateway it is missed in the end.
static yard_verdict never(int v) {
  sends_in[v] = 0;
  return parent_of(v) > 1 ? not_ready(parent_of(v), sends_in[parent_of(v)]) : (yard_verdict){.number = 17, .place = (uint16_t)all_slots};
}

// A parent that sends before its child, or in the same slot, where the two conflict as well.
static yard_verdict early(int v) {
  int parent = parent_of(v), place = rnd(2) ? sends_in[v] : 1 + (int)rnd((uint32_t)sends_in[v]);
  if (parent == 1) return never(v);
  sends_in[parent] = place;
  return not_ready(parent, place);
}

// Slots change places: each probe still sends once, and no two conflict, so that only parents can be to blame, the first of them in the first slot that has one.
static yard_verdict exchanged(void) {
  int first = 0;
  for (uint32_t times = 1 + rnd(3); times > 0; times--) {
    int a = 1 + (int)rnd((uint32_t)all_slots), b = 1 + (int)rnd((uint32_t)all_slots);
    for (int v = 2; v <= sheet[0] + 1; v++) sends_in[v] = sends_in[v] == a ? b : sends_in[v] == b ? a : sends_in[v];
  }
  for (int v = 2; v <= sheet[0] + 1; v++) {
    int u = parent_of(v), waiting = u > 1 && sends_in[u] <= sends_in[v];
    if (waiting && (first == 0 || sends_in[u] < sends_in[first] || (sends_in[u] == sends_in[first] && u < first))) first = u;
  }
  return first ? not_ready(first, sends_in[first]) : (yard_verdict){.slots = (uint16_t)all_slots};
}

// The good plan in own with one fault; what the judge says of it is told by how it is made, so that the second reading is tried too.
static void spoil(size_t len) {
  int v = some_probe(), again = 0, where = 0;
  uint32_t how = rnd(4);
  note_slots(own);
  if (how == 0) again = v, where = sends_in[v] + 1 + (int)rnd((uint32_t)(all_slots + 1 - sends_in[v]));
  all_slots += where > all_slots;
  yard_verdict wanted = how == 0 ? not_ready(v, where) : how == 1 ? never(v) : how == 2 ? early(v) : exchanged();
  size_t size = lay_out(again, where);
  if (!same_verdict(compare_first(len, size), wanted)) differ("a merged plan with a fault", len, 0, size, 0);
}

static int has_several(void) {
  for (int k = 1; k <= sheet[0]; k++)
    if (sheet[2 * k] > 1) return 1;
  return 0;
}

// Where a probe has several packets each judge refuses the other's plans: one sending leaves packets behind, or a relay sends without any; a second sending is 14.
static long strange[2][NUMBERS];

static void before_the_other(size_t len, size_t bytes) {
  size_t size = second_by_probe(sheet, len, plan[1], YARD_PLAN_BYTES).bytes;
  memcpy(plan[0], own, bytes), lend(len, bytes, size);
  yard_verdict a = yard_judge(sheet, len, plan[0], bytes), b = second_judge(sheet, len, plan[0], bytes), c = compare_judge(len, 1, size);
  if (!same_verdict(a, b) || (b.number != 17 && (b.number != 14 || !has_relay()))) differ("a merged plan before the judge of packets", len, 0, bytes, 0);
  if (c.number != 14) differ("a plan by probe before the merged judge", len, 0, 0, size);
  strange[0][b.number]++, strange[1][c.number]++, unchanged(len, bytes, size);
}

static void merged_yard(size_t len) {
  size_t bytes = compare_ours(len);
  compare_first(len, some_plan(plan[0], bytes)), compare_names(len, bytes);
  if (sheet[0]) spoil(len);
  if (has_several()) before_the_other(len, bytes);
  lazy = rnd(4) ? 0 : 2 + rnd(3);
  bytes = anybodys(len), lazy = 0;
  memcpy(own, plan[0], bytes), compare_names(len, bytes);
  if (sheet[0]) spoil(len);
}

// Chance goes on behind it as if nothing had been drawn here, so that the other comparisons do not depend on it.
static void compare_merged(size_t len, int is_yard) {
  uint64_t before = state;
  merged = 1, told = compare_merged_told(len);
  if (is_yard) merged_yard(len);
  else compare_planner(len, MERGED, rnd(140)), compare_names(len, 0), compare_first(len, rnd(3));
  merged = 0, state = before;
}

// ---- good and damaged texts of graphs; what the rules say of each is told by how it is made, so that the second reading is tried too

static uint64_t table[64];
static int vertices, lines;
static char line[MOST_LINES][MOST_LINE]; // \1 stands for a zero byte

static void expect(const char *what, size_t size, int number, uint64_t place) {
  static const uint64_t none[64];
  yard_graph r = compare_reading(size);
  if (r.number != number || r.place != place || r.vertices != (number ? 0 : vertices) || memcmp(rows, number ? none : table, sizeof table)) differ_text(what, size);
}

static void split(size_t size) {
  size_t at = 0;
  for (lines = 0; at < size; lines++) {
    int many = 0;
    while (text[at] != '\n') line[lines][many++] = (char)text[at++];
    line[lines][many] = 0, at++;
  }
}

static size_t join(void) {
  size_t size = 0;
  for (int k = 0; k < lines; k++) {
    for (const char *from = line[k]; *from; from++) text[size++] = *from == 1 ? 0 : (unsigned char)*from;
    text[size++] = '\n';
  }
  return size;
}

static void put_line(int at, const char *words) {
  memmove(line[at + 1], line[at], (size_t)(lines - at) * MOST_LINE);
  snprintf(line[at], MOST_LINE, "%s", words), lines++;
}

// A line put in anywhere from index `first` on; its place, counted from 1.
static uint64_t put_behind(int first, const char *words) {
  int at = first + (int)rnd((uint32_t)(lines - first) + 1);
  put_line(at, words);
  return (uint64_t)at + 1;
}

static void put_byte(char *at, char byte) { memmove(at + 1, at, strlen(at) + 1), *at = byte; }

static void edge_of(int k, int *a, int *b) {
  if (sscanf(line[k], "e %d %d", a, b) != 2) printf("no edge: %s\n", line[k]), exit(1);
}

// An edge's line, either way round.
static void say_edge(char *to, int a, int b) {
  int turned = (int)rnd(2);
  snprintf(to, MOST_LINE, "e %d %d", turned ? b : a, turned ? a : b);
}

// A number that is another one, though it would be the same in 8, 16, 32 or 64 bits; or one of twenty digits and more.
static const char *beyond(unsigned v) {
  static char said[48];
  static const int bits[] = {8, 16, 32, 64};
  unsigned __int128 all = ((unsigned __int128)1 << bits[rnd(4)]) + v;
  int at = 47, digits = rnd(5) ? 0 : 20 + (int)rnd(20);
  for (; digits > 0; digits--) said[--at] = (char)('0' + (digits == 1 ? 1 : 0) + (int)rnd(9));
  if (at == 47)
    for (; all > 0; all /= 10) said[--at] = (char)('0' + (int)(all % 10));
  return said + at;
}

// A byte too many in front of a word or behind the line.
static void stray_byte(void) {
  static const char before[] = " \t\r\v0+-,\1", behind[] = " \t\r\v+-,x\1";
  int k = (int)rnd((uint32_t)lines);
  size_t many = strlen(line[k]), at = rnd((uint32_t)many + 1);
  while (at > 0 && at < many && line[k][at - 1] != ' ') at--;
  put_byte(line[k] + at, at < many ? before[rnd(9)] : behind[rnd(9)]);
  expect("a byte too many", join(), 18, (uint64_t)k + 1);
}

// Something else in place of a space, or nothing.
static void no_space(void) {
  int k = (int)rnd((uint32_t)lines);
  size_t at = rnd((uint32_t)strlen(line[k]));
  while (line[k][at] != ' ') at = (at + 1) % strlen(line[k]);
  if (rnd(3)) line[k][at] = "\t\r\1,"[rnd(4)];
  else memmove(line[k] + at, line[k] + at + 1, strlen(line[k] + at));
  expect("no space", join(), 18, (uint64_t)k + 1);
}

static void other_line(void) {
  static const char *const others[] = {"", " ", "x", "n 1 1", "p", "e", "p edge", "p edge 3", "p edge 3 2 1", "p col 3 2", "P edge 3 2", "p edges 3 2", "pe 3 2", "e 1",
    "e 1 2 3", "e 1 x", "e x 2", "E 1 2", "ee 1 2", "a 1 2", " c", "C", "\1", "\1c", "e 1 2x", "e -1 2", "e 01 2", "e 1 00", "e 1 2 c", "d", "g", "0"};
  uint64_t place = put_behind(0, others[rnd(sizeof others / sizeof *others)]);
  expect("another line", join(), 18, place);
}

static void comments(void) {
  static const char *const said[] = {"c", "c ", "cc", "c a yard", "cp edge 1 1", "c e 1 1", "ce 1 1", "c\t\r\v", "c\1", "c 0000000000000000000000000000000000000000000000000000000000000000"};
  for (uint32_t many = 1 + rnd(4); many > 0; many--) put_behind(0, said[rnd(sizeof said / sizeof *said)]);
  expect("comments", join(), 0, 0);
}

static void unended(void) {
  if (rnd(2)) put_line(lines, rnd(2) ? "c" : "e 0 0");
  expect("an unended line", join() - 1, 18, (uint64_t)lines);
}

static void repeated(void) {
  int a, b, k = lines > 1 ? 1 + (int)rnd((uint32_t)lines - 1) : 0;
  if (k == 0) return;
  char words[MOST_LINE];
  edge_of(k, &a, &b), say_edge(words, a, b);
  uint64_t place = put_behind(k + 1, words);
  expect("an edge repeated", join(), 18, place);
}

// Edges in any order and either way round.
static void shuffled(void) {
  for (int k = 1; k < lines; k++) {
    int a, b, c, d, other = 1 + (int)rnd((uint32_t)k);
    edge_of(k, &a, &b), edge_of(other, &c, &d);
    say_edge(line[k], c, d);
    say_edge(line[other], a, b);
  }
  expect("edges in another order", join(), 0, 0);
}

// A loop, or an edge with a vertex out of range.
static void astray(void) {
  char words[MOST_LINE], out[MOST_LINE];
  unsigned v = vertices ? 1 + rnd((uint32_t)vertices) : 1, how = rnd(5);
  snprintf(out, sizeof out, "%u", how == 0 ? 0 : how == 1 ? (unsigned)vertices + 1 : how == 2 ? (unsigned)vertices + 1 + rnd(300) : v);
  if (how == 3) snprintf(out, sizeof out, "%s", beyond(1 + rnd((uint32_t)vertices + 1)));
  if (rnd(2)) snprintf(words, sizeof words, "e %u %.48s", v, out);
  else snprintf(words, sizeof words, "e %.48s %u", out, v);
  int early = rnd(4) == 0;
  uint64_t place = early ? 1 : put_behind(1, words);
  if (early) put_line(0, words);
  expect("an edge astray, or before the p line", join(), early ? 18 : 19, place);
}

static void second_problem(void) {
  char words[MOST_LINE];
  snprintf(words, sizeof words, "p edge %d %d", rnd(2) ? vertices : (int)rnd(66), (int)rnd(3));
  uint64_t place = put_behind(1, rnd(2) ? words : line[0]);
  expect("a second p line", join(), 18, place);
}

static void no_problem(void) {
  int comment = (int)rnd(2), edges = lines - 1;
  if (comment) strcpy(line[0], "c");
  else memmove(line[0], line[1], (size_t)--lines * MOST_LINE);
  expect("no p line", join(), 18, edges == 0 ? 0 : comment ? 2 : 1);
}

static void early_edge(void) {
  char words[MOST_LINE];
  snprintf(words, sizeof words, "%s", line[lines - 1]);
  put_line(0, lines > 1 ? words : "e 1 2"), put_line(0, "c");
  expect("an edge before the p line", join(), 18, 2);
}

// The place of the first edge with a vertex above `most`, 0 where none has.
static uint64_t first_above(int most) {
  for (int k = 1, a, b; k < lines; k++) {
    edge_of(k, &a, &b);
    if (a > most || b > most) return (uint64_t)k + 1;
  }
  return 0;
}

// Another number of vertices.
static void other_vertices(void) {
  unsigned how = rnd(4);
  int now = how == 0 ? 63 : how == 1 ? 64 : (int)rnd((uint32_t)vertices + 1);
  uint64_t place = how == 1 || how == 3 ? 1 : first_above(now);
  if (how == 3) snprintf(line[0], MOST_LINE, "p edge %s %d", beyond(rnd(64)), lines - 1);
  else snprintf(line[0], MOST_LINE, "p edge %d %d", now, lines - 1);
  vertices = now;
  expect("another number of vertices", join(), place == 0 ? 0 : place == 1 ? 18 : 19, place);
}

// Another number of edges.
static void other_edges(void) {
  unsigned how = rnd(3), now = (unsigned)lines - 1;
  if (how == 2) snprintf(line[0], MOST_LINE, "p edge %d %s", vertices, beyond(now));
  else snprintf(line[0], MOST_LINE, "p edge %d %u", vertices, how == 0 && now > 0 ? now - 1 : now + 1);
  expect("another number of edges", join(), 20, 0);
}

static void expect_cut(size_t size) {
  uint64_t ended = 0;
  for (size_t k = 0; k < size; k++) ended += text[k] == '\n';
  int is_ended = size == 0 || text[size - 1] == '\n';
  expect("a text cut off", size, size && is_ended ? 20 : 18, is_ended ? 0 : ended + 1);
}

// Cut at every place, or a long text at some.
static void cut_off(void) {
  size_t size = join();
  for (size_t at = 0; at < size; at += size < 150 ? 1 : 1 + rnd((uint32_t)size / 4)) expect_cut(at);
}

static const char alphabet[] = "pec dg0123456789 \n";

// Some bytes put in, taken out or changed.
static void damaged_text(void) {
  size_t size = join();
  for (uint32_t k = 1 + rnd(2); k > 0 && size > 0; k--) {
    uint32_t how = rnd(3), at = rnd((uint32_t)size);
    unsigned char byte = rnd(4) ? (unsigned char)alphabet[rnd(18)] : (unsigned char)rnd(256);
    if (how == 0) memmove(text + at + 1, text + at, size++ - at);
    if (how == 1) memmove(text + at, text + at + 1, --size - at);
    else text[at] = byte;
  }
  compare_reading(size);
}

// A small text of random bytes, half of them behind a `p` line.
static void small_text(void) {
  size_t size = rnd(2) ? (size_t)sprintf((char *)text, "p edge %d %d\n", (int)rnd(4), (int)rnd(3)) : 0, all = size + rnd(24);
  while (size < all) text[size++] = (unsigned char)alphabet[rnd(18)];
  compare_reading(size);
}

// A few random lines with small numbers, so that often two faults stand in one text.
static void small_lines(void) {
  static const char *const forms[] = {"p edge %d %d", "c %d %d", "e %d %d %d", "e %d"};
  int many = (int)rnd(7);
  for (lines = 0; lines < many; lines++) {
    uint32_t how = lines == 0 && rnd(8) ? 0 : rnd(24);
    snprintf(line[lines], MOST_LINE, how < 4 ? forms[how] : "e %d %d", (int)rnd(lines ? 4 : 6), (int)rnd(4), 1);
  }
  compare_reading(join() - (lines > 0 && rnd(16) == 0));
}

static void (*const kinds[])(void) = {stray_byte, no_space, other_line, comments, unended, repeated, shuffled, astray, second_problem, no_problem, early_edge,
  other_vertices, other_edges, cut_off, damaged_text, damaged_text};

// What is written reads back as the same table, and the texts that come of it by chance are read alike.
static void compare_graphs(size_t len) {
  size_t size = compare_drawing(len, YARD_GRAPH_BYTES), room = size ? size : rnd(40);
  vertices = second_conflicts(sheet, len, table);
  if (size > 0) memcpy(text, got, size), expect("what is written", size, 0, 0);
  uint32_t off = rnd(4);
  compare_drawing(len, off == 0 && room > 0 ? room - 1 : off == 1 ? rnd((uint32_t)room + 1) : off == 2 ? room + rnd(9) : room);
  small_text(), small_lines();
  for (int k = 0; k < 2 && size > 0; k++) {
    second_graph_write(sheet, len, text, size), split(size);
    kinds[rnd(sizeof kinds / sizeof *kinds)]();
    vertices = sheet[0];
  }
}

// Every byte of a small text changed to each other, each put in at each place, and each byte taken out.
static void byte_by_byte(void) {
  static const char small[] = "p edge 3 2\ne 1 2\nc\ne 1 3\n";
  size_t size = sizeof small - 1;
  for (size_t at = 0; at <= size; at++)
    for (int byte = 0; byte < 256; byte++) {
      memcpy(text, small, size), text[at] = (unsigned char)byte;
      compare_reading(at < size ? size : size + 1);
      memcpy(text + at + 1, small + at, size - at), compare_reading(size + 1);
    }
  for (size_t at = 0; at < size; at++) memcpy(text, small, at), memcpy(text + at, small + at + 1, size - at - 1), compare_reading(size - 1);
}

// Many comments between a `p` line, or another comment, and a last line, which is unended or not.
static void far_line(const char *first, const char *last, int number, uint64_t place) {
  size_t size = (size_t)sprintf((char *)text, "%s", first);
  for (int k = 1; k < 70000; k++) text[size++] = 'c', text[size++] = '\n';
  size += (size_t)sprintf((char *)text + size, "%s", last);
  expect("many lines", size, number, place);
}

static void long_texts(void) {
  memset(table, 0, sizeof table), table[1] = 4, table[2] = 2, vertices = 3;
  far_line("p edge 3 1\n", "e 1 2\n", 0, 0), far_line("c\n", "p edge 3 1\ne 2 1\n", 0, 0), far_line("p edge 3 1\n", "e 2 1\nc", 18, 70002);
  far_line("c\n", "e 1 2\n", 18, 70001), far_line("p edge 3 1\n", "e 1 1\n", 19, 70001), far_line("p edge 3 1\n", "c\n", 20, 0), far_line("c\n", "c\n", 18, 0);
}

static void compare(long want_yards, long want_plans) {
  while (yards < want_yards || plans[0] < want_plans) {
    size_t len = some_sheet(), room = second_room(sheet, len);
    int is_yard = room > 0;
    sheets++, yards += is_yard, relayed += is_yard && has_relay();
    told = compare_told(len);
    compare_arranged(len, told);
    if (is_yard) anybodys(len);
    else room = rnd(40);
    for (int way = BY_PROBE; way <= BY_LEVEL; way++) {
      uint32_t off = rnd(4);
      size_t bytes = compare_planner(len, way, off == 0 && room > 0 ? room - 1 : off == 1 ? room + rnd(9) : room).bytes;
      if (bytes == 0 && rnd(4)) continue;
      memcpy(own, got, bytes);
      for (int more = 0; more < 2; more++) {
        size_t first = some_plan(plan[0], bytes), second = some_plan(plan[1], bytes);
        compare_plans(len, first, second);
      }
      compare_names(len, bytes);
    }
    compare_listing(len, rnd(16) ? YARD_TEXT_BYTES : YARD_TEXT_BYTES - 1), compare_graphs(len);
    compare_merged(len, is_yard);
  }
}

// ---- the rows of "Yards to try" that are run and compared, by name

static void named(const char *name, size_t len, size_t room) {
  compare_planner(len, BY_LEVEL, room), compare_planner(len, BY_PROBE, room), compare_listing(len, YARD_TEXT_BYTES), compare_told(len);
  yard_planned r = yard_by_probe(sheet, len, got, room);
  printf("%s: %d at %d, %d colours, %d slots, %zu bytes\n", name, r.number, r.place, r.colours, r.slots, r.bytes);
}

static size_t chain(int p, int packets) {
  size_t at = 0;
  sheet[at++] = (unsigned char)p;
  for (int v = 2; v <= p + 1; v++) sheet[at++] = (unsigned char)(v - 1), sheet[at++] = (unsigned char)packets;
  sheet[at++] = 0, sheet[at++] = 0;
  return at;
}

static void yards_to_try(void) {
  static const unsigned char a[] = {3, 1, 1, 2, 1, 1, 1, 0, 0};
  static const unsigned char relay[] = {1, 1, 0, 0, 0}, lone[] = {4, 1, 0, 2, 0, 3, 0, 4, 1, 0, 0};
  memcpy(sheet, a, sizeof a);
  named("A with a 9-byte buffer", sizeof a, 9);
  named("A with a 10-byte buffer", sizeof a, 10);
  memcpy(sheet, relay, sizeof relay);
  named("a relay alone", sizeof relay, 2);
  memcpy(sheet, lone, sizeof lone);
  named("a packet under three relays", sizeof lone, 10);
  named("p = 63", chain(63, 15), YARD_PLAN_BYTES);
  named("p = 64", chain(64, 15), YARD_PLAN_BYTES);
  named("no bytes at all", 0, YARD_PLAN_BYTES);
}

// Merged readings worked by hand: a plan that is ours, or anybody's, and what the merged judge says of it.
typedef struct { const char *sheet, *plan; int is_ours; yard_verdict is; } Worked;

static const char A[] = "03 01 01 02 01 01 01 00 00"; // of "Yards to try"

static const Worked by_hand[] = {
  {"00 00 00", "00 00", 1, {.slots = 0}}, {"01 01 00 00 00", "00 01 01 02", 1, {.slots = 1}}, {A, "00 02 02 03 04 01 02", 1, {.slots = 2}},
  {"03 01 0f 02 00 01 07 00 00", "00 02 02 03 04 01 02", 1, {.slots = 2}}, {"03 01 01 02 01 03 01 00 00", "00 03 01 04 01 03 01 02", 1, {.slots = 3}},
  {"03 01 01 02 01 01 01 00 01 02 04", "00 03 01 03 01 04 01 02", 1, {.slots = 3}},
  {"05 01 01 01 01 03 01 03 01 02 01 00 01 02 05", "00 03 02 04 06 02 02 05 01 03", 1, {.slots = 3}},
  {"07 01 01 02 01 01 01 04 01 01 01 05 01 01 01 00 05 03 04 04 06 04 07 05 06 05 08", "00 04 02 03 06 02 02 07 02 05 08 01 04", 1, {.slots = 4}}, // and five colours
  {A, "00 03 01 03 01 02 01 04", 0, {.slots = 3}}, {A, "00 04 00 02 03 04 00 01 02", 0, {.slots = 4}},
  {A, "00 01 02 02 03", 0, {14, 1, 0, 2, 0}}, {A, "00 01 02 02 04", 0, {14, 1, 0, 2, 0}}, {A, "00 02 01 03 02 03 04", 0, {14, 2, 0, 3, 0}},
  {A, "00 02 01 03 02 02 04", 0, {15, 2, 0, 2, 4}}, {A, "00 01 02 04 03", 0, {13, 1, 0, 3, 0}}, {A, "00 01 02 02 05", 0, {12, 1, 0, 5, 0}},
  {A, "00 02 02 03 04 01 02 00", 0, {16, 2, 0, 0, 0}}, {A, "00 01 02 03 04", 0, {17, 1, 0, 0, 0}}, {A, "00 03 02 03 04 01 02", 0, {11, 3, 0, 0, 0}},
  {A, "00", 0, {11, 0, 0, 0, 0}}, {A, "00 00", 0, {17, 0, 0, 0, 0}}, {"01 01 00 00 00", "00 00", 0, {17, 0, 0, 0, 0}},
  {"01 01 00 00 00", "00 02 01 02 01 02", 0, {14, 2, 0, 2, 0}}, {"02 03 01 02 01 00 00", "00 00", 0, {6, 2, 0, 0, 0}}};

static size_t bytes_of(const char *hex, unsigned char *to) {
  size_t many = 0;
  for (char *end; *hex; hex = end) to[many++] = (unsigned char)strtoul(hex, &end, 16);
  return many;
}

static void merged_to_try(void) {
  for (size_t k = 0; k < sizeof by_hand / sizeof *by_hand; k++) {
    const Worked *row = &by_hand[k];
    size_t len = bytes_of(row->sheet, sheet), size = bytes_of(row->plan, plan[0]);
    if (!same_verdict(compare_judge(len, 0, size), row->is)) differ("a merged plan judged by hand", len, 0, size, 0);
    yard_planned r = compare_planner(len, MERGED, YARD_MERGED_BYTES);
    compare_merged_told(len);
    if (row->is_ours && (r.bytes != size || memcmp(got, plan[0], size))) differ("a merged plan made by hand", len, YARD_MERGED_BYTES, size, 0);
  }
}

// Empty slots behind the plan's own, and a last one of too many senders: no more bytes of a plan decide.
static size_t longest(size_t size) {
  for (int slots = plan[0][0] * 256 + plan[0][1]; slots < 65534; slots++) plan[0][size++] = 0;
  put_count(plan[0], 65535), plan[0][size++] = 255, memset(plan[0] + size, 2, 255);
  return size + 255;
}

static void merged_sizes(void) {
  size_t len = chain(63, 15), size = compare_planner(len, MERGED, YARD_MERGED_BYTES).bytes;
  if (size != YARD_MERGED_BYTES || compare_planner(len, MERGED, YARD_MERGED_BYTES - 1).number != 9) differ("YARD_MERGED_BYTES", len, YARD_MERGED_BYTES, 0, 0);
  size = longest(second_merged(sheet, len, plan[0], YARD_MERGED_BYTES).bytes);
  if (size != YARD_MERGED_JUDGED_BYTES || compare_judge(len, 0, size).number != 13 || compare_judge(len, 0, size - 1).number != 11) differ("YARD_MERGED_JUDGED_BYTES", len, 0, size, 0);
}

// The header's sizes are exact, by the longest sheet, plans and graph that there are; the room for a listing is tried with every listing.
static void sizes(void) {
  size_t len = chain(63, 15), size = second_by_probe(sheet, len, plan[0], YARD_PLAN_BYTES).bytes;
  if (len + 2 * 2016 + 1 != YARD_SHEET_BYTES || second_room(sheet, len) != YARD_PLAN_BYTES) differ("a size of yard.h", len, YARD_PLAN_BYTES, 0, 0);
  if (book_length(len) != YARD_BOOK_BYTES || yard_book(sheet, len, plan[0], size, got, YARD_BOOK_BYTES).bytes != YARD_BOOK_BYTES || yard_book(sheet, len, plan[0], size, got, YARD_BOOK_BYTES - 1).number != 22)
    differ("YARD_BOOK_BYTES", len, YARD_BOOK_BYTES, size, 0);
  size = longest(size);
  if (size != YARD_JUDGED_BYTES || compare_judge(len, 0, size).number != 13 || compare_judge(len, 0, size - 1).number != 11) differ("YARD_JUDGED_BYTES", len, 0, size, 0);
  for (int v = 2; v <= 64; v++) sheet[2 * v - 3] = 1; // all next to the gateway, so that each two conflict
  if (compare_drawing(len, YARD_GRAPH_BYTES) != YARD_GRAPH_BYTES) differ("YARD_GRAPH_BYTES", len, YARD_GRAPH_BYTES, 0, 0);
}

static const char *const readings[] = {"", "merged: "};
static const long enough_of[] = {ENOUGH, ENOUGH / 4}; // of what chance seldom makes of a merged plan, which is short

// Every refusal, and a yard with relays, is met often enough, or the comparison says little; 10 is never given, and of a merged reading none above 17.
static void enough(void) {
  if (relayed < yards / 4) printf("only %ld of %ld yards have relays\n", relayed, yards), exit(1);
  for (int which = 0; which < 2; which++)
    for (int k = 0; k < (which ? 18 : NUMBERS); k++)
      if (k != 10 && numbers[which][k] < ENOUGH) printf("%snumber %d was met only %ld times\n", readings[which], k, numbers[which][k]), exit(1);
}

// So is a plan of nobody's planner that is shorter than ours, and one that is as short as any can be.
static void enough_others(void) {
  for (int which = 0; which < 2; which++)
    if (shorter[which] < enough_of[which] || shortest[which] < ENOUGH) printf("%sonly %ld plans were shorter than ours, and %ld as short as any\n", readings[which], shorter[which], shortest[which]), exit(1);
}

// So is, for each number that names someone, a slot in which another order would name another.
static void enough_orders(void) {
  static const char *const names[] = {"backwards", "otherwise"};
  for (int which = 0; which < 2; which++)
    for (int k = 12; k < 16; k++)
      for (int order = 0; order < ORDERS; order++)
        if (ordered_by[which][k][order] < enough_of[which]) printf("%snumber %d searched %s named another only %ld times\n", readings[which], k, names[order], ordered_by[which][k][order]), exit(1);
}

// So is a plan of each kind before the other kind's judge, with each number that it can get.
static void enough_strange(void) {
  if (strange[0][14] < ENOUGH || strange[0][17] < ENOUGH || strange[1][14] < ENOUGH)
    printf("before the other judge: only %ld and %ld merged plans, and %ld by probe\n", strange[0][14], strange[0][17], strange[1][14]), exit(1);
}

// So is every place of each of the reader's numbers; 0 and 20 have none in the text, and 19 has a `p` line before it.
static void enough_places(void) {
  static const char *const names[] = {"nowhere", "in the first line", "between", "in the last line", "behind line 65,535"};
  for (int k = 18; k < 21; k++)
    for (int place = NOWHERE; place < PLACES; place++) {
      int never = k == 20 ? place != NOWHERE : k == 19 && place < BETWEEN;
      if (!never && placed[k][place] < (place == FAR ? 1 : ENOUGH)) printf("number %d %s was met only %ld times\n", k, names[place], placed[k][place]), exit(1);
    }
  if (placed[0][NOWHERE] < ENOUGH) printf("only %ld texts were accepted\n", placed[0][NOWHERE]), exit(1);
}

// ---- one case again

static size_t load(const char *path, unsigned char *to, size_t most) {
  FILE *f = fopen(path, "rb");
  if (!f) printf("cannot read %s\n", path), exit(2);
  size_t n = fread(to, 1, most, f);
  fclose(f);
  return n;
}

static void show_plan(const char *name, yard_planned r, size_t room) {
  printf("%s: %d at %d, %d colours, %d slots, %zu bytes; buffer: ", name, r.number, r.place, r.colours, r.slots, r.bytes);
  for (size_t k = 0; k < room; k++) printf("%02x", got[k]);
  printf("\n");
  memset(got, FILL, sizeof got);
}

static void show_graph(const char *name, yard_drawn r) {
  printf("%s: %d at %d, %zu bytes:\n", name, r.number, r.place, r.bytes), fwrite(got, 1, r.bytes, stdout);
}

static void show_sheet(size_t len, size_t room) {
  memset(got, FILL, sizeof got);
  show_plan("library by probe", yard_by_probe(sheet, len, got, room), room), show_plan("second by probe", second_by_probe(sheet, len, got, room), room);
  show_plan("library by level", yard_by_level(sheet, len, got, room), room), show_plan("second by level", second_by_level(sheet, len, got, room), room);
  show_plan("library merged", yard_merged(sheet, len, got, room), room), show_plan("second merged", second_merged(sheet, len, got, room), room);
  yard_merged_told c = yard_merged_ask(sheet, len), d = second_merged_ask(sheet, len);
  printf("library tells of it: %d at %d, %d, %d, %d; second tells: %d at %d, %d, %d, %d\n", c.number, c.place, c.least, c.ours, c.most, d.number, d.place, d.least, d.ours, d.most);
  yard_told a = yard_ask(sheet, len), b = second_ask(sheet, len);
  printf("library tells: %d at %d, %d, %d, %d, %d; second tells: %d at %d, %d, %d, %d, %d\n", a.number, a.place, a.least, a.ours, a.most, a.times, b.number, b.place, b.least, b.ours, b.most, b.times);
  printf("library lists:\n"), fwrite(got, 1, yard_list(sheet, len, got, YARD_TEXT_BYTES), stdout);
  printf("second lists:\n"), fwrite(got, 1, second_list(sheet, len, (char *)got), stdout);
  show_graph("library draws", yard_graph_write(sheet, len, got, room)), show_graph("second draws", second_graph_write(sheet, len, got, room));
}

static void show_verdict(const char *path, const char *name, yard_verdict r) {
  printf("%s: %s %d at %d, %d slots, names %d and %d\n", path, name, r.number, r.place, r.slots, r.first, r.second);
}

static void show_book(const char *name, yard_booked r) {
  printf("%s: book %d at %d, names %d and %d, %zu bytes: ", name, r.number, r.place, r.first, r.second, r.bytes);
  for (size_t k = 0; k < r.bytes; k++) printf("%02x", got[k]);
  printf("\n");
}

static void show(int argc, char **argv) {
  size_t asked_room = strtoul(argv[2], 0, 10), room = asked_room < sizeof got ? asked_room : sizeof got, len = load(argv[3], sheet, MOST_SHEET), size[2] = {0, 0};
  show_sheet(len, room < YARD_PLAN_BYTES ? room : YARD_PLAN_BYTES);
  for (int k = 0; k < 2 && k + 4 < argc; k++) {
    size[k] = load(argv[k + 4], plan[k], MOST_PLAN);
    yard_verdict a = yard_judge(sheet, len, plan[k], size[k]), b = second_judge(sheet, len, plan[k], size[k]);
    show_verdict(argv[k + 4], "library", a), show_verdict(argv[k + 4], "second", b);
    a = yard_merged_judge(sheet, len, plan[k], size[k]), b = second_merged_judge(sheet, len, plan[k], size[k]);
    show_verdict(argv[k + 4], "library, merged,", a), show_verdict(argv[k + 4], "second, merged,", b);
    show_book("library", yard_book(sheet, len, plan[k], size[k], got, room)), show_book("second", second_book(sheet, len, plan[k], size[k], got, room));
  }
  if (argc == 6)
    printf("chosen: library %d, second %d\n", yard_choose(sheet, len, plan[0], size[0], plan[1], size[1]), second_choose(sheet, len, plan[0], size[0], plan[1], size[1]));
}

static void show_rows(const char *name, yard_graph r) {
  printf("%s: %d at %llu, %d vertices; rows:", name, r.number, (unsigned long long)r.place, r.vertices);
  for (int k = 0; k < 64; k++) printf(" %llx", (unsigned long long)rows[k]);
  printf("\n");
}

static void show_text(const char *path) {
  size_t size = load(path, text, MOST_TEXT);
  show_rows("library", yard_graph_read(text, size, rows)), show_rows("second", second_graph_read(text, size, rows));
}

static void report_names(int which) {
  printf("%ld refused plans name senders, and in %ld of them another order would name others; backwards, otherwise:", blamed[which], ordered[which]);
  for (int k = 12; k < 16; k++) printf(" %d: %ld %ld", k, ordered_by[which][k][BACKWARDS], ordered_by[which][k][OTHERWISE]);
}

static void report(void) {
  printf("%ld yards, %ld of them with relays, and %ld refused sheets, %ld plannings, %ld listings, %ld telephone answers, %ld of other arrangements, %ld judged plans and %ld wake books agree; by number:", yards, relayed, sheets - yards, plannings[0], listings, asked[0], spreads, plans[0], books);
  for (int k = 0; k < NUMBERS; k++) printf(" %d: %ld", k, numbers[0][k]);
  printf("\n%ld plans of nobody's planner keep the limits, %ld of them shorter than ours, and %ld as short as any can be\n", others[0], shorter[0], shortest[0]);
  report_names(0);
  printf("\n%ld graphs written and %ld texts read agree; accepted: %ld; refused nowhere, in the first line, between, in the last, behind line 65,535:", drawings, texts, placed[0][NOWHERE]);
  for (int k = 18; k < 21; k++) {
    printf(" %d:", k);
    for (int place = NOWHERE; place < PLACES; place++) printf(" %ld", placed[k][place]);
  }
  printf("\n");
}

static void report_merged(void) {
  printf("merged: %ld plannings, %ld telephone answers and %ld judged plans agree; by number:", plannings[1], asked[1], plans[1]);
  for (int k = 0; k < 18; k++) printf(" %d: %ld", k, numbers[1][k]);
  printf("; %ld plans of nobody's planner keep the limits, %ld of them shorter than ours, and %ld as short as any can be; ", others[1], shorter[1], shortest[1]);
  report_names(1);
  printf("; with several packets the judge refuses a merged plan 14: %ld 17: %ld, and the merged judge one by probe 14: %ld\n", strange[0][14], strange[0][17], strange[1][14]);
}

int main(int argc, char **argv) {
  if (argc >= 4 && argc <= 6 && !strcmp(argv[1], "show")) return show(argc, argv), 0;
  if (argc == 3 && !strcmp(argv[1], "read")) return show_text(argv[2]), 0;
  if (argc != 4) return printf("usage: yards SEED YARDS PLANS | yards show ROOM SHEET [PLAN [PLAN]] | yards read TEXT\n"), 2;
  state = strtoull(argv[1], 0, 10) * 2 + 1;
  yards_to_try();
  sizes();
  slot_by_slot(), byte_by_byte(), long_texts();
  merged = 1, merged_to_try(), merged_sizes(), slot_by_slot(), merged = 0;
  compare(atol(argv[2]), atol(argv[3]));
  if (yards >= 20000) enough(), enough_others(), enough_orders(), enough_places(), enough_strange();
  report(), report_merged();
  return 0;
}
