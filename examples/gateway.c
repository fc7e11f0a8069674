// How a gateway uses the library: it asks how long a reading takes, and how long otherwise arranged, plans the sheet in a file both ways, sends the shorter plan slot by slot, has it judged,
// is told who spoils another plan, hands each probe its entry of the wake book, plans and has judged a merged reading, logs the listing, and writes the conflicts for a colouring program. gateway SHEET
#include "yard.h"
#include <inttypes.h>
#include <stdio.h>

static uint8_t sheet[YARD_SHEET_BYTES], by_probe[YARD_PLAN_BYTES], by_level[YARD_PLAN_BYTES], once[YARD_MERGED_BYTES], text[YARD_TEXT_BYTES], book[YARD_BOOK_BYTES], graph[YARD_GRAPH_BYTES], hung[YARD_LONGEST_SHEET];

static void tell(const char *way, yard_planned planned) {
  printf("%s: %d slots, %d colours, %zu bytes\n", way, planned.slots, planned.colours, planned.bytes);
}

// Each slot of a plan: a count, and then so many senders.
static void send_all(const uint8_t *plan, int slots) {
  size_t at = 2;
  for (int slot = 1; slot <= slots; slot++) {
    printf("slot %d: probes", slot);
    for (int many = plan[at++]; many > 0; many--) printf(" %d", plan[at++]);
    printf("\n");
  }
}

// Of the numbers about a plan, 12 to 15 name senders of the slot.
static void say(const char *what, yard_verdict verdict) {
  printf("%s: number %d at %d, %d slots", what, verdict.number, verdict.place, verdict.slots);
  if (verdict.number >= 12 && verdict.number <= 14) printf(", sender %d", verdict.first);
  if (verdict.number == 15) printf(", senders %d and %d", verdict.first, verdict.second);
  printf("\n");
}

// A graph's text read into rows: vertex 1 is probe 2, and stands in row 1 and bit 1 of each.
static void read_graph(const char *what, size_t bytes) {
  uint64_t rows[64];
  yard_graph read = yard_graph_read(graph, bytes, rows);
  int conflicts = 0;
  for (int v = 1; v <= read.vertices; v++) conflicts += rows[1] >> v & 1;
  printf("%s: number %d at %" PRIu64 ", %d vertices, %d conflicts of probe 2\n", what, read.number, read.place, read.vertices, conflicts);
}

// A probe reads its two lists in the book: the entries stand in rising number of probe, each a count and slots, twice.
static size_t read_list(const char *does, size_t at) {
  int many = 256 * book[at] + book[at + 1];
  printf(" %s in", does);
  for (int k = 1; k <= many; k++) printf(" %d", 256 * book[at + 2 * k] + book[at + 2 * k + 1]);
  return at + 2 + 2 * (size_t)many;
}

static void read_book(yard_booked booked) {
  if (booked.number) return (void)printf("no book: refused %d at %d\n", booked.number, booked.place);
  int probe = 2;
  for (size_t at = 0; at < booked.bytes; probe++) printf("probe %d", probe), at = read_list("sends", at), at = read_list("listens", at), printf("\n");
}

// One average for the yard: each probe sends once, after all its children have. Where a branch has several packets, neither judge passes the other's plan.
static void merge(size_t length, const uint8_t *plan, size_t bytes) {
  yard_merged_told told = yard_merged_ask(sheet, length);
  printf("merged: at least %d slots, ours %d, at most %d\n", told.least, told.ours, told.most);
  yard_planned planned = yard_merged(sheet, length, once, YARD_MERGED_BYTES);
  tell("merged", planned), send_all(once, planned.slots);
  say("judged as merged", yard_merged_judge(sheet, length, once, planned.bytes));
  say("judged by packets", yard_judge(sheet, length, once, planned.bytes));
  say("the plan of packets judged as merged", yard_merged_judge(sheet, length, plan, bytes));
}

int main(int argc, char **argv) {
  FILE *file = argc == 2 ? fopen(argv[1], "rb") : NULL;
  if (!file) return printf("usage: gateway SHEET\n"), 2;
  size_t length = fread(sheet, 1, YARD_SHEET_BYTES, file); // one byte more than the longest sheet has is enough to refuse it
  fclose(file);

  yard_told told = yard_ask(sheet, length);
  if (!told.number) printf("at least %d slots, ours %d, at most %d; at most %d times as many as anybody's\n", told.least, told.ours, told.most, told.times);

  yard_spread spread = yard_ask_spread(sheet, length);
  if (!spread.number) printf("hung otherwise: %d slots at best, %d at worst; ", spread.best, spread.worst);
  if (!spread.number) printf("sheets of %zu and %zu bytes\n", yard_best(sheet, length, hung, YARD_LONGEST_SHEET), yard_worst(sheet, length, hung, YARD_LONGEST_SHEET));

  yard_planned probe = yard_by_probe(sheet, length, by_probe, YARD_PLAN_BYTES), level = yard_by_level(sheet, length, by_level, YARD_PLAN_BYTES);
  if (probe.number) return printf("no plan: refused %d at %d\n", probe.number, probe.place), 1;
  tell("by probe", probe), tell("by level", level);

  int chosen = yard_choose(sheet, length, by_probe, probe.bytes, by_level, level.bytes);
  printf("chosen %d, and %d with the two exchanged\n", chosen, yard_choose(sheet, length, by_level, level.bytes, by_probe, probe.bytes));
  const uint8_t *plan = chosen == 1 ? by_probe : by_level;
  yard_planned planned = chosen == 1 ? probe : level;
  send_all(plan, planned.slots);

  say("judged", yard_judge(sheet, length, plan, planned.bytes));
  say("judged without its last byte", yard_judge(sheet, length, plan, planned.bytes - 1));
  const uint8_t together[] = {0, 1, 2, 2, 4}, stranger[] = {0, 1, 2, 2, 200}; // one slot of two senders
  say("judged with 2 and 4 in one slot", yard_judge(sheet, length, together, sizeof together));
  say("judged with 2 and 200 in one slot", yard_judge(sheet, length, stranger, sizeof stranger));
  read_book(yard_book(sheet, length, plan, planned.bytes, book, YARD_BOOK_BYTES));
  read_book(yard_book(sheet, length, plan, planned.bytes, book, 3)); // too short a buffer
  merge(length, plan, planned.bytes);
  fwrite(text, 1, yard_list(sheet, length, text, YARD_TEXT_BYTES), stdout); // always the plan by probe

  yard_drawn drawn = yard_graph_write(sheet, length, graph, YARD_GRAPH_BYTES);
  fwrite(graph, 1, drawn.bytes, stdout);
  read_graph("read", drawn.bytes);
  read_graph("read without its last byte", drawn.bytes - 1);
  return 0;
}
