// The texts of graphs that other programs read, and what they write.
//   graph-readers write FOLDER SHEET...    writes the library's text of each sheet, and of random ones, to FOLDER/NAME.col; in FOLDER/ours is what others
//                                          must find in them, and in FOLDER/colours the colours by probe, both by the second reading
//   graph-readers read TEXT...             prints what the library finds in each text, in the form of FOLDER/ours; the second reading must agree
#include "second.h"
#include <stdio.h>
#include <stdlib.h>
#include <string.h>

enum { YARDS = 200, MOST_TEXT = 100000 };

static uint8_t sheet[YARD_SHEET_BYTES], text[MOST_TEXT], plan[YARD_PLAN_BYTES];
static FILE *ours, *colours;

static uint64_t state = 1;

static uint32_t rnd(uint32_t below) {
  state = state * 6364136223846793005u + 1442695040888963407u;
  return (uint32_t)((state >> 33) % below);
}

static FILE *open_file(const char *path, const char *how) {
  FILE *f = fopen(path, how);
  if (!f) perror(path), exit(1);
  return f;
}

static FILE *open_in(const char *folder, const char *name, const char *end) {
  char path[512];
  snprintf(path, sizeof path, "%s/%s%s", folder, name, end);
  return open_file(path, "wb");
}

// The file's name, without its folder and what is behind the dot.
static const char *name_of(const char *path) {
  static char name[128];
  const char *base = strrchr(path, '/');
  snprintf(name, sizeof name, "%s", base ? base + 1 : path);
  name[strcspn(name, ".")] = 0;
  return name;
}

// A line for the graph and one for each edge, each with the graph's name, so that they can be sorted.
static void list(FILE *to, const char *name, int vertices, const uint64_t rows[64]) {
  int edges = 0;
  for (int a = 1; a <= vertices; a++)
    for (int b = a + 1; b <= vertices; b++)
      if (rows[a] >> b & 1) fprintf(to, "%s edge %d %d\n", name, a, b), edges++;
  fprintf(to, "%s has %d vertices, %d edges\n", name, vertices, edges);
}

// A refused sheet has no graph.
static void write_graph(const char *folder, const char *name, size_t length) {
  uint64_t rows[64];
  int painted[64], vertices = second_conflicts(sheet, length, rows);
  yard_drawn drawn = yard_graph_write(sheet, length, text, YARD_GRAPH_BYTES);
  if ((drawn.number == 0) != (vertices >= 0)) printf("%s: the library answers %d\n", name, drawn.number), exit(1);
  if (drawn.number) return;
  FILE *f = open_in(folder, name, ".col");
  if (fwrite(text, 1, drawn.bytes, f) != drawn.bytes || fclose(f)) perror(name), exit(1);
  list(ours, name, vertices, rows);
  second_colours(sheet, length, painted);
  int most = 0;
  fprintf(colours, "%s", name);
  for (int v = 1; v <= vertices; v++) fprintf(colours, " %d", painted[v]), most = painted[v] > most ? painted[v] : most;
  fprintf(colours, "\n");
  if (yard_by_probe(sheet, length, plan, YARD_PLAN_BYTES).colours != most) printf("%s: the library has other colours\n", name), exit(1);
}

// Any number of probes from 1, each below one that is nearer the gateway, by rising or by falling numbers; few interfering pairs or many.
static size_t random_sheet(void) {
  static const uint32_t among[] = {2, 8, 40, 200, 1000};
  int p = 1 + (int)rnd(63), falling = (int)rnd(2), near = 1 + (int)rnd(63), q = 0;
  uint32_t one_of = among[rnd(5)];
  size_t at = 1 + 2 * (size_t)p + 2;
  sheet[0] = (uint8_t)p;
  for (int k = 1; k <= p; k++) {
    int above = k - 1 - (int)rnd((uint32_t)(k < near ? k : near)), v = falling ? p + 2 - k : k + 1;
    sheet[2 * v - 3] = (uint8_t)(above == 0 ? 1 : falling ? p + 2 - above : above + 1), sheet[2 * v - 2] = (uint8_t)rnd(16);
  }
  for (int a = 1; a <= p; a++)
    for (int b = a + 1; b <= p + 1; b++)
      if (rnd(one_of) == 0) sheet[at++] = (uint8_t)a, sheet[at++] = (uint8_t)b, q++;
  sheet[2 * p + 1] = (uint8_t)(q / 256), sheet[2 * p + 2] = (uint8_t)q;
  return at;
}

static size_t load(const char *path, uint8_t *to, size_t most) {
  FILE *f = open_file(path, "rb");
  size_t length = fread(to, 1, most, f);
  fclose(f);
  return length;
}

static void write_all(const char *folder, int many, char **paths) {
  char name[32];
  ours = open_in(folder, "ours", ""), colours = open_in(folder, "colours", "");
  for (int k = 0; k < many; k++) write_graph(folder, name_of(paths[k]), load(paths[k], sheet, sizeof sheet));
  for (int k = 1; k <= YARDS; k++) sprintf(name, "random-%d", k), write_graph(folder, name, random_sheet());
  if (fclose(ours) || fclose(colours)) perror(folder), exit(1);
}

static void read_graph(const char *path) {
  uint64_t rows[64], other[64];
  size_t length = load(path, text, sizeof text);
  yard_graph a = yard_graph_read(text, length, rows), b = second_graph_read(text, length, other);
  if (a.number != b.number || a.place != b.place || a.vertices != b.vertices || memcmp(rows, other, sizeof rows)) printf("%s: the second reading differs\n", path), exit(1);
  if (a.number) printf("%s refused %d at %llu\n", name_of(path), a.number, (unsigned long long)a.place);
  else list(stdout, name_of(path), a.vertices, rows);
}

int main(int argc, char **argv) {
  if (argc < 3 || (strcmp(argv[1], "write") && strcmp(argv[1], "read"))) return printf("usage: graph-readers write FOLDER SHEET... | graph-readers read TEXT...\n"), 2;
  if (argv[1][0] == 'w') write_all(argv[2], argc - 3, argv + 3);
  else
    for (int k = 2; k < argc; k++) read_graph(argv[k]);
  return 0;
}
