// Writes the sample yards into the folder that is named: make FOLDER. yards/README.md says what each is.
#include <stdio.h>
#include <stdlib.h>
#include <string.h>

enum { NODES = 65, ROWS = 10, AISLES = 6, STORE_AISLES = 3, BAYS = 2, STACKS = 3 };

typedef struct { int p, parent[NODES], packets[NODES]; unsigned char pair[NODES][NODES]; } Yard;

static const char *folder;

static void save(const char *name, const unsigned char *bytes, size_t size) {
  char path[256];
  snprintf(path, sizeof path, "%s/%s.sheet", folder, name);
  FILE *f = fopen(path, "wb");
  if (!f || fwrite(bytes, 1, size, f) != size || fclose(f)) perror(path), exit(1);
}

static size_t sheet_of(const Yard *y, unsigned char *s) {
  size_t at = 0, count;
  int q = 0;
  s[at++] = (unsigned char)y->p;
  for (int v = 2; v <= y->p + 1; v++) s[at++] = (unsigned char)y->parent[v], s[at++] = (unsigned char)y->packets[v];
  count = at, at += 2;
  for (int a = 1; a <= y->p + 1; a++)
    for (int b = a + 1; b <= y->p + 1; b++)
      if (y->pair[a][b]) s[at++] = (unsigned char)a, s[at++] = (unsigned char)b, q++;
  s[count] = (unsigned char)(q / 256), s[count + 1] = (unsigned char)(q % 256);
  return at;
}

static void write_yard(const char *name, const Yard *y) {
  unsigned char s[4161];
  save(name, s, sheet_of(y, s));
}

// p probes of so many packets: in a chain, or all next to the gateway.
static Yard line(int p, int packets, int is_chain) {
  Yard y;
  memset(&y, 0, sizeof y);
  y.p = p;
  for (int v = 2; v <= p + 1; v++) y.parent[v] = is_chain ? v - 1 : 1, y.packets[v] = packets;
  return y;
}

static int at(int aisle, int row) { return 2 + row * AISLES + aisle; }

// Sixty probes: six aisles of ten stacks, the gateway before the first row. Who stands beside whom, along or across, disturbs.
static Yard sixty(void) {
  Yard y;
  memset(&y, 0, sizeof y);
  y.p = ROWS * AISLES;
  for (int row = 0; row < ROWS; row++)
    for (int aisle = 0; aisle < AISLES; aisle++) {
      int v = at(aisle, row);
      y.packets[v] = 1 + (row + 2 * aisle) % 3;
      if (row == 0) y.pair[1][v] = 1;
      if (aisle + 1 < AISLES) y.pair[v][at(aisle + 1, row)] = 1;
      if (row + 1 < ROWS) y.pair[v][at(aisle, row + 1)] = 1;
    }
  return y;
}

// Each probe hands to the stack before it in its own aisle, the first row to the gateway.
static Yard down_the_aisles(void) {
  Yard y = sixty();
  for (int row = 0; row < ROWS; row++)
    for (int aisle = 0; aisle < AISLES; aisle++) y.parent[at(aisle, row)] = row == 0 ? 1 : at(aisle, row - 1);
  return y;
}

// The same with a bare relay at every third stack of each aisle, from the first on; the last stack of an aisle has none behind it and keeps its packets.
static Yard relays_in_the_aisles(void) {
  Yard y = down_the_aisles();
  for (int row = 0; row < ROWS - 1; row += 3)
    for (int aisle = 0; aisle < AISLES; aisle++) y.packets[at(aisle, row)] = 0;
  return y;
}

// One string through all stacks: down one aisle, up the next.
static Yard one_string(void) {
  Yard y = sixty();
  int before = 1;
  for (int aisle = 0; aisle < AISLES; aisle++)
    for (int k = 0; k < ROWS; k++) {
      int v = at(aisle, aisle % 2 ? ROWS - 1 - k : k);
      y.parent[v] = before, before = v;
    }
  return y;
}

// The same probes in one chain, the fewest packets next to the gateway, each two disturbing each other: no arrangement is slower.
static Yard worst(void) {
  Yard y = sixty();
  int before = 1;
  for (int packets = 1; packets <= 3; packets++)
    for (int v = 2; v <= y.p + 1; v++)
      if (y.packets[v] == packets) y.parent[v] = before, before = v;
  memset(y.pair, 1, sizeof y.pair);
  return y;
}

// The relay of a bay; the bay's stacks have the next numbers.
static int relay_of(int aisle, int bay) { return 2 + (aisle * BAYS + bay) * (1 + STACKS); }

// A dry store: in every bay of an aisle a bare relay, which hands to the one before it, and three stacks round it. It also hears the relay and the nearest stack of each bay beside its own.
static Yard dry_store(void) {
  Yard y;
  memset(&y, 0, sizeof y);
  y.p = STORE_AISLES * BAYS * (1 + STACKS);
  for (int aisle = 0; aisle < STORE_AISLES; aisle++)
    for (int bay = 0; bay < BAYS; bay++) {
      int relay = relay_of(aisle, bay), beside = relay_of(aisle + 1, bay);
      y.parent[relay] = bay == 0 ? 1 : relay_of(aisle, bay - 1);
      for (int k = 1; k <= STACKS; k++) y.parent[relay + k] = relay, y.packets[relay + k] = 1 + (aisle + bay + k) % 3;
      if (aisle + 1 < STORE_AISLES) y.pair[relay][beside] = y.pair[relay][beside + 1] = y.pair[relay + STACKS][beside] = 1;
    }
  return y;
}

int main(int argc, char **argv) {
  static const unsigned char document[] = {3, 1, 1, 2, 1, 1, 1, 0, 0}, none[] = {0, 0, 0}, damaged[] = {3, 1, 1, 4, 1, 3, 1, 0, 0};
  if (argc != 2) return printf("usage: make FOLDER\n"), 2;
  folder = argv[1];
  save("document", document, sizeof document), save("empty", none, sizeof none), save("damaged", damaged, sizeof damaged);
  Yard good = down_the_aisles(), bad = one_string(), relays = relays_in_the_aisles(), chain = line(63, 2, 1), star = line(63, 2, 0), longest = line(63, 1, 1), slowest = worst(), dry = dry_store();
  memset(longest.pair, 1, sizeof longest.pair);
  write_yard("sixty", &good), write_yard("sixty-in-one-string", &bad), write_yard("relays", &relays);
  write_yard("dry-store", &dry), write_yard("chain", &chain), write_yard("star", &star), write_yard("longest", &longest), write_yard("sixty-at-worst", &slowest);
  return 0;
}
