// What igraph finds in the texts that are named, in the form of graph-readers.c: igraph TEXT...; and a text that it writes itself: igraph write TEXT
#include <igraph/igraph.h>
#include <stdio.h>
#include <stdlib.h>
#include <string.h>

static void name_of(const char *path, char *name, size_t room) {
  const char *base = strrchr(path, '/');
  snprintf(name, room, "%s", base ? base + 1 : path);
  name[strcspn(name, ".")] = 0;
}

static void list(const char *path) {
  igraph_t graph;
  igraph_strvector_t problem;
  igraph_vector_int_t labels;
  igraph_vector_t capacities;
  igraph_integer_t source, target, a, b;
  char name[128];
  FILE *f = fopen(path, "rb");
  if (!f) perror(path), exit(1);
  igraph_strvector_init(&problem, 0), igraph_vector_int_init(&labels, 0), igraph_vector_init(&capacities, 0);
  igraph_read_graph_dimacs_flow(&graph, f, &problem, &labels, &source, &target, &capacities, 0);
  fclose(f);
  if (strcmp(igraph_strvector_get(&problem, 0), "edge")) printf("%s is another problem\n", path), exit(1);
  name_of(path, name, sizeof name);
  printf("%s has %d vertices, %d edges\n", name, (int)igraph_vcount(&graph), (int)igraph_ecount(&graph));
  for (igraph_integer_t k = 0; k < igraph_ecount(&graph); k++) {
    igraph_edge(&graph, k, &a, &b);
    printf("%s edge %d %d\n", name, (int)(a < b ? a : b) + 1, (int)(a < b ? b : a) + 1);
  }
  igraph_destroy(&graph), igraph_strvector_destroy(&problem), igraph_vector_int_destroy(&labels), igraph_vector_destroy(&capacities);
}

// A ring of three, as the flow problem from the first to the last, which is all that it writes.
static void write_ring(const char *path) {
  igraph_t graph;
  igraph_vector_t capacities;
  FILE *f = fopen(path, "wb");
  if (!f) perror(path), exit(1);
  igraph_ring(&graph, 3, 0, 0, 1), igraph_vector_init(&capacities, 3);
  igraph_write_graph_dimacs_flow(&graph, f, 0, 2, &capacities);
  if (fclose(f)) perror(path), exit(1);
  igraph_vector_destroy(&capacities), igraph_destroy(&graph);
}

int main(int argc, char **argv) {
  if (argc == 3 && !strcmp(argv[1], "write")) return write_ring(argv[2]), 0;
  for (int k = 1; k < argc; k++) list(argv[k]);
  return 0;
}
