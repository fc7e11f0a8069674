// A second reading of the rules (docs/RULES.md), in C and straightforward, sharing no code or table with the proved side. The tests compare the
// library with it, and the benchmark holds the library's speed against it. Answers are those of include/yard.h.
#ifndef SECOND_H
#define SECOND_H

#include "yard.h"

yard_planned second_by_probe(const uint8_t *sheet, size_t length, uint8_t *buf, size_t room);
yard_planned second_by_level(const uint8_t *sheet, size_t length, uint8_t *buf, size_t room);
yard_verdict second_judge(const uint8_t *sheet, size_t length, const uint8_t *plan, size_t size);
uint8_t second_choose(const uint8_t *sheet, size_t length, const uint8_t *first, size_t first_size, const uint8_t *second, size_t second_size);

yard_booked second_book(const uint8_t *sheet, size_t length, const uint8_t *plan, size_t size, uint8_t *book, size_t room);

yard_planned second_merged(const uint8_t *sheet, size_t length, uint8_t *buf, size_t room);
yard_verdict second_merged_judge(const uint8_t *sheet, size_t length, const uint8_t *plan, size_t size);
yard_merged_told second_merged_ask(const uint8_t *sheet, size_t length);

yard_told second_ask(const uint8_t *sheet, size_t length);
yard_spread second_spread(const uint8_t *sheet, size_t length);

// The worst and the best sheet, into a buffer of at least YARD_LONGEST_SHEET bytes; 0 where the sheet is refused.
size_t second_worst(const uint8_t *sheet, size_t length, uint8_t *out);
size_t second_best(const uint8_t *sheet, size_t length, uint8_t *out);

// The lister's text, into a buffer of at least YARD_TEXT_BYTES bytes.
size_t second_list(const uint8_t *sheet, size_t length, char *text);

yard_drawn second_graph_write(const uint8_t *sheet, size_t length, uint8_t *text, size_t room);
yard_graph second_graph_read(const uint8_t *text, size_t length, uint64_t rows[64]);

// The conflicts of a sheet as yard_graph_read has them in rows, and the colours by probe, colours[v] for vertex v; both answer the number of probes, -1 where
// the sheet is refused.
int second_conflicts(const uint8_t *sheet, size_t length, uint64_t rows[64]);
int second_colours(const uint8_t *sheet, size_t length, int colours[64]);

// The room that a planner wants for a sheet, 0 where the sheet is refused.
size_t second_room(const uint8_t *sheet, size_t length);

#endif
