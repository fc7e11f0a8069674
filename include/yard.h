// The yard planner for gateways: telephone, arrangements, planners, judge, chooser, wake books, merged readings, lister and the writer and reader of graphs, over bytes in memory.
//
// Every function takes any bytes: the caller tests nothing first, nothing is kept between calls, and nothing is allocated. Every answer is a plan, a
// verdict, a wake book, a text, a table or a numbered refusal; docs/NUMBERS.md has the numbers in plain words, docs/CONTRACTS.md says exactly what each function answers.
// A probe of a sheet has 0 to 15 packets (number 5 is given above 15); one with 0 is a relay, which only passes on.
// In a merged reading, one average for the yard, packets are ignored: each probe sends once, a relay too, after all its children have. It has a planner and a judge of its own.
// A caller need not read more of a file than YARD_SHEET_BYTES of a sheet, YARD_JUDGED_BYTES of a plan and YARD_MERGED_JUDGED_BYTES of a merged plan: more changes no answer.
//
// What the caller must provide, each time:
// - a pointer that is valid for the length given with it, and not null even where the length is 0;
// - a buffer to be written that overlaps none of the other arguments;
// - YARD_STACK bytes of stack, and YARD_LIST_STACK for yard_list and yard_ask.
//
// The library, libgateway.a, is for x86-64 and wants memcpy and memset of its surroundings and nothing else: no operating system, no allocation.
#ifndef YARD_H
#define YARD_H

#include <stddef.h>
#include <stdint.h>

#ifdef __cplusplus
extern "C" {
#endif

enum {
  YARD_SHEET_BYTES = 4162,          // how much of a sheet decides every answer: one byte more than the longest has
  YARD_LONGEST_SHEET = 4161,        // room for any sheet that is written
  YARD_PLAN_BYTES = 60482,          // room for any plan of ours
  YARD_JUDGED_BYTES = 96032,        // how much of a plan, from anybody, decides its verdict
  YARD_MERGED_BYTES = 128,          // room for any merged plan of ours
  YARD_MERGED_JUDGED_BYTES = 65855, // how much of a merged plan, from anybody, decides its verdict
  YARD_BOOK_BYTES = 119322,         // room for any wake book
  YARD_TEXT_BYTES = 302467,         // room for any listing
  YARD_GRAPH_BYTES = 15081,         // room for any graph's text that is written
  YARD_LIST_STACK = 112 * 1024,     // stack that a call of yard_list or yard_ask wants
  YARD_STACK = 48 * 1024            // stack that a call of any other function wants
};

// What a planner answers. Planned: number and place are 0, and the plan has so many colours, slots and bytes.
// Refused: number is 1 to 9, place says where, and colours, slots and bytes are 0. 9 says that the buffer is shorter than 2 + 2 x hops bytes, or, for a merged plan,
// than 2 + 2 x probes.
typedef struct {
  uint8_t number;
  uint16_t place;
  uint8_t colours;
  uint16_t slots;
  size_t bytes;
} yard_planned;

// What a judge answers. Passed: number and place are 0, and the plan has so many slots.
// Refused: number is 1 to 8 for the sheet or 11 to 17 for the plan, place says where, and slots is 0.
// 12 to 15 name senders of the slot, by their bytes. 12, 13 and 14: `first` is the first in slot order that is no probe, that is not above the one before
// it, that holds no packet. 15: the lowest two that conflict, the smaller first, by the smaller and then the larger. A name that is not given is 0; but the
// sender that 12 names may be 0 itself, so the number tells whether one is named. 17 says that packets are left outside the gateway.
// Of a merged plan 14 says instead that a sender is not ready before the slot, since it has sent already or a child of it has not, and 17 that some probe never sent.
typedef struct {
  uint8_t number;
  uint16_t place;
  uint16_t slots;
  uint8_t first;
  uint8_t second;
} yard_verdict;

// What the telephone answers. Answered: number and place are 0; no plan that the judge passes has fewer slots than `least`, our plan by probe has
// `ours`, never more than `most`, and at most `times` times as many as any plan that the judge passes (1 where ours is as long as `least`; 0 where nothing
// is sent). Refused: number is 1 to 8, place says where, and the other four are 0.
typedef struct {
  uint8_t number;
  uint16_t place;
  uint16_t least;
  uint16_t ours;
  uint16_t most;
  uint8_t times;
} yard_told;

// How long one reading takes, before anything is sent. The caller provides a sheet and gets the answer; nothing is written.
yard_told yard_ask(const uint8_t *sheet, size_t sheet_length);

// How long the same probes with the same packets take, hung otherwise and disturbing each other otherwise. Answered: number and place are 0; of any tree and any
// pairs a plan of ours has at most `worst` slots, and no plan that the judge passes fewer than `best`; both are reached. Refused: number is 1 to 8, place says
// where, and the other two are 0.
typedef struct {
  uint8_t number;
  uint16_t place;
  uint16_t best;
  uint16_t worst;
} yard_spread;

// The caller provides a sheet and gets the answer; nothing is written.
yard_spread yard_ask_spread(const uint8_t *sheet, size_t sheet_length);

// Writes the sheet of the worst arrangement of a sheet's probes: a chain, the fewest packets next to the gateway, all pairs interfering. No plan for it has fewer
// than `worst` slots, and ours has as many. The caller provides YARD_LONGEST_SHEET bytes, whatever the sheet, and gets how many were written; the bytes behind them
// stay. A shorter buffer is left as it was, and also where the sheet is refused; the answer is then 0, which no sheet's length is.
size_t yard_worst(const uint8_t *sheet, size_t sheet_length, uint8_t *out, size_t out_length);

// The same of the best arrangement: every probe next to the gateway, no pair. Ours has `best` slots there.
size_t yard_best(const uint8_t *sheet, size_t sheet_length, uint8_t *out, size_t out_length);

// Plans by probe. The caller provides a sheet and a buffer of 2 + 2 x hops bytes; YARD_PLAN_BYTES are enough for any sheet.
// It gets the plan in the first `bytes` bytes of the buffer; the bytes behind it stay. A refusal (9: the buffer is too short) leaves the whole buffer as it was.
yard_planned yard_by_probe(const uint8_t *sheet, size_t sheet_length, uint8_t *buf, size_t buf_length);

// Plans by level; otherwise the same.
yard_planned yard_by_level(const uint8_t *sheet, size_t sheet_length, uint8_t *buf, size_t buf_length);

// Judges a plan, from anybody, against a sheet. The caller provides both; it gets the verdict, and nothing is written.
yard_verdict yard_judge(const uint8_t *sheet, size_t sheet_length, const uint8_t *plan, size_t plan_length);

// Chooses between two plans for a sheet. The caller gets 1 for the first, 2 for the second: the one that passes with fewer slots, the first when equal;
// 0 where neither passes or the sheet is refused; it names nobody, the judge says why and names the senders. Nothing is written.
uint8_t yard_choose(const uint8_t *sheet, size_t sheet_length, const uint8_t *first, size_t first_length, const uint8_t *second, size_t second_length);

// What the maker of wake books answers. Made: number and place are 0, and the book has so many bytes.
// Refused: number, place and the names are the judge's, or number is 22 with place 0 and no names; bytes is 0.
typedef struct {
  uint8_t number;
  uint16_t place;
  uint8_t first;
  uint8_t second;
  size_t bytes;
} yard_booked;

// Writes the wake book of a plan that the judge passes: for each probe, 2 first, how many slots it sends in and these slots, then in how many a child sends to it
// and these; two bytes each, high first, slots rising and counted from 1, slots without a sender too. The caller provides a sheet, a plan and a buffer that is as
// long as the book: 4 for each probe and 4 x hops, less 2 x all packets, whatever the plan; YARD_BOOK_BYTES are enough for any. It gets the book in the first `bytes` bytes; the
// bytes behind it stay. A refusal (22: the buffer is shorter than the book) leaves the whole buffer as it was.
yard_booked yard_book(const uint8_t *sheet, size_t sheet_length, const uint8_t *plan, size_t plan_length, uint8_t *book, size_t book_length);

// What the telephone answers of a merged reading. Answered: number and place are 0; no plan that the merged judge passes has fewer slots than `least`, the depth of
// the yard, and our merged plan has `ours`, never more than `most`, which is colours x depth or the probes, whichever is smaller. Refused: number is 1 to 8, place
// says where, and the other three are 0.
typedef struct {
  uint8_t number;
  uint16_t place;
  uint16_t least;
  uint16_t ours;
  uint16_t most;
} yard_merged_told;

// How long one merged reading takes, before anything is sent. The caller provides a sheet and gets the answer; nothing is written.
yard_merged_told yard_merged_ask(const uint8_t *sheet, size_t sheet_length);

// Plans a merged reading, by probe. The caller provides a sheet and a buffer of 2 + 2 x probes bytes; YARD_MERGED_BYTES are enough for any sheet. It gets the plan in
// the first `bytes` bytes of the buffer; the bytes behind it stay. A refusal (9: the buffer is too short) leaves the whole buffer as it was.
yard_planned yard_merged(const uint8_t *sheet, size_t sheet_length, uint8_t *buf, size_t buf_length);

// Judges a merged plan, from anybody, against a sheet: each probe must send exactly once, after all its children have. yard_judge, yard_choose and yard_book know no
// merged plans. The caller provides both; it gets the verdict, and nothing is written.
yard_verdict yard_merged_judge(const uint8_t *sheet, size_t sheet_length, const uint8_t *plan, size_t plan_length);

// Lists a sheet: the plan by probe as text, or the line `refused N P`. The caller provides YARD_TEXT_BYTES for the text, whatever the sheet, and gets
// the text's length; the bytes behind it stay, and no zero byte ends it. A shorter buffer is left as it was, and the answer is 0, which no text's length is.
size_t yard_list(const uint8_t *sheet, size_t sheet_length, uint8_t *text, size_t text_length);

// What the writer of a graph answers. Written: number and place are 0, and the text has so many bytes.
// Refused: number is 1 to 8 or 21, place says where, and bytes is 0.
typedef struct {
  uint8_t number;
  uint16_t place;
  size_t bytes;
} yard_drawn;

// What the reader of a graph answers. Read: number and place are 0, and the graph has so many vertices.
// Refused: number is 18, 19 or 20, place is the faulty line, from 1, or 0, and vertices is 0. A text may have more than 65,535 lines.
typedef struct {
  uint8_t number;
  uint64_t place;
  uint8_t vertices;
} yard_graph;

// Writes a sheet's conflicts as a graph in the DIMACS format: vertex v is probe v + 1. The caller provides a sheet and a buffer that is as long as the
// text; YARD_GRAPH_BYTES are enough for any sheet. It gets the text in the first `bytes` bytes; the bytes behind it stay, and no zero byte ends it.
// A refusal (21: the buffer is shorter than the text) leaves the whole buffer as it was.
yard_drawn yard_graph_write(const uint8_t *sheet, size_t sheet_length, uint8_t *text, size_t text_length);

// Reads such a text, whole in memory, of any length and from anybody, into a table of one word a row: bit k of rows[j] is set just where the nodes j + 1 and k + 1 are
// joined, so that vertex v has rows[v] and bit v; rows[0] and bit 0 are the gateway's, and stay 0. All 64 rows are written, 0 on a refusal, whatever they held.
yard_graph yard_graph_read(const uint8_t *text, size_t text_length, uint64_t rows[64]);

#ifdef __cplusplus
}
#endif

#endif
