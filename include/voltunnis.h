/*
 * Voltunnis: checks, answers and decision graphs for coin sorter rule sheets.
 *
 * Every function takes byte sequences, each as a pointer and a length, and returns one 64-bit
 * number. A window is lent as a pointer to its cells. A pointer is never null, not even with length 0.
 * A buffer that is lent to be written must not overlap an input. No function keeps a pointer after it
 * returned.
 *
 * A result is packed from the lowest bit up: 8 bits for the refusal's number, 0 when accepted, then
 * the fields that stand beside each function. On a refusal all other bits are 0.
 *
 * Refusals: the first question that gets a no, in this order, gives its number.
 *
 *   sheet        1  begins with a whole 10 record
 *                2  arity 1 to 8
 *                3  at most 64 rules
 *   each         4  whole record of kinds 20 to 27
 *   pattern      5  a compound's depth is at most 3
 *                6  a compound's arity is 1 to 4
 *                7  low is at most high, of a range, on whichever gauge, and of a series
 *                8  variable 0 to 15
 *   each rule    9  each variable's ranges have a number in common
 *   sheet's end 10  no bytes are left
 *               11  at most 64 tests
 *   piece       12  begins with a whole 11 record
 *               13  arity 1 to 8
 *               14  each term is a whole record of kinds 30 to 36
 *               15  a compound's depth is at most 3
 *               16  a compound's arity is 1 to 4
 *               32  a span's low is at most its high; asked after 16 at that term, before the next term's 14
 *               17  no bytes are left
 *   building    18  the graph has at most 1,024 nodes
 *   writing     19  it fits the lent buffer
 *   both        20  sheet and piece have the same arity
 *   graph       21  begins with a whole 12 record: the sheet's arity and rule count, 1 to 1,024 nodes
 *   each node   22  whole record of kinds 40 to 43 or 47, a switch with 1 case or more of kinds 44 to 46
 *               23  nodes and rule in range, place or pair among the sheet's tests
 *               24  cases strictly ascending, numbers by gauge, low, then high, low at most high, no id in two
 *   graph's end 25  no bytes are left
 *   each switch 26  fewer than 64 edges have been walked
 *   or pair     27  each place it tests is in the piece, or below an unknown or record 35
 *   walked
 *   order       28  the table is 1,360 bytes
 *               29  each of its places is 0 to 679, none twice
 *               30  none stands before its parent
 *   tidying     31  the tidy sheet fits the lent buffer
 *   an answer   36  commit or execute with rule 1 to 64, or suspend or fail with rule 0
 *   fed
 *   a track     37  the list of positions is 1,360 bytes
 *   drawing     38  the buffer has 1,360 bytes or more
 *
 * Kinds are hexadecimal, all other numbers decimal.
 *
 * A rule may hold record 26 (wide low, wide high), a series: any symbol with an id from low to high. Record 21 is the
 * series of one symbol: both give the same graph, and a tidy sheet has 21. A case of symbols, 44 (wide low, wide high, wide
 * node), takes a run of ids, and no id is in two of them.
 *
 * A piece may hold record 34 (wide low, wide high), a span: a number known to lie between them. One with equal ends is
 * that number. A switch of a graph is 43 (wide place, wide number of cases, wide node for neither, wide node for
 * unknown), then its cases. Number cases, 46, may overlap: of those that contain it, a number or span follows the one
 * with the highest low, then the lowest high.
 *
 * A piece may hold record 36 (gauge, wide value), a number on one of the gauges 0 to 255; record 32 is a number on gauge 0, and
 * spans and the ranges of variables are on it. Numbers are equal only on the same gauge. A rule may hold record 27 (gauge, wide
 * low, wide high), a range of that gauge; record 22 is one of gauge 0, and a tidy sheet has 22 for it. A case of numbers, 46
 * (gauge, wide low, wide high, wide node), takes those of its gauge only. Graphs from before gauges lack that byte: build them
 * again, or put a 0 into each number case.
 *
 * A piece may hold record 35, which has no body: a reading that will never come, as of a sensor that the machine lacks. It
 * contradicts every test of its place and of the places below it, and at a switch it takes the edge for neither. A term that
 * is or holds it differs from every term, itself and unknowns included. So an unknown settles no pair: behind the edge for
 * unknown the pairs of its place are still pending.
 */
#ifndef VOLTUNNIS_H
#define VOLTUNNIS_H

#include <stddef.h>
#include <stdint.h>

#ifdef __cplusplus
extern "C" {
#endif

/* The word of an answer. */
enum vt_word {
    VT_COMMIT = 1,
    VT_EXECUTE = 2,
    VT_SUSPEND = 3,
    VT_FAIL = 4
};

/* Refusal, 0 when accepted: bits 0 to 7 of every result. */
static inline unsigned vt_refusal(uint64_t result) { return (unsigned)(result & 0xff); }

/* Checks a sheet: questions 1 to 11.
 * Fields: arity (bits 8 to 15), rules (16 to 23), tests (24 to 31). */
uint64_t vt_check_sheet(const uint8_t *sheet, size_t sheet_len);

/* Checks a piece: questions 12 to 17, and 32 after 16 at each term.
 * Fields: arity (bits 8 to 15). */
uint64_t vt_check_piece(const uint8_t *piece, size_t piece_len);

/* The plain answer of a sheet on a piece: questions 1 to 11, 12 to 17 with 32, then 20.
 * Fields: word (bits 8 to 15), rule (16 to 23), which is 0 for suspend and fail. */
uint64_t vt_plain(const uint8_t *sheet, size_t sheet_len, const uint8_t *piece, size_t piece_len);

/* Checks a graph for the sheet that it is walked with: questions 1 to 11, then 21 to 25.
 * Fields: nodes (bits 8 to 23). */
uint64_t vt_check_graph(const uint8_t *sheet, size_t sheet_len, const uint8_t *graph, size_t graph_len);

/* The most bytes that an accepted graph has: 5, and for each of 1,024 nodes 9 and 65,535 cases of 8. */
#define VT_MOST_BYTES 536871941

/* No built graph has more bytes: 5, and for each of 1,024 nodes 9 and 8,385 cases of 8. Most have far fewer: lend what there is,
 * and more where question 19 gets a no, as a refusal changes no byte. */
#define VT_MOST_BUILT_BYTES 68699141

/* Writes the nodes of a graph again, at the start of the buffer: questions 1 to 11, 21 to 25, then 19.
 * The bytes after them stay as they are, and all do on a refusal. As many bytes are written as the graph has, at most
 * VT_MOST_BYTES.
 * Fields: bytes written (bits 8 to 39). */
uint64_t vt_rewrite(const uint8_t *sheet, size_t sheet_len, const uint8_t *graph, size_t graph_len,
                    uint8_t *buffer, size_t buffer_len);

/* Builds a sheet's graph at the start of the buffer: questions 1 to 11, 18, then 19. The bytes after the
 * graph stay as they are, and all do on a refusal. At most VT_MOST_BUILT_BYTES are written.
 * Fields: nodes (bits 8 to 23), bytes written (bits 24 to 55). */
uint64_t vt_build(const uint8_t *sheet, size_t sheet_len, uint8_t *buffer, size_t buffer_len);

/* The bytes of a reading order: the 680 places in the order in which they are asked, each once and after its parent, as wide
 * fields. It replaces the ascending order of places; pairs still come after all places, and tests keep their numbers. */
#define VT_ORDER 1360

/* Checks a reading order: questions 28 to 30. Fields: none. */
uint64_t vt_check_order(const uint8_t *table, size_t table_len);

/* Builds a sheet's graph in a reading order, at the start of the buffer: questions 1 to 11, 28 to 30, 18, then 19. The bytes
 * after the graph stay as they are, and all do on a refusal. At most VT_MOST_BUILT_BYTES are written. The places 0 to 679 in turn
 * give the graph of vt_build. Word and rule of a walk are the same in every order, its edges and its wait list may differ; the
 * calls that check, write again and walk a graph need no table.
 * Fields: nodes (bits 8 to 23), bytes written (bits 24 to 55). */
uint64_t vt_build_ordered(const uint8_t *sheet, size_t sheet_len, const uint8_t *table, size_t table_len,
                          uint8_t *buffer, size_t buffer_len);

/* Writes the reading order of a track drawing, at the start of the buffer: questions 37, then 38. The positions are wide fields,
 * one for each of the 680 places. Step by step, of the places not yet put down that are arguments or whose parent is down, the one
 * with the smallest position comes next, on equal positions the lower place. Whatever the positions, what is written is a table
 * that vt_check_order and vt_build_ordered accept. The bytes after it stay as they are, and all do on a refusal.
 * Fields: bytes written (bits 8 to 39), which are VT_ORDER. */
uint64_t vt_order(const uint8_t *positions, size_t positions_len, uint8_t *buffer, size_t buffer_len);

/* Writes a sheet in its tidy form, at the start of the buffer: questions 1 to 11, then 31. Two accepted sheets get equal bytes
 * exactly when they have the same arity and, rule for rule, the same tests. The tidy form may be longer than the sheet. The bytes
 * after it stay as they are, and all do on a refusal. At most 41,987 bytes are written.
 * Fields: bytes written (bits 8 to 39). */
uint64_t vt_tidy(const uint8_t *sheet, size_t sheet_len, uint8_t *buffer, size_t buffer_len);

/* Walks a piece over a graph: questions 1 to 17 with 32, 20, 21 to 25, then 26 and 27 along the way.
 * Fields: word (bits 8 to 15), rule (bits 16 to 23, 0 for suspend and fail), edges walked (bits 24 to 31). */
uint64_t vt_walk(const uint8_t *sheet, size_t sheet_len, const uint8_t *graph, size_t graph_len,
                 const uint8_t *piece, size_t piece_len);

/* The wait list of the same walk, test t being bit t: for suspend the tests met that are not known, and each place met whose span
 * lies partly inside and partly outside the range of a rule live there; for execute the tests of the rule that are not known; else
 * none. On a built graph a suspended piece filled in further suspends while each listed place keeps the unknown or span that it
 * held and each listed pair is still not known. What never comes, record 35, is in no list. The whole result is the list; on a
 * refusal it is 0, so read it only where vt_walk is not refused. */
uint64_t vt_wait(const uint8_t *sheet, size_t sheet_len, const uint8_t *graph, size_t graph_len,
                 const uint8_t *piece, size_t piece_len);

/* Walks many pieces for one check: questions 1 to 11, 21 to 25, then for each piece 12 to 16, 32, 20, 26 and 27. Pieces follow one
 * another, each ending with its last term. For each piece a result of VT_RESULT bytes is written, the first at the start of the
 * buffer: refusal, word, rule, edges walked, four zeros, then the wait list, highest byte first; all zero but the refusal where the
 * piece is refused. It goes on after a piece that is refused by 20, 26 or 27; one that cannot be read (12 to 16, 32) gets the last
 * result. It stops where the pieces end, where the buffer has no room for a result, or before a field would be too large. The
 * bytes after the results stay as they are, and all do where the sheet or the graph is refused.
 * Fields: results written (bits 8 to 31), bytes of the pieces that were read (bits 32 to 63), after which the next call goes on. */
#define VT_RESULT 16

uint64_t vt_walk_all(const uint8_t *sheet, size_t sheet_len, const uint8_t *graph, size_t graph_len,
                     const uint8_t *pieces, size_t pieces_len, uint8_t *results, size_t results_len);

/* A window has the counts of the last 1,000 answers that were fed to it, or of all if fewer were. It is so many uint16_t, which the
 * caller lends; all zero is a fresh one. A feed and a question take the same time whatever was fed before. On memory that holds
 * anything else the calls end and stay inside it. */
#define VT_WINDOW 1070

/* Makes a window fresh. Fields: none. */
uint64_t vt_window_fresh(uint16_t window[VT_WINDOW]);

/* Feeds an answer, its word and its rule: question 36. A refused answer leaves the window as it was. Fields: none. */
uint64_t vt_window_feed(uint16_t window[VT_WINDOW], uint8_t word, uint8_t rule);

/* The counts of the four words. The whole result is the counts, 16 bits each: commit (bits 0 to 15), execute (16 to 31), suspend
 * (32 to 47), fail (48 to 63). */
uint64_t vt_window_words(const uint16_t window[VT_WINDOW]);

/* The commits of a rule, 0 where it is not 1 to 64. The whole result is the count. */
uint64_t vt_window_commits(const uint16_t window[VT_WINDOW], uint8_t rule);

#ifdef __cplusplus
}
#endif

#endif
