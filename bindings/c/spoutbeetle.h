/* Spoutbeetle: a triangle mesh whose nodes carry corrections, and that can be refined, coarsened, restored and asked about points, proved.
 *
 * First the calls on a mesh; then the reader, which takes the line program's text in pieces and makes these calls for it.
 *
 * Every call takes any lengths, counts and contents, ends, and returns a number. The caller lends the tables; a table is a pointer and
 * a length in numbers (not bytes). What a call asks of its pointers, and cannot test: each is valid, aligned and not null (also where
 * the length is 0); the tables do not overlap; n, t, dx, dy, passes, red and culprit, where they are pointers, are valid, aligned, distinct
 * from each other and outside the tables; and nothing else writes any of these during the call, or reads one that is not const. What is const is
 * only read.
 *
 *   nodes    four numbers a node: x and y, its place, and dx and dy, the correction that it carries; room NC = nodes_len / 4, at most 1,024
 *   rows     three numbers a triangle, p q r: p is the newest vertex, q-r the refinement edge; room TC = rows_len / 3, at most 2,048
 *   scratch  at least 4 * (NC + TC) numbers; what it holds does not matter; all zero after every call
 *   marks    one byte for each triangle (refine, quarter, refine_red) or node (coarsen), 0 or 1; never written
 *   n, t     how many nodes and triangles there are
 *   n0       how many of the nodes belong to the factory mesh
 *   culprit  the last parameter of every call on a mesh, written by each: with 3 to 7 the lowest node or triangle at fault, counted from 0
 *            (with 3 for a correction to be set: the node given); 0 with every other number. What it held before does not matter
 *
 * Numbers (the lowest that applies is returned, but 11 and 12 come before 10), and the culprit:
 *    0  done: the tables hold the new mesh, zeros past the new counts
 *    1  a table length is not a multiple of its row, a room or count is out of bounds, n0 is above n, or scratch is short; of the reader:
 *       something is lent in another size, or the state is none that a call left
 *    2  the mark table has another length, or a byte above 1
 *    3  a coordinate of a node is outside -1,048,576 .. 1,048,576, or its dx or dy outside -32,768 .. 32,767: the lowest such node; if there is
 *       none, the dx or dy to be set is outside: the node given
 *    4  a triangle names a node that is not below n, or one node twice: the lowest such triangle
 *    5  a directed edge (p to q, q to r, r to p) occurs twice: the lowest triangle with one that a lower row already has
 *    6  a triangle's twice-area is not above 0: the lowest such triangle
 *    7  a node is in no triangle: the lowest such node
 *    8  an edge to be split has an odd sum of x or of y
 *    9  the new counts are above NC or TC
 *   10  the labelling is not compatible (check only)
 *   11  two nodes stand at one place, or a node lies strictly inside an edge (check only)
 *   12  two triangles share an interior point, be its coordinates whole numbers or fractions (check only)
 *   13  the node to be set is a base node, below n0 (set_correction only)
 *   14  no triangle holds the point (correction_at only)
 *   15  the node to be set is not below n (set_correction only)
 *   17  a piece over 512 bytes, or any after the end was announced (reader only)
 *
 * A refusal (any number but 0) changes no node, no triangle, no mark and no count, and makes no pass; scratch is all zero, also where
 * it was too short. A refusal by the reader changes nothing at all.
 */
#ifndef SPOUTBEETLE_H
#define SPOUTBEETLE_H

#include <stdbool.h>
#include <stddef.h>
#include <stdint.h>

#ifdef __cplusplus
extern "C" {
#endif

/* The base check: 0 for a lawful mesh with a compatible labelling in which no two nodes stand at one place, no node lies strictly inside an edge
 * and no two triangles share an interior point. Triangles may touch: at a node that both name, or along an edge that is a whole side of both.
 * The other calls do not ask for any of this again. It writes no table but scratch, whatever it returns. */
uint32_t spoutbeetle_check(int32_t *nodes, size_t nodes_len, uint32_t *rows, size_t rows_len, uint32_t *scratch, size_t scratch_len,
                           size_t n, size_t t, size_t *culprit);

/* Splits the marked triangles, and what must be split with them. A new node stands on the exact middle of its edge and carries the mean of the
 * two ends' corrections, each part rounded down: -3 and 0 give -2. After 0, *n and *t are the new counts. */
uint32_t spoutbeetle_refine(int32_t *nodes, size_t nodes_len, uint32_t *rows, size_t rows_len, uint32_t *scratch, size_t scratch_len,
                            const uint8_t *marks, size_t marks_len, size_t n0, size_t *n, size_t *t, size_t *culprit);

/* As spoutbeetle_refine, but all three edges of every marked triangle are split, not its refinement edge alone: it becomes four. */
uint32_t spoutbeetle_quarter(int32_t *nodes, size_t nodes_len, uint32_t *rows, size_t rows_len, uint32_t *scratch, size_t scratch_len,
                             const uint8_t *marks, size_t marks_len, size_t n0, size_t *n, size_t *t, size_t *culprit);

/* As spoutbeetle_quarter, but a triangle p q r with all three edges split is cut red: into four shaped like itself, those at its corners p, q and r
 * and the middle one, which joins the three new nodes. With m, u and v on q-r, p-q and r-p its row becomes p u v, and u q m, v m r and m v u are
 * appended. A triangle with one or two split edges is cut as by the other two.
 *
 * *red is 1 if the call made a red cut, else 0: so it is 1 exactly if the call returned 0 and at least one byte of marks is 1. What it held before
 * does not matter. After 0, a call that leaves 0 there has changed no node, no triangle and no count, and what is said of spoutbeetle_restore goes on
 * to hold; after one that leaves 1, a restore may end away from the base, and return 0 there too. */
uint32_t spoutbeetle_refine_red(int32_t *nodes, size_t nodes_len, uint32_t *rows, size_t rows_len, uint32_t *scratch, size_t scratch_len,
                                const uint8_t *marks, size_t marks_len, size_t n0, size_t *n, size_t *t, uint32_t *red, size_t *culprit);

/* Takes the marked nodes that are good: added nodes that can go without leaving a gap. Corrections do not matter to that; the nodes that stay
 * keep theirs. After 0, *n and *t are the new counts. */
uint32_t spoutbeetle_coarsen(int32_t *nodes, size_t nodes_len, uint32_t *rows, size_t rows_len, uint32_t *scratch, size_t scratch_len,
                             const uint8_t *marks, size_t marks_len, size_t n0, size_t *n, size_t *t, size_t *culprit);

/* Sets the correction of an added node. Node number, dx and dy are anything: the numbers above say what is refused. After 0 the node carries
 * (dx, dy), entries past the counts are zero, and nothing else differs. */
uint32_t spoutbeetle_set_correction(int32_t *nodes, size_t nodes_len, uint32_t *rows, size_t rows_len, uint32_t *scratch, size_t scratch_len,
                                    size_t n0, size_t n, size_t t, size_t node, int32_t dx, int32_t dy, size_t *culprit);

/* A question about a point: what is the correction at (x, y)? The point may be any. The lowest row whose triangle holds it, sides and corners
 * included, answers: *dx and *dy are the mean of what its three nodes carry, each weighted by the area that the point makes with the side
 * opposite, and each part is rounded down from the exact fraction. So it differs from the exact value by less than one unit and never exceeds
 * it; at a node of that row it is what the node carries. Any refusal gives 0, 0. Nodes and rows are only read, and what *dx and *dy held before
 * does not matter.
 *
 * After a restore that gives back a base, as said there, answers depend on the base and the point alone, whatever was marked or set since the
 * check: asked on the tables and the counts that it left, with an n0 not above n and scratch enough. */
uint32_t spoutbeetle_correction_at(const int32_t *nodes, size_t nodes_len, const uint32_t *rows, size_t rows_len, uint32_t *scratch,
                                   size_t scratch_len, size_t n0, size_t n, size_t t, int32_t x, int32_t y, int32_t *dx, int32_t *dy,
                                   size_t *culprit);

/* Coarsens while a good node exists. After 0, *n and *t are the new counts and *passes how many passes were made, 0 passes included;
 * after a refusal *passes is 0. What *passes held before does not matter.
 *
 * It gives back a base row for row (node table with its corrections, triangle table and counts; zeros past them), after no more passes than
 * there were added nodes, if
 *   - spoutbeetle_check returned 0 for the base, on these tables;
 *   - every refine, quarter, refine_red, coarsen, set_correction or restore since that returned 0 had the base's node count as n0, and was made on
 *     the tables and the counts that the accepted call before it left (the first: on those of the check);
 *   - none of these refine_red left 1 in *red;
 *   - this call too has the base's node count as n0, the tables and the counts that the last accepted call left, and scratch enough;
 *   - nothing but these calls wrote to the node table or the triangle table, and their lengths stayed.
 * Questions, and refused calls of any kind, may stand in between, with whatever counts, n0, marks and scratch; each call may lend another scratch.
 * Only a short scratch can refuse it then, as 1. */
uint32_t spoutbeetle_restore(int32_t *nodes, size_t nodes_len, uint32_t *rows, size_t rows_len, uint32_t *scratch, size_t scratch_len,
                             size_t n0, size_t *n, size_t *t, size_t *passes, size_t *culprit);

/* ---- the reader
 *
 * The line program's text arrives in pieces of 0 to 512 bytes, cut anywhere, even inside a digit pair. The answers, and what is held at the end,
 * are those of the whole text, however it was cut: spoutbeetle_begin starts, spoutbeetle_take takes a piece, spoutbeetle_end announces that
 * no more will come. A program need not lend each part: the three calls on a spoutbeetle_reader, below, lend all that is in it.
 *
 * How answers leave. A call writes one answer at most, from the start of out on, and never more than 32,768 bytes. So spoutbeetle_take stops
 * behind the first line that has an answer, and says in *taken how many bytes of the piece are done: hand over the rest in the next call,
 * until all is taken. It takes one byte of the rest at least, and all of it where it writes nothing. A caller that sends on *written bytes of
 * out after every call loses none, with a buffer of 32,768 bytes.
 *
 *   piece    the next bytes of the text, 512 at most; only read
 *   line     255 bytes: the first 255 of the unfinished line, then zeros
 *   nodes, rows, scratch
 *            2,048, 3,072 and 6,144 numbers: the tables of the line program, 512 nodes and 1,024 triangles
 *   out      32,768 bytes at least; what it holds does not matter, and what is not written stays
 *   used     how many bytes of the line buffer the unfinished line has
 *   ended    whether the end was announced
 *   n, t, n0, accepted
 *            the counts, and whether a base was accepted (03 said 0); n0 is its node count
 *   taken    how many bytes of the piece are done; 0 after a refusal
 *   written  how many bytes of out were written; 0 after a refusal
 *
 * line, nodes, rows and scratch, and used to accepted, are the state: lend them to each call as the call before left them. Each call may lend
 * another out. Every call writes all of used to written. It refuses
 *   - as 1 what is lent in another size, used above 255, n above 512 and t above 1,024;
 *   - as 17, if it is spoutbeetle_take and nothing is to be refused as 1, a piece over 512 bytes, and any after the end, an empty one too.
 * A refusal changes no byte of line, tables and out, and writes back what used to accepted held (a refused begin: 0 and false). What the calls
 * ask of their pointers is what is said above; the values behind ended and accepted must be true or false. */

/* Starts, whatever is lent: line and tables are all zero then, used to accepted are 0 and false, and out has the line "mesh lines 1". */
uint32_t spoutbeetle_begin(uint8_t *line, size_t line_len, int32_t *nodes, size_t nodes_len, uint32_t *rows, size_t rows_len,
                           uint32_t *scratch, size_t scratch_len, uint8_t *out, size_t out_len, size_t *used, bool *ended, size_t *n,
                           size_t *t, size_t *n0, bool *accepted, size_t *written);

/* Takes a piece, up to the first line that has an answer. */
uint32_t spoutbeetle_take(const uint8_t *piece, size_t piece_len, uint8_t *line, size_t line_len, int32_t *nodes, size_t nodes_len,
                          uint32_t *rows, size_t rows_len, uint32_t *scratch, size_t scratch_len, uint8_t *out, size_t out_len,
                          size_t *used, bool *ended, size_t *n, size_t *t, size_t *n0, bool *accepted, size_t *taken, size_t *written);

/* Announces the end: a last line without its end byte is malformed now and answered "ff"; then comes the line "end". The tables are only read.
 * Announced once more, it says 0, writes nothing and changes nothing. */
uint32_t spoutbeetle_end(uint8_t *line, size_t line_len, const int32_t *nodes, size_t nodes_len, const uint32_t *rows, size_t rows_len,
                         const uint32_t *scratch, size_t scratch_len, uint8_t *out, size_t out_len, size_t *used, bool *ended, size_t *n,
                         size_t *t, size_t *n0, bool *accepted, size_t *written);

/* The longest piece, and the least buffer for an answer, in bytes. */
enum { SPOUTBEETLE_PIECE = 512, SPOUTBEETLE_OUT = 32768 };

/* All that is carried from piece to piece. Any bytes will do before spoutbeetle_reader_begin; after it, read it as you like, and write nothing.
 * Two that were all zero before they began can be compared by memcmp. */
typedef struct spoutbeetle_reader {
    size_t used, n, t, n0;
    int32_t nodes[2048];
    uint32_t rows[3072], scratch[6144];
    uint8_t line[255];
    bool ended, accepted;
} spoutbeetle_reader;

/* The three calls, with all that is in the reader lent. So 1 means that out is short. They are in spoutbeetle.c, not in the library, and
 * not proved; what each takes, writes and says is what the call of the library does. */
uint32_t spoutbeetle_reader_begin(spoutbeetle_reader *reader, uint8_t *out, size_t out_len, size_t *written);
uint32_t spoutbeetle_reader_take(spoutbeetle_reader *reader, const uint8_t *piece, size_t piece_len, uint8_t *out, size_t out_len,
                                 size_t *taken, size_t *written);
uint32_t spoutbeetle_reader_end(spoutbeetle_reader *reader, uint8_t *out, size_t out_len, size_t *written);

/* ---- words */

/* The number and the culprit of an answer in words: what is wrong and where, and the number in brackets, e.g.
 * "triangle 17 has a directed edge that a lower row already has (5)". A number that names no culprit, or that no call gives, has its words
 * too. At most size bytes are written to text, its ending 0 among them; text may be null where size is 0. Returns the length of the whole
 * text, which was cut if that is not below size. It is in spoutbeetle.c beside this header, not in the library, and is not proved. */
size_t spoutbeetle_words(uint32_t number, size_t culprit, char *text, size_t size);

#ifdef __cplusplus
}
#endif
#endif
