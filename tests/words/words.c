/* The words of C: for every number and some culprits; of a call that draws each refusal; and cut to every size. tests/words/words.out has
 * what is written. */
#include "spoutbeetle.h"

#include <stdio.h>
#include <string.h>

enum { NC = 16, TC = 32, SCRATCH = 4 * (NC + TC) };

static int32_t nodes[4 * NC];
static uint32_t rows[3 * TC], scratch[SCRATCH];
static const uint8_t marks[TC] = {1};
static size_t n, t, passes, culprit;

/* Puts a square in two halves into the tables. */
static void square(void) {
    static const int32_t corners[] = {0, 0, 1, -1, 8, 0, 2, -2, 8, 8, 3, -3, 0, 8, 4, -4};
    static const uint32_t halves[] = {1, 2, 0, 3, 0, 2};
    memcpy(nodes, corners, sizeof corners);
    memcpy(rows, halves, sizeof halves);
    n = 4;
    t = 2;
    culprit = 7777;
}

/* Adds nodes, four numbers each, and keeps `from` rows and puts these behind, three numbers each. */
static void add(const int32_t *more, size_t nodes_more, size_t from, const uint32_t *others, size_t rows_more) {
    memcpy(nodes + 4 * n, more, 4 * nodes_more * sizeof *nodes);
    memcpy(rows + 3 * from, others, 3 * rows_more * sizeof *rows);
    n += nodes_more;
    t = from + rows_more;
}

static uint32_t check(size_t scratch_len) { return spoutbeetle_check(nodes, 4 * NC, rows, 3 * TC, scratch, scratch_len, n, t, &culprit); }

static uint32_t refine(size_t marks_len) { return spoutbeetle_refine(nodes, 4 * NC, rows, 3 * TC, scratch, SCRATCH, marks, marks_len, 4, &n, &t, &culprit); }

static uint32_t quarter(size_t room) { return spoutbeetle_quarter(nodes, 4 * room, rows, 3 * TC, scratch, SCRATCH, marks, t, 4, &n, &t, &culprit); }

static uint32_t refine_red(size_t room) {
    uint32_t red;
    return spoutbeetle_refine_red(nodes, 4 * NC, rows, 3 * room, scratch, SCRATCH, marks, t, 4, &n, &t, &red, &culprit);
}

static uint32_t coarsen(void) { return spoutbeetle_coarsen(nodes, 4 * NC, rows, 3 * TC, scratch, SCRATCH, marks, n, 4, &n, &t, &culprit); }

static uint32_t restore(void) { return spoutbeetle_restore(nodes, 4 * NC, rows, 3 * TC, scratch, SCRATCH, 4, &n, &t, &passes, &culprit); }

static uint32_t set_correction(size_t node, int32_t dx, int32_t dy) {
    return spoutbeetle_set_correction(nodes, 4 * NC, rows, 3 * TC, scratch, SCRATCH, 4, n, t, node, dx, dy, &culprit);
}

static uint32_t correction_at(int32_t x, int32_t y) {
    int32_t dx, dy;
    return spoutbeetle_correction_at(nodes, 4 * NC, rows, 3 * TC, scratch, SCRATCH, 4, n, t, x, y, &dx, &dy, &culprit);
}

static void say(const char *call, uint32_t number) {
    char text[160];
    spoutbeetle_words(number, culprit, text, sizeof text);
    printf("%s: %s\n", call, text);
    square();
}

/* A call for each number, on the square spoilt in one way. */
static void say_calls(void) {
    square();
    say("check, the square", check(SCRATCH));
    say("check, scratch a number short", check(SCRATCH - 1));
    say("refine, a mark for one row of two", refine(1));
    nodes[4 * 2] = nodes[4 * 3 + 1] = 1048577;
    say("check, nodes 2 and 3 too far out", check(SCRATCH));
    nodes[4 * 1 + 3] = -32769, nodes[4 * 2] = 1048577;
    say("restore, node 1 with too large a correction, 2 too far out", restore());
    say("set_correction, node 3 to 32,768", set_correction(3, 0, 32768));
    say("set_correction, node 9 to -32,769", set_correction(9, -32769, 0));
    rows[3 * 1 + 2] = 4;
    say("refine, row 1 names node 4 of four", refine(t));
    t = 3;
    memcpy(rows + 3 * 2, rows, 3 * sizeof *rows);
    say("quarter, row 0 once more as row 2", quarter(NC));
    nodes[4 * 3] = nodes[4 * 3 + 1] = 4;
    say("coarsen, row 1 without area", coarsen());
    n = 6;
    say("restore, nodes 4 and 5 more", restore());
    nodes[4 * 2 + 1] = 7;
    say("refine, an edge of odd height", refine(t));
    say("quarter, room for four nodes", quarter(4));
    say("refine_red, room for five rows", refine_red(5));
    rows[3 * 1] = 0, rows[3 * 1 + 1] = 2, rows[3 * 1 + 2] = 3;
    say("check, row 1 turned", check(SCRATCH));
    add((const int32_t[]){4, 4, 0, 0}, 1, 1, (const uint32_t[]){4, 3, 0, 4, 2, 3}, 2);
    say("check, row 1 alone cut at the middle of 0-2", check(SCRATCH));
    add((const int32_t[]){3, 1, 0, 0, 5, 3, 0, 0, 2, 4, 0, 0}, 3, 2, (const uint32_t[]){4, 5, 6}, 1);
    say("check, a triangle over both rows", check(SCRATCH));
    say("set_correction, a base node", set_correction(3, 5, -6));
    say("set_correction, node 4 of four", set_correction(4, 5, -6));
    (void)refine(t);
    say("set_correction, an added node", set_correction(4, 32767, -32768));
    say("correction_at, a corner of the square", correction_at(8, 8));
    say("correction_at, a step past it", correction_at(9, 8));
}

/* The reader's refusals. */
static void say_reader(void) {
    static spoutbeetle_reader reader;
    static uint8_t out[SPOUTBEETLE_OUT];
    static const uint8_t piece[SPOUTBEETLE_PIECE + 1];
    size_t taken, written;
    say("begin, out a byte short", spoutbeetle_reader_begin(&reader, out, sizeof out - 1, &written));
    say("begin", spoutbeetle_reader_begin(&reader, out, sizeof out, &written));
    say("take, a piece of 513 bytes", spoutbeetle_reader_take(&reader, piece, sizeof piece, out, sizeof out, &taken, &written));
    say("end", spoutbeetle_reader_end(&reader, out, sizeof out, &written));
    say("take, an empty piece after the end", spoutbeetle_reader_take(&reader, piece, 0, out, sizeof out, &taken, &written));
}

/* Whether the words, cut to any size, are those of the whole text, with an ending 0 and nothing written behind. */
static int cut_well(uint32_t number, size_t who) {
    char whole[160], text[160], before[160];
    size_t length = spoutbeetle_words(number, who, whole, sizeof whole);
    int well = length == strlen(whole) && spoutbeetle_words(number, who, NULL, 0) == length;
    memset(before, '#', sizeof before);
    for (size_t size = 1; size <= length + 2; size++) {
        size_t kept = size <= length ? size - 1 : length;
        memset(text, '#', sizeof text);
        well = well && spoutbeetle_words(number, who, text, size) == length && memcmp(text, whole, kept) == 0 && text[kept] == 0 &&
               memcmp(text + kept + 1, before, sizeof text - kept - 1) == 0;
    }
    return well;
}

/* The words of a number with each culprit; 0 if one is not cut well. */
static int say_number(uint32_t number) {
    static const size_t culprits[] = {0, 17, 4294967295};
    int well = 1;
    for (size_t k = 0; k < sizeof culprits / sizeof *culprits; k++) {
        char text[160];
        spoutbeetle_words(number, culprits[k], text, sizeof text);
        printf("%u, %zu: %s\n", number, culprits[k], text);
        well = well && cut_well(number, culprits[k]);
    }
    return well;
}

int main(void) {
    int well = 1;
    for (uint32_t number = 0; number <= 18; number++)
        well = say_number(number) && well;
    say_calls();
    say_reader();
    return well ? 0 : 1;
}
