/* A square in two halves, with corrections at its corners: where a fine rule is printed, its first row is cut in four, the correction of an added
 * node is set, and the row is refined once more; then the square is restored, corrections and all. The correction at a point is asked before the
 * job, in it and after it. Then, for a round stamp, the row is cut red, which a restore does not undo. Settings of a base node and out of range, a
 * question about a point outside, a square with a row too many, and one with a crack, are refused, in words. */
#include "spoutbeetle.h"

#include <stdio.h>
#include <stdlib.h>
#include <string.h>

enum { NC = 16, TC = 32, NODES = 4 * NC, ROWS = 3 * TC, SCRATCH = 4 * (NC + TC), N0 = 4 };

/* The tables lent to every call, and the counts. */
static int32_t nodes[NODES] = {0, 0, -3, 7, 8, 0, 4, 0, 8, 8, 0, -2, 0, 8, 1, 1};
static uint32_t rows[ROWS] = {1, 2, 0, 3, 0, 2};
static uint32_t scratch[SCRATCH];
static size_t n = N0, t = 2, culprit;

static void must(int holds, const char *what) {
    if (!holds) {
        printf("not so: %s\n", what);
        exit(1);
    }
}

/* A call that is done leaves these counts. */
static void done(const char *call, uint32_t number) {
    must(number == 0, call);
    printf("%s: %zu nodes, %zu triangles\n", call, n, t);
}

/* Prints why a call is refused. */
static void refused(const char *call, uint32_t number) {
    char text[160];
    must(number != 0, call);
    spoutbeetle_words(number, culprit, text, sizeof text);
    printf("%s: %s\n", call, text);
}

/* Prints where a node stands and what it carries. */
static void show(size_t k) {
    const int32_t *node = nodes + 4 * k;
    printf("node %zu: place (%d, %d), correction (%d, %d)\n", k, (int)node[0], (int)node[1], (int)node[2], (int)node[3]);
}

static uint32_t check(size_t triangles) { return spoutbeetle_check(nodes, NODES, rows, ROWS, scratch, SCRATCH, n, triangles, &culprit); }

static uint32_t set_correction(size_t node, int32_t dx, int32_t dy) {
    return spoutbeetle_set_correction(nodes, NODES, rows, ROWS, scratch, SCRATCH, N0, n, t, node, dx, dy, &culprit);
}

/* Prints the correction at a point, or why there is none. */
static void ask(int32_t x, int32_t y) {
    char point[40];
    int32_t dx, dy;
    uint32_t number = spoutbeetle_correction_at(nodes, NODES, rows, ROWS, scratch, SCRATCH, N0, n, t, x, y, &dx, &dy, &culprit);
    snprintf(point, sizeof point, "at (%d, %d)", (int)x, (int)y);
    if (number == 0)
        printf("%s: correction (%d, %d)\n", point, (int)dx, (int)dy);
    else
        refused(point, number);
}

/* A job: what it refines and sets. */
static void print_fine_rule(void) {
    const uint8_t marks[TC] = {1};
    done("quarter", spoutbeetle_quarter(nodes, NODES, rows, ROWS, scratch, SCRATCH, marks, t, N0, &n, &t, &culprit));
    show(4); /* the mean of nodes 0 and 2: -3 and 0 give -2 */
    done("set node 4", set_correction(4, 9, -9));
    show(4);
    ask(2, 1); /* in the triangle of nodes 6, 4 and 0 */
    ask(9, 1);
    refused("set node 3", set_correction(3, 9, -9));
    refused("set node 7", set_correction(7, 9, -9));
    refused("set node 4 to 32,768", set_correction(4, 32768, -9));
    done("refine", spoutbeetle_refine(nodes, NODES, rows, ROWS, scratch, SCRATCH, marks, t, N0, &n, &t, &culprit));
    show(7); /* the mean of node 1 and node 4 as set */
}

/* Prints the counts that a red refinement leaves, and its field. */
static void refine_red(const char *call, const uint8_t *marks) {
    uint32_t red;
    done(call, spoutbeetle_refine_red(nodes, NODES, rows, ROWS, scratch, SCRATCH, marks, t, N0, &n, &t, &red, &culprit));
    printf("it made %s\n", red == 1 ? "a red cut" : "no red cut");
}

static size_t restore(void) {
    size_t passes;
    done("restore", spoutbeetle_restore(nodes, NODES, rows, ROWS, scratch, SCRATCH, N0, &n, &t, &passes, &culprit));
    return passes;
}

/* Another job: after its red cut, restore ends away from the base. */
static void print_round_stamp(void) {
    refine_red("refine_red, no row marked", (const uint8_t[TC]){0});
    refine_red("refine_red", (const uint8_t[TC]){1});
    printf("%zu passes, and the red cut stays\n", restore());
}

int main(void) {
    int32_t base_nodes[NODES];
    uint32_t base_rows[ROWS];
    memcpy(base_nodes, nodes, sizeof nodes);
    memcpy(base_rows, rows, sizeof rows);
    done("check", check(t));
    ask(2, 1); /* -14/8 and 40/8 */
    print_fine_rule();
    size_t passes = restore();
    must(memcmp(base_nodes, nodes, sizeof nodes) == 0 && memcmp(base_rows, rows, sizeof rows) == 0, "the base is back");
    printf("%zu passes, and the base is back, with its corrections:\n", passes);
    for (size_t k = 0; k < n; k++)
        show(k);
    ask(2, 1); /* as before the job */
    print_round_stamp();

    memcpy(nodes, base_nodes, sizeof nodes); /* the base, from the copy */
    memcpy(rows, base_rows, sizeof rows);
    n = N0;
    t = 2;
    memcpy(rows + 3 * t, rows, 3 * sizeof *rows);
    refused("check, row 0 once more", check(t + 1));

    const uint32_t cracked[9] = {1, 2, 0, 4, 3, 0, 4, 2, 3};
    nodes[16] = nodes[17] = 4; /* on the edge 0-2, and a corner above it alone */
    memcpy(rows, cracked, sizeof cracked);
    n = 5;
    refused("check, a middle node on one side of an edge", check(3));
    return 0;
}
