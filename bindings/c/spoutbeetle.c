#include "spoutbeetle.h"

#include <inttypes.h>
#include <stdio.h>

#define LENGTH(table) (sizeof(table) / sizeof *(table))

/* By number: who is at fault, if the answer names one, and what is wrong; nothing where no call gives the number. */
static const struct {
    const char *who, *what;
} WORDS[] = {
    {NULL, "done"},
    {NULL, "a table length is not a multiple of its row, a room, buffer or count is out of bounds, or scratch is short"},
    {NULL, "the marks are not one byte for each triangle or node, or one is above 1"},
    {"node", "has a coordinate outside -1,048,576 to 1,048,576, or a correction, stored or to be set, outside -32,768 to 32,767"},
    {"triangle", "names a node that is not there, or one node twice"},
    {"triangle", "has a directed edge that a lower row already has"},
    {"triangle", "has a twice-area that is not above 0"},
    {"node", "is in no triangle"},
    {NULL, "an edge to be split has an odd sum of x or of y"},
    {NULL, "there is no room for the new nodes or triangles"},
    {NULL, "the labelling is not compatible"},
    {NULL, "two nodes stand at one place, or a node lies strictly inside an edge"},
    {NULL, "two triangles share an interior point"},
    {NULL, "the node to be set belongs to the base"},
    {NULL, "no triangle holds the point"},
    {NULL, "the node to be set is not there"},
    [17] = {NULL, "the piece is over 512 bytes, or comes after the end"},
};

size_t spoutbeetle_words(uint32_t number, size_t culprit, char *text, size_t size) {
    int length;
    if (number >= LENGTH(WORDS) || !WORDS[number].what)
        length = snprintf(text, size, "no call gives this number (%" PRIu32 ")", number);
    else if (WORDS[number].who)
        length = snprintf(text, size, "%s %zu %s (%" PRIu32 ")", WORDS[number].who, culprit, WORDS[number].what, number);
    else
        length = snprintf(text, size, "%s (%" PRIu32 ")", WORDS[number].what, number);
    return (size_t)length;
}

uint32_t spoutbeetle_reader_begin(spoutbeetle_reader *reader, uint8_t *out, size_t out_len, size_t *written) {
    spoutbeetle_reader *r = reader;
    return spoutbeetle_begin(r->line, LENGTH(r->line), r->nodes, LENGTH(r->nodes), r->rows, LENGTH(r->rows), r->scratch, LENGTH(r->scratch),
                             out, out_len, &r->used, &r->ended, &r->n, &r->t, &r->n0, &r->accepted, written);
}

uint32_t spoutbeetle_reader_take(spoutbeetle_reader *reader, const uint8_t *piece, size_t piece_len, uint8_t *out, size_t out_len,
                                 size_t *taken, size_t *written) {
    spoutbeetle_reader *r = reader;
    return spoutbeetle_take(piece, piece_len, r->line, LENGTH(r->line), r->nodes, LENGTH(r->nodes), r->rows, LENGTH(r->rows), r->scratch,
                            LENGTH(r->scratch), out, out_len, &r->used, &r->ended, &r->n, &r->t, &r->n0, &r->accepted, taken, written);
}

uint32_t spoutbeetle_reader_end(spoutbeetle_reader *reader, uint8_t *out, size_t out_len, size_t *written) {
    spoutbeetle_reader *r = reader;
    return spoutbeetle_end(r->line, LENGTH(r->line), r->nodes, LENGTH(r->nodes), r->rows, LENGTH(r->rows), r->scratch, LENGTH(r->scratch),
                           out, out_len, &r->used, &r->ended, &r->n, &r->t, &r->n0, &r->accepted, written);
}
