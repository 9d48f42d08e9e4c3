/* Document 01's example as it may arrive: in one piece, and cut in other ways. However it is cut, the answers are the same, and so is the
 * reader at the end. A piece that is too long, and any after the end, is refused and changes nothing. */
#include "spoutbeetle.h"

#include <stdio.h>
#include <stdlib.h>
#include <string.h>

static const char TEXT[] = "01000000000000000000000000\n01000000080000000000000000\n01000000080000000800000000\n01000000000000000800000000\n"
                           "02000100020000\n02000300000002\n03\n040000\n06\n";
enum { LENGTH = sizeof TEXT - 1 };

/* A reader, and all that it answered. */
typedef struct {
    spoutbeetle_reader reader;
    char said[256];
    size_t length;
} talk;

/* The front panel's buffer: what a call wrote is sent on before the next call. */
static uint8_t out[SPOUTBEETLE_OUT];

static void must(int holds, const char *what) {
    if (!holds) {
        printf("not so: %s\n", what);
        exit(1);
    }
}

static void send_on(talk *to, size_t written) {
    must(written <= sizeof to->said - to->length, "the answers fit");
    memcpy(to->said + to->length, out, written);
    to->length += written;
}

/* Hands over a piece, and then what is left of it, until all is taken or it is refused. */
static uint32_t hand_over(talk *to, const char *piece, size_t length) {
    uint32_t number;
    size_t taken, written;
    do {
        number = spoutbeetle_reader_take(&to->reader, (const uint8_t *)piece, length, out, sizeof out, &taken, &written);
        send_on(to, written);
        piece += taken;
        length -= taken;
    } while (number == 0 && length > 0);
    return number;
}

static void begin(talk *to) {
    size_t written;
    memset(to, 0, sizeof *to);
    must(spoutbeetle_reader_begin(&to->reader, out, sizeof out, &written) == 0, "the reader begins");
    send_on(to, written);
}

static void end(talk *to) {
    size_t written;
    must(spoutbeetle_reader_end(&to->reader, out, sizeof out, &written) == 0, "the end is announced");
    send_on(to, written);
}

/* A piece is refused, in words, and neither the reader nor the answers change. */
static void refused(talk *to, size_t length, char *words, size_t size) {
    static const char zeros[SPOUTBEETLE_PIECE + 1];
    static talk before;
    memcpy(&before, to, sizeof before);
    spoutbeetle_words(hand_over(to, zeros, length), 0, words, size);
    must(memcmp(&before, to, sizeof before) == 0, "a refusal changes nothing");
}

/* The text in pieces of the two lengths by turns, with a refused piece before each; the same answers and the same reader as of the whole. */
static void cut(const talk *whole, const char *how, size_t first, size_t second) {
    static talk cut;
    char words[128];
    size_t pieces = 0;
    begin(&cut);
    for (size_t at = 0, next; at < LENGTH; at += next) {
        next = pieces++ % 2 ? second : first;
        next = next < LENGTH - at ? next : LENGTH - at;
        refused(&cut, SPOUTBEETLE_PIECE + 1, words, sizeof words);
        must(hand_over(&cut, TEXT + at, next) == 0, "a piece is taken");
    }
    end(&cut);
    must(memcmp(&cut, whole, sizeof cut) == 0, how);
    printf("%s, %zu pieces: the same answers, the same reader\n", how, pieces);
}

int main(void) {
    static talk whole;
    char words[128];
    begin(&whole);
    must(hand_over(&whole, TEXT, LENGTH) == 0, "the whole text is taken");
    refused(&whole, SPOUTBEETLE_PIECE + 1, words, sizeof words);
    printf("a piece of 513 bytes: %s\n", words);
    end(&whole);
    refused(&whole, 0, words, sizeof words);
    printf("an empty piece after the end: %s\n", words);
    printf("the text in one piece:\n%.*s", (int)whole.length, whole.said);
    cut(&whole, "byte by byte", 1, 1);
    cut(&whole, "7 and 13 bytes by turns", 7, 13);
    cut(&whole, "cut once, inside a digit pair", 48, LENGTH);
    cut(&whole, "512 bytes at a time", SPOUTBEETLE_PIECE, SPOUTBEETLE_PIECE);
    return 0;
}
