/* Feeds a catalogue to the C entries in pieces, as a caller with room for one answer does: a piece until it is taken whole, and the end behind the last.

       catalogue FILE < WAYS

   Each line of standard input is one way to cut the file: the lengths of its pieces, separated by spaces, 0 for a piece of no bytes. For each way a
   line is written: how many answers came, and a 64-bit number (FNV-1a) of all of them in order, eight bytes for what is told of a line, low byte
   first, and then the record that stands in the room, if one was written. A call that takes more than it was given, or that an end does not refuse
   afterwards, ends the program with a message. */
#include <stdint.h>
#include <stdio.h>
#include <stdlib.h>
#include <string.h>

#include "../include/symmetry.h"

enum { MOST_FILE = 4194304, MOST_WAY = 16777216 };

static uint8_t file[MOST_FILE], state[SYMMETRY_CATALOGUE_STATE], room[SYMMETRY_MOST_RECORD];
static char way[MOST_WAY];
static uint64_t answers, number;

static void stop(const char *what, uint64_t answer) {
    fprintf(stderr, "%s: %016llx\n", what, (unsigned long long)answer);
    exit(1);
}

static void mix(uint8_t byte) { number = (number ^ byte) * UINT64_C(1099511628211); }

static void hear(uint64_t answer) {
    if (symmetry_refused(answer)) stop("a call was refused", answer);
    if (!symmetry_catalogue_finished(answer)) return;
    uint64_t said = symmetry_catalogue_answer(answer);
    answers++;
    for (int i = 0; i < 8; i++) mix((uint8_t)(said >> 8 * i));
    if (symmetry_refused(said)) return;
    for (uint64_t i = 0; i < 5 * said + 5; i++) mix(room[i]);
}

static void feed(size_t length) {
    const char *word = way;
    size_t place = 0;
    memset(state, 0xa5, sizeof state);
    answers = 0;
    number = UINT64_C(14695981039346656037);
    if (symmetry_catalogue_start(state, sizeof state)) stop("no start", 0);
    for (char *end; ; word = end) {
        size_t left = strtoul(word, &end, 10);
        if (end == word) break;
        do {
            uint64_t answer = symmetry_catalogue_piece(state, sizeof state, file + place, left, room, sizeof room);
            uint64_t taken = symmetry_catalogue_taken(answer);
            hear(answer);
            if (taken > left || (left && !taken)) stop("a wrong count", answer);
            place += taken;
            left -= taken;
        } while (left);
    }
    if (place != length) stop("the pieces are not the file", place);
    hear(symmetry_catalogue_end(state, sizeof state, room, sizeof room));
    if (symmetry_number(symmetry_catalogue_piece(state, sizeof state, file, 1, room, sizeof room)) != SYMMETRY_CATALOGUE_ENDED) stop("a piece after the end", 0);
    if (symmetry_number(symmetry_catalogue_end(state, sizeof state, room, sizeof room)) != SYMMETRY_CATALOGUE_ENDED) stop("an end after the end", 0);
    printf("%llu %016llx\n", (unsigned long long)answers, (unsigned long long)number);
}

int main(int count, char **words) {
    FILE *source = count == 2 ? fopen(words[1], "rb") : NULL;
    if (!source) stop("no file", 0);
    size_t length = fread(file, 1, sizeof file, source);
    fclose(source);
    while (fgets(way, sizeof way, stdin)) feed(length);
    return 0;
}
