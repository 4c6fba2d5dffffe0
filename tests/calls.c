/* The C entries held to answers derived by hand from the rules: empty slices, refusals with their places, lists that fit exactly, lack a slot or have
   none, and the bytes that no call may touch. Prints 'N passed, M failed' and exits with 1 where M is not 0. */
#include <stdint.h>
#include <stdio.h>
#include <string.h>
#include "../include/symmetry.h"

enum { ROOM = 160, MARK = 0xA5 };

static int passed, failed;

static void expect(int right, const char *what, uint64_t got) {
    if (right) passed++;
    else failed++, printf("%s: %016llx\n", what, (unsigned long long)got);
}

static uint64_t refusal(unsigned number, uint64_t place) { return (uint64_t)number << 56 | place; }

static void answers(uint64_t got, uint64_t wanted, const char *what) { expect(got == wanted, what, got); }

/* A symbol as it stands in the source, without the byte 0 behind it; an empty one is lent as NULL. */
#define TEXT(s) (sizeof(s) == 1 ? NULL : (const uint8_t *)(s)), sizeof(s) - 1

/* ---- the groups ----
   The group of order 2, and the group of the triangle: 0 1 2 are the turns r^i, 3 4 5 the flips s r^i, with r s = s r^2. */
static const uint8_t two[4] = { 0, 1, 1, 0 };
static uint8_t triangle[36];

static void make_triangle(void) {
    for (unsigned i = 0; i < 6; i++)
        for (unsigned j = 0; j < 6; j++) {
            unsigned a = i % 3, b = j % 3;
            unsigned turn = j < 3 ? (a + b) % 3 : (b + 3 - a) % 3;
            triangle[6 * i + j] = (uint8_t)(turn + ((i < 3) == (j < 3) ? 0 : 3));
        }
}

/* ---- lent lists ----
   Calls with a list of every length from none to more than enough, and looks at every byte of it and behind it. A slot has `width` bytes. */
typedef uint64_t lister(uint8_t *list, size_t length);

static void every_length(lister *call, const uint8_t *wanted, size_t count, size_t width, const char *what) {
    for (size_t length = 0; length <= (count + 2) * width; length++) {
        uint8_t list[ROOM], after[ROOM];
        memset(list, MARK, ROOM);
        memset(after, MARK, ROOM);
        size_t slots = length / width;
        if (slots < count) memset(after, 0, slots * width);
        else memcpy(after, wanted, count * width);
        uint64_t got = call(length == 0 ? NULL : list, length);
        expect(got == (slots < count ? refusal(26, 0) : count) && memcmp(list, after, ROOM) == 0, what, got);
    }
}

static uint64_t two_subgroups(uint8_t *list, size_t length) { return symmetry_table_subgroups(2, two, 4, list, length); }
static uint64_t two_classes(uint8_t *list, size_t length) { return symmetry_table_classes(2, two, 4, list, length); }
static uint64_t triangle_subgroups(uint8_t *list, size_t length) { return symmetry_table_subgroups(6, triangle, 36, list, length); }
static uint64_t triangle_classes(uint8_t *list, size_t length) { return symmetry_table_classes(6, triangle, 36, list, length); }
static uint64_t turned(uint8_t *list, size_t length) { return symmetry_table_permutation(6, triangle, 36, 63, 1, list, length); }
static uint64_t flipped(uint8_t *list, size_t length) { return symmetry_table_permutation(6, triangle, 36, 7, 3, list, length); }

/* Sets below 256 as slots, high byte first. */
static size_t slots_of(const uint8_t *sets, size_t count, uint8_t *slots) {
    memset(slots, 0, 8 * count);
    for (size_t i = 0; i < count; i++) slots[8 * i + 7] = sets[i];
    return count;
}

static void lists(void) {
    /* more members first, then the one with the lower flip */
    static const uint8_t two_sets[] = { 3, 1 }, triangle_sets[] = { 63, 7, 9, 17, 33, 1 }, triangle_firsts[] = { 63, 7, 9, 1 };
    static const uint8_t turned_positions[] = { 0, 1, 2, 5, 3, 4 }, flipped_positions[] = { 0, 2, 1 };
    uint8_t slots[ROOM];
    every_length(two_subgroups, slots, slots_of(two_sets, 2, slots), 8, "subgroups of the group of order 2");
    every_length(two_classes, slots, slots_of(two_sets, 2, slots), 8, "classes of the group of order 2");
    every_length(triangle_subgroups, slots, slots_of(triangle_sets, 6, slots), 8, "subgroups of the triangle's group");
    every_length(triangle_classes, slots, slots_of(triangle_firsts, 4, slots), 8, "classes of the triangle's group");
    every_length(turned, turned_positions, 6, 1, "the triangle's group turned");
    every_length(flipped, flipped_positions, 3, 1, "the turns flipped");
    expect(symmetry_set(slots, 1) == 7 && symmetry_set(slots, 3) == 1, "a slot", 0);
}

/* Both lists of conjugates in every pair of lengths; either one that is too short clears both. */
static void conjugates(uint64_t set, const uint8_t *sets, const uint8_t *conjugators) {
    uint8_t slots[ROOM];
    size_t count = slots_of(sets, 3, slots);
    for (size_t length = 0; length <= 40; length++)
        for (size_t bytes = 0; bytes <= 5; bytes++) {
            uint8_t list[ROOM], beside[ROOM], list_after[ROOM], beside_after[ROOM];
            memset(list, MARK, ROOM);
            memset(beside, MARK, ROOM);
            memset(list_after, MARK, ROOM);
            memset(beside_after, MARK, ROOM);
            int fits = length / 8 >= count && bytes >= count;
            if (fits) {
                memcpy(list_after, slots, 8 * count);
                memcpy(beside_after, conjugators, count);
            } else {
                memset(list_after, 0, length / 8 * 8);
                memset(beside_after, 0, bytes);
            }
            uint64_t got = symmetry_table_conjugates(6, triangle, 36, set, length ? list : NULL, length, bytes ? beside : NULL, bytes);
            expect(got == (fits ? count : refusal(26, 0)) && memcmp(list, list_after, ROOM) == 0 && memcmp(beside, beside_after, ROOM) == 0,
                "conjugates", got);
        }
}

/* A refusal that goes before 26 leaves lent lists as they are, however short. */
static void untouched(void) {
    static const uint8_t loop[9] = { 0, 1, 2, 1, 0, 1, 2, 2, 0 };
    uint8_t list[ROOM], beside[ROOM], marks[ROOM];
    memset(list, MARK, ROOM);
    memset(beside, MARK, ROOM);
    memset(marks, MARK, ROOM);
    answers(symmetry_table_subgroups(3, loop, 9, list, 8), refusal(25, 0), "subgroups of no group");
    answers(symmetry_table_classes(3, loop, 9, list, 8), refusal(25, 0), "classes of no group");
    answers(symmetry_table_conjugates(3, loop, 9, 1, list, 8, beside, 1), refusal(25, 0), "conjugates in no group");
    answers(symmetry_table_conjugates(6, triangle, 36, 3, list, 8, beside, 1), refusal(27, 0), "conjugates of no subgroup");
    answers(symmetry_table_permutation(6, triangle, 36, 3, 6, list, 1), refusal(27, 0), "a permutation of no subgroup");
    answers(symmetry_table_permutation(6, triangle, 36, 9, 6, list, 1), refusal(28, 0), "a permutation by no element");
    answers(symmetry_table_permutation(6, triangle, 36, 9, 1, list, 1), refusal(29, 0), "a permutation from outside the normalizer");
    expect(memcmp(list, marks, ROOM) == 0 && memcmp(beside, marks, ROOM) == 0, "untouched lists", 0);
}

static void tables(void) {
    static const uint8_t left[4] = { 0, 1, 0, 1 }, monoid[4] = { 0, 1, 1, 1 }, high[4] = { 0, 1, 1, 2 }, one[1] = { 0 };
    uint8_t swapped[4] = { 1, 0, 0, 1 };
    answers(symmetry_table_order(1, one, 1), 1, "the group of order 1");
    answers(symmetry_table_order(2, two, 4), 2, "the group of order 2");
    answers(symmetry_table_identity(2, two, 4), 0, "its identity");
    answers(symmetry_table_identity(2, swapped, 4), 1, "the other one as identity");
    answers(symmetry_table_order(0, NULL, 0), refusal(21, 0), "order 0");
    answers(symmetry_table_order(49, NULL, 0), refusal(21, 0), "order 49");
    answers(symmetry_table_order(UINT64_MAX, two, 4), refusal(21, 0), "the largest order");
    answers(symmetry_table_order(48, two, 4), refusal(22, 0), "order 48 without cells");
    answers(symmetry_table_order(2, NULL, 0), refusal(22, 0), "an empty table");
    answers(symmetry_table_order(2, two, 3), refusal(22, 0), "a cell too few");
    answers(symmetry_table_order(2, high, 4), refusal(22, 0), "a cell that is no element");
    answers(symmetry_table_order(2, left, 4), refusal(23, 0), "no identity");
    answers(symmetry_table_order(2, monoid, 4), refusal(24, 0), "no inverse");
    answers(symmetry_table_conjugate(6, triangle, 36, 9, 1), 33, "r^-1 s r");
    answers(symmetry_table_conjugate(6, triangle, 36, 9, 2), 17, "r^-2 s r^2");
    answers(symmetry_table_conjugate(6, triangle, 36, 9, 6), refusal(28, 0), "conjugate by no element");
    answers(symmetry_table_conjugate(6, triangle, 36, 9, UINT64_MAX), refusal(28, 0), "conjugate by the largest number");
    answers(symmetry_table_conjugate(6, triangle, 36, 8, 6), refusal(27, 0), "conjugate of no subgroup");
    answers(symmetry_table_conjugate(6, triangle, 36, UINT64_MAX, 1), refusal(27, 0), "the largest number is no subgroup");
    answers(symmetry_table_normalizer(6, triangle, 36, 9), 9, "a flip's normalizer");
    answers(symmetry_table_normalizer(6, triangle, 36, 7), 63, "the turns' normalizer");
    answers(symmetry_table_normalizer(6, triangle, 36, 64), refusal(27, 0), "normalizer of no subgroup");
}

static void symbols(void) {
    uint8_t blanks[81];
    memset(blanks, ' ', sizeof blanks);
    answers(symmetry_symbol_order(TEXT("")), refusal(3, 0), "no text");
    answers(symmetry_symbol_order(blanks, 80), refusal(3, 0), "80 blanks");
    answers(symmetry_symbol_order(blanks, 81), refusal(1, 80), "81 blanks");
    answers(symmetry_symbol_order(TEXT("P 1")), 1, "P 1");
    answers(symmetry_symbol_order(TEXT("-P 1")), 2, "-P 1");
    answers(symmetry_symbol_order(TEXT("-F 4 2 3")), 48, "-F 4 2 3");
    answers(symmetry_symbol_order(TEXT("P")), refusal(10, 1), "P");
    answers(symmetry_symbol_order(TEXT("P 2a1")), refusal(7, 4), "P 2a1");
    answers(symmetry_symbol_order(TEXT("P 3* 2^")), refusal(6, 5), "P 3* 2^");
    answers(symmetry_symbol_order(TEXT("P 1\0")), refusal(2, 3), "a byte 0");
    answers(symmetry_symbol_order(TEXT("R 2")), refusal(12, 0), "R 2");
    answers(symmetry_symbol_order(TEXT("P 4 6")), refusal(13, 0), "P 4 6");
    answers(symmetry_symbol_order(TEXT("P 1a")), refusal(14, 0), "P 1a");
    answers(symmetry_symbol_letter(TEXT("-F 4 2 3")), 'F', "the letter F");
    answers(symmetry_symbol_letter(TEXT("-H 3")), 'H', "the letter H");
    answers(symmetry_symbol_order(TEXT("H 3")), 3, "H 3");
    answers(symmetry_symbol_letter(TEXT("h 3")), refusal(4, 0), "the letter h");
    answers(symmetry_symbol_letter(NULL, 0), refusal(3, 0), "no letter");
    /* the codes of the identity and of the inversion, 4064 and 0C7E in hex */
    answers(symmetry_symbol_operation(TEXT("-P 1"), 0), 0x4064u * 1728u, "the identity");
    answers(symmetry_symbol_operation(TEXT("-P 1 (0 0 1)"), 1), 0x0C7Eu * 1728u + 2u, "the inversion, moved");
    answers(symmetry_symbol_operation(TEXT("-P 1"), 2), refusal(28, 0), "past the end");
    answers(symmetry_symbol_operation(TEXT("-P 1"), UINT64_MAX), refusal(28, 0), "far past the end");
    answers(symmetry_symbol_operation(TEXT("P 2'"), 0), refusal(8, 2), "P 2'");
    for (unsigned i = 0; i < 3; i++) {
        uint64_t operation = symmetry_symbol_operation(TEXT("P 31"), i);
        expect(symmetry_twelfths(operation, 2) == 4 * i && symmetry_entry(operation, 2, 2) == 1, "a third of a turn", operation);
    }
    uint64_t flip = symmetry_value(symmetry_symbol_operation(TEXT("-P 1"), 1));
    expect(symmetry_entry(flip, 0, 0) == -1 && symmetry_entry(flip, 0, 1) == 0 && symmetry_entry(flip, 2, 2) == -1, "entries", flip);
    uint64_t wrong = symmetry_symbol_order(TEXT("P 3* 2^"));
    expect(symmetry_refused(wrong) == 1 && symmetry_number(wrong) == 6 && symmetry_place(wrong) == 5, "a refusal, taken apart", wrong);
    expect(symmetry_refused(flip) == 0 && symmetry_number(flip) == 0, "a value, taken apart", flip);
}

/* Where a misspelt token, a wrong digit or a doubled letter is pointed at, worked out by hand; told by every function that takes a symbol's text. */
static void pointed(void) {
    static const struct { const char *text; unsigned number, place; } cases[] = {
        { "P -", 5, 3 }, { "P - 2", 5, 3 }, { "P 5", 5, 2 }, { "P 0", 5, 2 }, { "P x", 5, 2 }, { "P ^2", 5, 2 }, { "P +2", 5, 2 }, { "P )", 5, 2 },
        { "P --2", 5, 3 }, { "P -a", 5, 3 }, { "P 20", 5, 3 }, { "P 2A", 5, 3 }, { "P 2)", 5, 3 }, { "P 2-", 5, 3 }, { "P 2(0 0 0)", 5, 3 },
        { "P 2x^", 5, 4 }, { "P 2^^", 5, 4 }, { "P 2=^", 5, 4 }, { "P 2xx", 5, 4 }, { "P 2*x", 5, 4 }, { "P 2aq", 5, 4 }, { "P 2a^", 5, 4 },
        { "P 2ax", 5, 4 }, { "P 2ab7", 5, 5 }, { "P 2^5q", 5, 5 }, { "P 2'q", 5, 4 }, { "P 2q'", 5, 3 }, { "P 2''", 8, 2 }, { "P 1xq", 5, 4 },
        { "P 2a1q", 5, 5 }, { "P 1 2", 6, 4 }, { "P 2a1", 7, 4 }, { "P 211", 7, 4 }, { "P 412", 7, 4 }, { "P 21a1", 7, 5 }, { "P 22", 7, 3 },
        { "P 33", 7, 3 }, { "P 66", 7, 3 }, { "P 11", 7, 3 }, { "P 26a1", 7, 3 }, { "P 2x1", 7, 4 }, { "P 2^1", 7, 4 }, { "P 3*1", 7, 4 },
        { "P 2xa1", 7, 5 }, { "P 4ab12", 7, 5 }, { "P 2 21", 7, 5 }, { "P 2'1", 8, 2 },
        /* a letter twice in one token */
        { "P 2aa", 17, 4 }, { "P 2abab", 17, 5 }, { "P 2abba", 17, 5 }, { "P 21aa", 17, 5 }, { "P 1aa", 17, 4 }, { "R 2aa", 17, 4 },
        { "P 2aa1", 7, 5 }, { "P 2aaq", 5, 5 }, { "P 2aa'", 8, 2 }, { "P 1xaa", 6, 2 }, { "P 2 2aa 5", 17, 6 },
    };
    for (size_t i = 0; i < sizeof cases / sizeof *cases; i++) {
        const uint8_t *text = (const uint8_t *)cases[i].text;
        size_t length = strlen(cases[i].text);
        uint64_t told = refusal(cases[i].number, cases[i].place);
        uint8_t out[ROOM];
        answers(symmetry_symbol_order(text, length), told, cases[i].text);
        answers(symmetry_symbol_letter(text, length), told, cases[i].text);
        answers(symmetry_symbol_operation(text, length, 0), told, cases[i].text);
        answers(symmetry_symbol_record(text, length, out, ROOM, 0), told, cases[i].text);
        answers(symmetry_symbol_identity(text, length), told, cases[i].text);
        answers(symmetry_symbol_subgroups(text, length, out, ROOM), told, cases[i].text);
    }
    answers(symmetry_symbol_order(TEXT("P 2ab")), 2, "two letters");
    answers(symmetry_symbol_order(TEXT("P 2nabc")), 2, "letters that add up to nothing");
    uint8_t last[80];
    memset(last, ' ', sizeof last);
    memcpy(last, "P 1", 3);
    last[79] = '-';
    answers(symmetry_symbol_order(last, 80), refusal(5, 80), "80 bytes that end in a lone sign");
}

/* Layer symbols worked out by hand: the turn by a half about z is 3200, the flip of z 2 1 1 1 2 1 1 1 0 in base 3, 16482, and the turn by a half about x
   2 1 1 1 0 1 1 1 0, 16320. */
static void layers(void) {
    static const struct { const char *text; uint64_t order; char letter; } good[] = {
        { "p 1", 1, 'p' }, { "-p 1", 2, 'p' }, { "p 2", 2, 'p' }, { "c 2", 2, 'c' }, { "p 2x (0 0 3)", 2, 'p' }, { "p -2c", 2, 'p' }, { "-p 1 (0 0 1)", 2, 'p' },
        { " -c\t2 ", 4, 'c' },
    };
    static const struct { const char *text; unsigned number, place; } bad[] = {
        { "p 21", 19, 1 }, { "p 2c", 19, 1 }, { "p 3*", 19, 1 }, { "-p 2c", 19, 2 }, { "c 3", 12, 0 }, { "p 1c", 14, 0 }, { "P 1", 4, 0 }, { "-P 1", 4, 0 },
        { "pp 1", 4, 0 }, { " h 3", 4, 1 }, { "a 1", 4, 0 }, { "-", 4, 0 }, { "p", 10, 1 }, { "p 2aa", 17, 4 }, { "p 2a1", 7, 4 }, { "p 2'", 8, 2 }, { "", 3, 0 },
        { "p 4 6", 13, 0 }, { "\x7f 1", 2, 0 },
    };
    for (size_t i = 0; i < sizeof good / sizeof *good; i++) {
        const uint8_t *text = (const uint8_t *)good[i].text;
        size_t length = strlen(good[i].text);
        answers(symmetry_layer_order(text, length), good[i].order, good[i].text);
        answers(symmetry_layer_letter(text, length), (uint64_t)good[i].letter, good[i].text);
        answers(symmetry_layer_operation(text, length, 0), UINT64_C(16484) * 1728, good[i].text);
        answers(symmetry_layer_operation(text, length, good[i].order), refusal(28, 0), good[i].text);
        answers(symmetry_layer_operation(text, length, UINT64_MAX), refusal(28, 0), good[i].text);
        answers(symmetry_symbol_order(text, length), refusal(4, good[i].text[0] == ' '), good[i].text);
    }
    for (size_t i = 0; i < sizeof bad / sizeof *bad; i++) {
        const uint8_t *text = (const uint8_t *)bad[i].text;
        size_t length = strlen(bad[i].text);
        uint64_t told = refusal(bad[i].number, bad[i].place);
        answers(symmetry_layer_order(text, length), told, bad[i].text);
        answers(symmetry_layer_letter(text, length), told, bad[i].text);
        answers(symmetry_layer_operation(text, length, 0), told, bad[i].text);
    }
    answers(symmetry_layer_operation(TEXT("c 2"), 1), UINT64_C(3200) * 1728, "the turn of a layer");
    answers(symmetry_layer_operation(TEXT("p -2c"), 1), UINT64_C(16482) * 1728 + 6, "a flip of z, moved along z");
    answers(symmetry_layer_operation(TEXT("p 2x (0 0 3)"), 1), UINT64_C(16320) * 1728 + 6, "a turn about x, away from the origin");
    answers(symmetry_layer_operation(TEXT("-p 1 (0 0 1)"), 1), UINT64_C(3198) * 1728 + 2, "the inversion of a layer, moved");
    answers(symmetry_layer_order(NULL, 0), refusal(3, 0), "no text");
}

/* The record of -p 1 is that of -P 1 with the byte 0x70, p, for its letter; that of P 21 with p is one of no layer. */
static void layer_records(void) {
    static const uint8_t small[15] = { 0x0C, 0x7E, 0, 0, 0, 0x40, 0x64, 0, 0, 0, 0x70, 1, 2, 0, 0x0F };
    static const uint8_t smaller[13] = { 0x00, 0x54, 0x52, 0x80, 0x01, 0xB2, 0xA3, 0x00, 0x70, 3, 2, 0, 0x0D };
    uint8_t out[ROOM], after[ROOM], screw[15];
    for (size_t length = 0; length <= 20; length++)
        for (uint64_t start = 0; start <= 21; start++)
            for (int copied = 0; copied < 2; copied++) {
                memset(out, MARK, ROOM);
                memset(after, MARK, ROOM);
                int fits = start + 15 <= length;
                if (fits) memcpy(after + start, small, 15);
                uint8_t *lent = length ? out : NULL;
                uint64_t got = copied ? symmetry_record_copy(small, 15, lent, length, start) : symmetry_layer_record(TEXT("-p 1"), lent, length, start);
                expect(got == (fits ? 2 : refusal(20, 0)) && memcmp(out, after, ROOM) == 0, "a layer record written", got);
            }
    answers(symmetry_record_order(small, 15), 2, "the order of a layer record");
    answers(symmetry_record_letter(small, 15), 'p', "its letter");
    answers(symmetry_record_identity(small, 15), 1, "its identity");
    memset(out, MARK, ROOM);
    answers(symmetry_record_move(small, 15, out, ROOM, 0), 2, "a layer record moved");
    expect(memcmp(out, smaller, 13) == 0 && out[13] == MARK, "its bytes", 0);
    answers(symmetry_record_letter(smaller, 13), 'p', "the letter of what was moved");
    answers(symmetry_record_move(smaller, 13, out, ROOM, 0), 2, "moved back");
    expect(memcmp(out, small, 15) == 0, "its bytes", 0);
    memset(out, MARK, ROOM);
    memset(after, MARK, ROOM);
    answers(symmetry_layer_record(TEXT("p 21"), out, ROOM, 0), refusal(19, 1), "no layer, no record");
    answers(symmetry_layer_record(TEXT("P 1"), out, 0, 9), refusal(4, 0), "a capital letter, and no room");
    answers(symmetry_layer_record(TEXT("-p 1"), out, ROOM, UINT64_MAX), refusal(20, 0), "a start that wraps");
    expect(memcmp(out, after, ROOM) == 0, "an untouched buffer", 0);
    answers(symmetry_symbol_record(TEXT("P 21"), screw, 15, 0), 2, "the record of a screw");
    screw[10] = 'p';
    answers(symmetry_record_order(screw, 15), refusal(35, 0), "a screw under p");
    screw[10] = 'h';
    answers(symmetry_record_order(screw, 15), refusal(32, 0), "the letter h");
    answers(symmetry_symbol_record(TEXT("C 2"), screw, 15, 0), 2, "the record of C 2");
    screw[10] = 'c';
    answers(symmetry_record_letter(screw, 15), 'c', "C 2 as a layer");
}

/* The record of -P 1, as the rules print it. */
static const uint8_t inversion[15] = { 0x0C, 0x7E, 0, 0, 0, 0x40, 0x64, 0, 0, 0, 0x50, 1, 2, 0, 0x0F };

/* The same in edition 3, and that of P 1. */
static const uint8_t shorter[13] = { 0, 0x54, 0x52, 0x80, 1, 0xB2, 0xA3, 0, 0x50, 3, 2, 0, 0x0D };
static const uint8_t shortest[9] = { 1, 0xB2, 0xA3, 0, 0x50, 3, 1, 0, 9 };

static uint64_t write_record(int way, uint8_t *out, size_t length, uint64_t start) {
    switch (way) {
    case 0: return symmetry_symbol_record(TEXT("-P 1"), out, length, start);
    case 1: return symmetry_record_copy(inversion, 15, out, length, start);
    case 2: return symmetry_record_copy(shorter, 13, out, length, start);
    case 3: return symmetry_record_move(shorter, 13, out, length, start);
    default: return symmetry_record_move(inversion, 15, out, length, start);
    }
}

/* Written from every place of buffers of every length, by every function that writes records. */
static void written(void) {
    for (size_t length = 0; length <= 20; length++)
        for (uint64_t start = 0; start <= 21; start++)
            for (int way = 0; way < 5; way++) {
                uint8_t out[ROOM], after[ROOM];
                memset(out, MARK, ROOM);
                memset(after, MARK, ROOM);
                int third = way == 2 || way == 4;
                const uint8_t *record = third ? shorter : inversion;
                size_t bytes = third ? 13 : 15;
                int fits = start + bytes <= length;
                if (fits) memcpy(after + start, record, bytes);
                uint64_t got = write_record(way, length ? out : NULL, length, start);
                expect(got == (fits ? 2 : refusal(20, 0)) && memcmp(out, after, ROOM) == 0, "a record written", got);
            }
}

/* The record of -P 1 with one byte changed, and the refusal. */
static const struct { size_t at; uint8_t byte; unsigned number; } damage[] = { { 11, 2, 31 }, { 10, 'S', 32 }, { 12, 3, 33 }, { 2, 12, 34 }, { 6, 0x63, 35 } };

static void records(void) {
    uint8_t padded[20] = { 1, 2, 3, 4, 5 }, spoilt[15], out[ROOM], marks[ROOM];
    memcpy(padded + 5, inversion, 15);
    memset(out, MARK, ROOM);
    memset(marks, MARK, ROOM);
    answers(symmetry_record_order(inversion, 15), 2, "the order of a record");
    answers(symmetry_record_order(padded, 20), 2, "bytes before a record");
    answers(symmetry_record_letter(inversion, 15), 'P', "the letter of a record");
    answers(symmetry_record_order(NULL, 0), refusal(30, 0), "no record");
    answers(symmetry_record_letter(inversion, 8), refusal(30, 0), "a short record");
    answers(symmetry_record_letter(inversion, 9), refusal(31, 0), "nine bytes of no edition");
    answers(symmetry_record_edition(inversion, 15), 1, "the edition of a record");
    answers(symmetry_record_edition(shorter, 13), 3, "the edition of a shorter record");
    answers(symmetry_record_order(shorter, 13), 2, "the order of a shorter record");
    answers(symmetry_record_letter(shorter, 13), 'P', "the letter of a shorter record");
    answers(symmetry_record_order(shortest, 9), 1, "the order of the shortest record");
    answers(symmetry_record_edition(shortest + 1, 8), refusal(30, 0), "a byte of the shortest record gone");
    answers(symmetry_record_order(inversion, 14), refusal(31, 0), "a byte of the record gone");
    /* edition, letter, count, a coordinate over 11, and the identity gone */
    for (size_t i = 0; i < sizeof damage / sizeof *damage; i++) {
        memcpy(spoilt, inversion, 15);
        spoilt[damage[i].at] = damage[i].byte;
        answers(symmetry_record_order(spoilt, 15), refusal(damage[i].number, 0), "a damaged record");
        answers(symmetry_record_letter(spoilt, 15), refusal(damage[i].number, 0), "its letter");
        answers(symmetry_record_copy(spoilt, 15, out, 3, 9), refusal(damage[i].number, 0), "its copy");
        answers(symmetry_record_move(spoilt, 15, out, 3, 9), refusal(damage[i].number, 0), "its move");
        answers(symmetry_record_edition(spoilt, 15), refusal(damage[i].number, 0), "its edition");
    }
    answers(symmetry_symbol_record(TEXT("P 1a"), out, 3, 9), refusal(14, 0), "no group, and no room");
    answers(symmetry_symbol_record(NULL, 0, NULL, 0, 0), refusal(3, 0), "no text, and no room");
    answers(symmetry_symbol_record(TEXT("-P 1"), out, ROOM, UINT64_MAX), refusal(20, 0), "a start that wraps");
    answers(symmetry_record_copy(inversion, 15, out, ROOM, UINT64_MAX - 14), refusal(20, 0), "a start that wraps");
    expect(memcmp(out, marks, ROOM) == 0, "untouched buffers", 0);
}

/* ---- magnetic records ----
   That of P 1a': the identity, and x+1/2,y,z with time reversal; six bytes each, the flag last, then the letter, edition 2, the count and the length 17. */
static const uint8_t reversing[17] = { 0x40, 0x64, 0, 0, 0, 0, 0x40, 0x64, 6, 0, 0, 1, 'P', 2, 2, 0, 17 };
static const uint8_t grey[17] = { 0x40, 0x64, 0, 0, 0, 0, 0x40, 0x64, 0, 0, 0, 1, 'P', 2, 2, 0, 17 };
static const uint8_t alone[11] = { 0x40, 0x64, 0, 0, 0, 0, 'P', 2, 1, 0, 11 }, flagged[11] = { 0x40, 0x64, 0, 0, 0, 1, 'P', 2, 1, 0, 11 };

static void magnetic_written(void) {
    for (size_t length = 0; length <= 22; length++)
        for (uint64_t start = 0; start <= 23; start++)
            for (int copied = 0; copied < 2; copied++) {
                uint8_t out[ROOM], after[ROOM];
                memset(out, MARK, ROOM);
                memset(after, MARK, ROOM);
                int fits = start + 17 <= length;
                if (fits) memcpy(after + start, reversing, 17);
                uint8_t *lent = length ? out : NULL;
                uint64_t got = copied ? symmetry_magnetic_record_copy(reversing, 17, lent, length, start)
                                      : symmetry_magnetic_record(TEXT("P 1a'"), lent, length, start);
                expect(got == (fits ? 2 : refusal(20, 0)) && memcmp(out, after, ROOM) == 0, "a magnetic record written", got);
            }
}

/* The bytes of P 1a' with one changed: another edition; a letter of no lattice, and small letters; a count or a length that is wrong; a flag of 2, a coordinate
   of 12, codes that descend, and the same operation twice; and x+1/3, whose square is not listed. */
static const struct { size_t at; uint8_t byte; unsigned number; } magnetic_damage[] = {
    { 13, 0, 31 }, { 13, 1, 31 }, { 13, 3, 31 }, { 12, 'S', 32 }, { 12, 'p', 32 }, { 12, 'c', 32 }, { 14, 0, 33 }, { 14, 1, 33 }, { 14, 3, 33 },
    { 14, 97, 33 }, { 16, 16, 33 }, { 15, 1, 33 }, { 11, 2, 34 }, { 5, 255, 34 }, { 8, 12, 34 }, { 0, 0x41, 34 }, { 11, 0, 34 }, { 5, 1, 34 }, { 8, 4, 35 },
};

static void magnetic_records(void) {
    uint8_t padded[22] = { 9, 8, 7, 6, 5 }, spoilt[17], out[ROOM], marks[ROOM], cube[SYMMETRY_MOST_MAGNETIC_RECORD + 3], copy[SYMMETRY_MOST_MAGNETIC_RECORD];
    memcpy(padded + 5, reversing, 17);
    memset(out, MARK, ROOM);
    memset(marks, MARK, ROOM);
    answers(symmetry_magnetic_record_order(reversing, 17), 2, "the order of a magnetic record");
    answers(symmetry_magnetic_record_letter(reversing, 17), 'P', "its letter");
    answers(symmetry_magnetic_record_order(padded, 22), 2, "bytes before it");
    answers(symmetry_magnetic_record_order(grey, 17), 2, "the record of a grey group");
    answers(symmetry_magnetic_record_order(alone, 11), 1, "the shortest magnetic record");
    answers(symmetry_magnetic_record_order(flagged, 11), refusal(35, 0), "no identity without the flag");
    answers(symmetry_magnetic_record_order(NULL, 0), refusal(30, 0), "no record");
    answers(symmetry_magnetic_record_letter(reversing + 8, 9), refusal(30, 0), "nine bytes");
    answers(symmetry_magnetic_record_letter(reversing + 7, 10), refusal(33, 0), "ten bytes");
    for (size_t i = 0; i < sizeof magnetic_damage / sizeof *magnetic_damage; i++) {
        memcpy(spoilt, reversing, 17);
        spoilt[magnetic_damage[i].at] = magnetic_damage[i].byte;
        uint64_t told = refusal(magnetic_damage[i].number, 0);
        answers(symmetry_magnetic_record_order(spoilt, 17), told, "a damaged magnetic record");
        answers(symmetry_magnetic_record_letter(spoilt, 17), told, "its letter");
        answers(symmetry_magnetic_record_copy(spoilt, 17, out, 3, 9), told, "its copy");
    }
    /* the readers of other editions, and this one */
    answers(symmetry_record_order(reversing, 17), refusal(31, 0), "edition 2 to the reader of plain records");
    answers(symmetry_record_letter(reversing, 17), refusal(31, 0), "edition 2 to the reader of plain records");
    answers(symmetry_record_copy(reversing, 17, out, ROOM, 0), refusal(31, 0), "edition 2 to the copier of plain records");
    answers(symmetry_record_move(reversing, 17, out, ROOM, 0), refusal(31, 0), "edition 2, moved");
    answers(symmetry_record_compare(inversion, 15, reversing, 17, out, ROOM), refusal(61, 0), "edition 2, compared");
    answers(symmetry_record_subgroups(reversing, 17, out, ROOM), refusal(31, 0), "subgroups of edition 2");
    answers(symmetry_magnetic_record_order(inversion, 15), refusal(31, 0), "edition 1 to the reader of magnetic records");
    answers(symmetry_magnetic_record_order(shorter, 13), refusal(31, 0), "edition 3 to it");
    answers(symmetry_magnetic_record_order(shortest, 9), refusal(30, 0), "nine bytes of edition 3 to it");
    /* refusals of the text go first, and no refusal writes */
    answers(symmetry_magnetic_record(TEXT("P 1a"), out, 3, 9), refusal(14, 0), "no group, and no room");
    answers(symmetry_magnetic_record(TEXT("P 2''"), out, ROOM, 0), refusal(8, 2), "no symbol");
    answers(symmetry_magnetic_record(NULL, 0, NULL, 0, 0), refusal(3, 0), "no text, and no room");
    answers(symmetry_magnetic_record(TEXT("P 1a'"), out, ROOM, UINT64_MAX), refusal(20, 0), "a start that wraps");
    answers(symmetry_magnetic_record_copy(reversing, 17, out, ROOM, UINT64_MAX - 16), refusal(20, 0), "a start that wraps");
    answers(symmetry_magnetic_record(TEXT("-P 4 2 3 1'"), out, ROOM, 0), refusal(20, 0), "no room for 96 operations");
    expect(memcmp(out, marks, ROOM) == 0, "untouched buffers", 0);
    memset(cube, MARK, sizeof cube);
    answers(symmetry_magnetic_record(TEXT("-P 4 2 3 1'"), cube, 580, 0), refusal(20, 0), "a byte too few for 96 operations");
    answers(symmetry_magnetic_record(TEXT("-P 4 2 3 1'"), cube, 583, 2), 96, "96 operations");
    expect(cube[1] == MARK && cube[583] == MARK && memcmp(cube + 578, "P\2\140\2\105", 5) == 0, "their trailer", cube[583]);
    answers(symmetry_magnetic_record_order(cube + 2, 581), 96, "their order");
    answers(symmetry_magnetic_record_copy(cube, 583, copy, 581, 0), 96, "their copy");
    expect(memcmp(cube + 2, copy, 581) == 0, "the same bytes", 0);
    /* two spellings of one set of motions */
    answers(symmetry_magnetic_record(TEXT("-P 2'"), cube, 29, 0), 4, "2' and the inversion");
    answers(symmetry_magnetic_record(TEXT("-P -2'"), copy, 29, 0), 4, "m' and the inversion");
    expect(memcmp(cube, copy, 29) == 0, "one record", 0);
}

/* ---- two records ----
   Of -P 1 and P 1 the inversion, code 3198, is only in one; 2 and 21 along z, code 3200, differ by six twelfths; P and I are other letters. */
static const uint8_t one_record[10] = { 0x40, 0x64, 0, 0, 0, 'P', 1, 1, 0, 10 }, body[10] = { 0x40, 0x64, 0, 0, 0, 'I', 1, 1, 0, 10 };
static const uint8_t turn[15] = { 0x0C, 0x80, 0, 0, 0, 0x40, 0x64, 0, 0, 0, 'P', 1, 2, 0, 15 }, screwed[15] = { 0x0C, 0x80, 0, 0, 6, 0x40, 0x64, 0, 0, 0, 'P', 1, 2, 0, 15 };

static void compared(const uint8_t *first, size_t first_length, const uint8_t *second, size_t second_length, const uint8_t *report, size_t count) {
    for (size_t length = 0; length <= count + 3; length++) {
        uint8_t out[ROOM], after[ROOM];
        memset(out, MARK, ROOM);
        memset(after, MARK, ROOM);
        int fits = count <= length;
        if (fits) memcpy(after, report, count);
        uint64_t got = symmetry_record_compare(first, first_length, second, second_length, length ? out : NULL, length);
        expect(got == (fits ? count : refusal(20, 0)) && memcmp(out, after, ROOM) == 0, "two records compared", got);
    }
}

static void comparisons(void) {
    static const uint8_t lost[9] = { 1, 0x0C, 0x7E }, won[9] = { 2, 0x0C, 0x7E }, screw[9] = { 3, 0x0C, 0x80, 0, 0, 0, 0, 0, 6 }, unscrew[9] = { 3, 0x0C, 0x80, 0, 0, 6 };
    static const uint8_t letters[2] = { 'P', 'I' }, both[18] = { 1, 0x0C, 0x7E, 0, 0, 0, 0, 0, 0, 2, 0x0C, 0x80, 0, 0, 0, 0, 0, 6 };
    uint8_t out[ROOM], marks[ROOM], spoilt[15];
    memset(out, MARK, ROOM);
    memset(marks, MARK, ROOM);
    compared(inversion, 15, one_record, 10, lost, 9);
    compared(one_record, 10, inversion, 15, won, 9);
    compared(turn, 15, screwed, 15, screw, 9);
    compared(screwed, 15, turn, 15, unscrew, 9);
    compared(inversion, 15, screwed, 15, both, 18);
    compared(inversion, 15, inversion, 15, NULL, 0);
    compared(one_record, 10, body, 10, letters, 2);
    for (size_t i = 0; i < sizeof damage / sizeof *damage; i++) {
        memcpy(spoilt, inversion, 15);
        spoilt[damage[i].at] = damage[i].byte;
        answers(symmetry_record_compare(spoilt, 15, NULL, 0, out, 0), refusal(damage[i].number, 0), "a damaged first record");
        answers(symmetry_record_compare(inversion, 15, spoilt, 15, out, 0), refusal(damage[i].number + 30, 0), "a damaged second record");
    }
    answers(symmetry_record_compare(NULL, 0, NULL, 0, NULL, 0), refusal(30, 0), "no first record");
    answers(symmetry_record_compare(inversion, 15, NULL, 0, NULL, 0), refusal(60, 0), "no second record");
    expect(memcmp(out, marks, ROOM) == 0, "untouched buffers", 0);
}

/* ---- lines ----
   -x,-y+1/2,z has the digits 0 1 1 / 1 0 1 / 1 1 2 of base 3, 2187 + 729 + 243 + 27 + 9 + 3 + 2 = 3200, and six twelfths along y. */
static void lines(void) {
    static const uint8_t screw[5] = { 3200 / 256, 3200 % 256, 0, 6, 0 }, identity[5] = { 0x40, 0x64, 0, 0, 0 }, outside[5] = { 0x4C, 0xE3, 0, 0, 0 };
    static const uint8_t beyond[5] = { 0x40, 0x64, 0, 12, 0 }, none[5] = { 0, 0, 0, 0, 0 };
    static const struct { const char *line; unsigned place; } misspelt[] = {
        { "x,y", 3 }, { "x,y,z,", 5 }, { "x,,z", 2 }, { "xx,y,z", 1 }, { "x+x,y,z", 2 }, { "x,y,z+1/ 2", 8 }, { "x,y,z+1 1/12", 7 },
        { "x+1/2+1/3,y,z", 6 }, { "x,y,z+0/2", 6 }, { "x,y,z+1/5", 8 }, { "x,y,z+7/6", 8 }, { "x,y,z+12/12", 7 }, { "x,y,z+3/", 8 },
        { "X,y,z", 0 }, { "x,\ty,z", 2 }, { "x y,y,z", 2 }, { "x+y+z+1/2+,y,z", 9 }, { "x,y,z+5/1", 9 },
    };
    uint8_t out[ROOM], after[ROOM], spaces[65];
    /* 16484 is 1 0 0 / 0 1 0 / 0 0 1 */
    answers(symmetry_line_operation(TEXT("x,y,z")), UINT64_C(16484) * 1728, "the identity's line");
    answers(symmetry_line_operation(TEXT(" x , y , z ")), UINT64_C(16484) * 1728, "with spaces");
    answers(symmetry_line_operation(TEXT("z*0")), refusal(41, 1), "a byte that no line has");
    answers(symmetry_line_operation(TEXT("-  x,-y+6/12,z")), UINT64_C(3200) * 1728 + 6 * 12, "a screw's line");
    answers(symmetry_line_operation(TEXT("1/3+x,y,z-1/3")), UINT64_C(16484) * 1728 + 4 * 144 + 8, "thirds");
    answers(symmetry_line_operation(TEXT("x,x,z")), refusal(42, 0), "a row twice");
    answers(symmetry_line_operation(TEXT("x,y,1/2")), refusal(42, 0), "a row without a letter");
    answers(symmetry_line_operation(TEXT("")), refusal(41, 0), "no line");
    for (size_t i = 0; i < sizeof misspelt / sizeof *misspelt; i++)
        answers(symmetry_line_operation((const uint8_t *)misspelt[i].line, strlen(misspelt[i].line)), refusal(41, misspelt[i].place), misspelt[i].line);
    memset(spaces, ' ', 65);
    memcpy(spaces + 30, "x,y,z", 5);
    answers(symmetry_line_operation(spaces, 64), UINT64_C(16484) * 1728, "64 bytes");
    answers(symmetry_line_operation(spaces, 65), refusal(40, 0), "65 bytes");
    for (size_t length = 0; length <= 14; length++) {
        memset(out, MARK, ROOM);
        memset(after, MARK, ROOM);
        if (length >= 11) memcpy(after, "-x,-y+1/2,z", 11);
        uint64_t got = symmetry_operation_line(screw, 5, length ? out : NULL, length);
        expect(got == (length >= 11 ? 11 : refusal(20, 0)) && memcmp(out, after, ROOM) == 0, "a screw's line written", got);
    }
    memset(out, MARK, ROOM);
    memset(after, MARK, ROOM);
    answers(symmetry_operation_line(identity, 4, out, ROOM), refusal(34, 0), "four bytes");
    answers(symmetry_operation_line(NULL, 0, out, ROOM), refusal(34, 0), "no bytes");
    answers(symmetry_operation_line(outside, 5, out, ROOM), refusal(34, 0), "a code of 19683");
    answers(symmetry_operation_line(beyond, 5, NULL, 0), refusal(34, 0), "a coordinate of 12");
    answers(symmetry_operation_line(none, 5, NULL, 0), refusal(42, 0), "nine entries of -1");
    expect(memcmp(out, after, ROOM) == 0, "an untouched buffer", 0);
}

/* ---- lists of another program ----
   Codes by hand: the identity is 2 1 1 1 2 1 1 1 2 in base 3, 16484 or 40 64 in hex; the inversion 0 1 1 1 0 1 1 1 0, 3198 or 0C 7E; the turn by a half about
   z 0 1 1 1 0 1 1 1 2, 3200 or 0C 80. */
#define LIST(...) (const uint8_t[]){ __VA_ARGS__ }, sizeof((const uint8_t[]){ __VA_ARGS__ })
#define ONE 0x40, 0x64
#define INVERTED 0x0C, 0x7E
#define HALF 0x0C, 0x80

static void checked(void) {
    uint8_t many[245];
    for (unsigned i = 0; i < 49; i++) memcpy(many + 5 * i, (const uint8_t[]){ ONE, 0, 0, 0 }, 5);
    answers(symmetry_symbol_check(TEXT("P 1"), LIST(ONE, 0, 0, 0)), 0, "the list of P 1");
    answers(symmetry_symbol_check(TEXT("P 1"), NULL, 0), 131072 + 16484, "an empty list");
    answers(symmetry_symbol_check(TEXT("P 1"), LIST(ONE, 0, 0, 0, ONE, 0, 0, 0)), 65536 + 1, "the same entry twice");
    answers(symmetry_symbol_check(TEXT("P 1"), LIST(ONE, 6, 0, 0)), 65536, "a known rotation with a wrong translation");
    answers(symmetry_symbol_check(TEXT("I 1"), LIST(ONE, 6, 6, 6)), 0, "another translation of the class");
    answers(symmetry_symbol_check(TEXT("I 1"), LIST(ONE, 0, 0, 0, ONE, 6, 6, 6)), 65536 + 1, "repeated with other bytes");
    answers(symmetry_symbol_check(TEXT("-P 1"), LIST(ONE, 0, 0, 0, INVERTED, 0, 0, 0)), 0, "another order");
    answers(symmetry_symbol_check(TEXT("-P 1"), LIST(INVERTED, 0, 0, 0)), 131072 + 16484, "the identity is missing");
    answers(symmetry_symbol_check(TEXT("-P 2"), LIST(ONE, 0, 0, 0)), 131072 + 3198, "the lowest of three that are missing");
    answers(symmetry_symbol_check(TEXT("P 2"), LIST(INVERTED, 0, 0, 0, HALF, 6, 0, 0)), 65536, "the first of two that are foreign");
    answers(symmetry_symbol_check(TEXT("P 2"), LIST(INVERTED, 0, 0, 0, HALF, 12, 0, 0)), refusal(44, 1), "a coordinate out of range, after a foreign entry");
    answers(symmetry_symbol_check(TEXT("P 2"), LIST(HALF, 0, 0, 0, 0x4C, 0xE3, 0, 0, 0)), refusal(44, 1), "a code out of range");
    answers(symmetry_symbol_check(TEXT("P 2"), LIST(0x4C, 0xE2, 0, 0, 0)), 65536, "the last code");
    answers(symmetry_symbol_check(TEXT("P 2"), LIST(HALF, 0, 0)), refusal(43, 0), "four bytes");
    answers(symmetry_symbol_check(TEXT("P 1"), many, 245), refusal(43, 0), "over 240 bytes");
    answers(symmetry_symbol_check(TEXT("P 1"), many, 240), 65536 + 1, "240 bytes");
    answers(symmetry_symbol_check(TEXT("P 1a"), LIST(0)), refusal(14, 0), "the symbol's refusal first");
    answers(symmetry_symbol_check(TEXT("P 2aa"), LIST(0)), refusal(17, 4), "the symbol's refusal first");
    answers(symmetry_symbol_check(TEXT(""), NULL, 0), refusal(3, 0), "no text and no list");
}

/* ---- catalogues ---- */

/* A call on a catalogue, and the room and the bytes behind the state as it left them. */
static uint8_t state[ROOM], room[SYMMETRY_MOST_RECORD];

static uint64_t piece(const char *bytes, size_t length) { return symmetry_catalogue_piece(state, 81, (const uint8_t *)bytes, length, room, sizeof room); }
static uint64_t line_of(uint64_t said) { return 65536 * (1 + said); }

static void catalogues(void) {
    static char long_line[SYMMETRY_MOST_PIECE + 1];
    memset(long_line, 'x', sizeof long_line);
    memset(state, MARK, ROOM);
    memset(room, MARK, sizeof room);
    /* 20 for the state goes first */
    answers(symmetry_catalogue_start(state, 80), refusal(20, 0), "a start with 80 bytes");
    answers(symmetry_catalogue_piece(state, 80, (const uint8_t *)long_line, 4097, room, 0), refusal(20, 0), "a piece with 80 bytes");
    answers(symmetry_catalogue_end(NULL, 0, room, 0), refusal(20, 0), "an end with no state");
    /* any bytes are a state: here one that has ended */
    answers(piece(long_line, 4097), refusal(45, 0), "a long piece after the end");
    answers(piece(long_line, 4096), refusal(46, 0), "a piece after the end");
    answers(symmetry_catalogue_end(state, 81, room, sizeof room), refusal(46, 0), "an end after the end");
    expect(state[0] == MARK && state[80] == MARK && room[0] == MARK, "what they left", state[0]);
    answers(symmetry_catalogue_start(state, 81), 0, "a start");
    expect(state[0] == 0 && state[1] == MARK && state[81] == MARK, "what it left", state[0]);
    answers(piece(NULL, 0), 0, "a piece of no bytes");
    answers(piece("-P", 2), 2, "the beginning of a line");
    expect(state[0] == 2 && state[1] == '-' && state[2] == 'P' && state[3] == MARK, "what is kept", state[0]);
    answers(piece(" 1\nP 1a\n", 8), 3 + line_of(2), "the end of a line");
    expect(memcmp(room, inversion, 15) == 0 && room[15] == MARK, "its record", room[15]);
    expect(state[0] == 0, "nothing is kept", state[0]);
    answers(piece("P 1a\n", 5), 5 + line_of(256 * 14), "a refused line");
    answers(piece("\n", 1), 1 + line_of(256 * 3), "a blank line");
    answers(symmetry_catalogue_piece(state, 81, (const uint8_t *)"-P 1\n", 5, room, 14), 5 + line_of(256 * 20), "a line with no room for its record");
    expect(memcmp(room, inversion, 15) == 0, "what they left in the room", room[0]);
    /* 80 bytes, and 81 */
    answers(piece("P 1", 3), 3, "the beginning of a line of 80 bytes");
    answers(piece("                                                                             \n", 78), 78 + line_of(1), "its end");
    answers(piece(long_line, 4096), 4096, "a line over 80 bytes");
    expect(state[0] == 81 && state[80] == 'x' && state[81] == MARK, "80 of them are kept", state[0]);
    answers(piece(long_line, 4097), refusal(45, 0), "4,097 more");
    expect(state[0] == 81, "nothing changed", state[0]);
    answers(piece(long_line, 9), 9, "nine more");
    answers(piece("\nP 1", 4), 1 + line_of(256 * 1 + 80), "its end");
    answers(piece("P 1", 3), 3, "a last line");
    answers(symmetry_catalogue_end(state, 81, room, sizeof room), line_of(1), "the end");
    expect(state[0] == 82, "the catalogue has ended", state[0]);
    answers(symmetry_catalogue_end(state, 81, room, sizeof room), refusal(46, 0), "an end after the end");
    answers(piece("\n", 1), refusal(46, 0), "a piece after the end");
    answers(symmetry_catalogue_start(state, 81), 0, "a fresh start");
    answers(symmetry_catalogue_end(state, 81, NULL, 0), 0, "the end of nothing");
    expect(state[81] == MARK && state[ROOM - 1] == MARK, "bytes behind the state", state[81]);
}

/* Magnetic symbols worked out by hand: 16484 is the identity's code, 3200 that of the turn by a half about z, and a flag adds 19683 to the code. */
static void magnetic(void) {
    static const struct { const char *text; uint64_t order; char letter; } good[] = {
        { "P 1", 1, 'P' }, { "P 1'", 2, 'P' }, { "P 1a'", 2, 'P' }, { "P 1 1c'", 2, 'P' }, { "P 2'", 2, 'P' }, { "-P 2'", 4, 'P' }, { "H 3'", 6, 'H' },
        { "-P 4 2 3", 48, 'P' }, { "-P 4 2 3 1'", 96, 'P' }, { "-F 4 2 3 1'", 96, 'F' }, { "P 2' (0 0 1)", 2, 'P' }, { " -P\t1' ", 4, 'P' },
    };
    static const struct { const char *text; unsigned number, place; } bad[] = {
        { "P 1a", 14, 0 }, { "P 1a' 1b'", 14, 0 }, { "P 4' 6", 13, 0 }, { "R 2'", 12, 0 }, { "P 2''", 8, 2 }, { "P 2'a", 8, 2 }, { "P 2'1", 8, 2 },
        { "P 2'q", 5, 4 }, { "P 2aa'", 17, 4 }, { "P' 2", 4, 0 }, { "P '", 5, 2 }, { "P -'", 5, 3 }, { "P 2a1'", 7, 4 }, { "P 1x'", 6, 2 }, { "p 1'", 4, 0 },
        { "P", 10, 1 }, { "", 3, 0 }, { "P 2 (0 0 0')", 9, 4 }, { "P 1' 1' 1' 1' 1' 1' 1' 1' 1'", 11, 26 }, { "P 1'\x7f", 2, 4 },
    };
    for (size_t i = 0; i < sizeof good / sizeof *good; i++) {
        const uint8_t *text = (const uint8_t *)good[i].text;
        size_t length = strlen(good[i].text);
        answers(symmetry_magnetic_order(text, length), good[i].order, good[i].text);
        answers(symmetry_magnetic_letter(text, length), (uint64_t)good[i].letter, good[i].text);
        answers(symmetry_magnetic_operation(text, length, 0), UINT64_C(16484) * 1728, good[i].text);
        answers(symmetry_magnetic_operation(text, length, good[i].order), refusal(28, 0), good[i].text);
        answers(symmetry_magnetic_operation(text, length, UINT64_MAX), refusal(28, 0), good[i].text);
        uint64_t flagged = 0;
        for (uint64_t k = 0; k < good[i].order; k++) flagged += symmetry_flag(symmetry_magnetic_operation(text, length, k));
        answers(flagged, strchr(good[i].text, '\'') ? good[i].order / 2 : 0, "half of the operations have the flag, or none");
    }
    for (size_t i = 0; i < sizeof bad / sizeof *bad; i++) {
        const uint8_t *text = (const uint8_t *)bad[i].text;
        size_t length = strlen(bad[i].text);
        uint64_t told = refusal(bad[i].number, bad[i].place);
        answers(symmetry_magnetic_order(text, length), told, bad[i].text);
        answers(symmetry_magnetic_letter(text, length), told, bad[i].text);
        answers(symmetry_magnetic_operation(text, length, 0), told, bad[i].text);
        answers(symmetry_magnetic_operation(text, length, UINT64_MAX), told, bad[i].text);
    }
    /* x+1/2,y,z with time reversal, and the turn by a half with it */
    uint64_t moved = symmetry_magnetic_operation(TEXT("P 1a'"), 1), turned_back = symmetry_magnetic_operation(TEXT("P 2c'"), 1);
    answers(moved, (UINT64_C(19683) + 16484) * 1728 + 6 * 144, "the second operation of P 1a'");
    expect(symmetry_flag(moved) == 1 && symmetry_twelfths(moved, 0) == 6 && symmetry_entry(moved, 0, 0) == 1, "taken apart", moved);
    answers(turned_back, (UINT64_C(19683) + 3200) * 1728 + 6, "the second operation of P 2c'");
    answers(symmetry_magnetic_operation(TEXT("P 2c"), 1), UINT64_C(3200) * 1728 + 6, "that of P 2c");
    /* a plain symbol has no time reversal */
    answers(symmetry_symbol_order(TEXT("P 2'")), refusal(8, 2), "a plain symbol with an apostrophe");
    answers(symmetry_symbol_order(TEXT("P 1a'")), refusal(8, 2), "a plain symbol with an apostrophe");
    uint8_t longest[81];
    memset(longest, ' ', sizeof longest);
    memcpy(longest, "P 2", 3);
    longest[79] = '\'';
    answers(symmetry_magnetic_order(longest, 81), refusal(1, 80), "81 bytes");
    answers(symmetry_magnetic_order(longest, 80), refusal(5, 79), "80 bytes that end in a lone apostrophe");
    longest[78] = '1';
    answers(symmetry_magnetic_order(longest, 80), 4, "80 bytes that end in 1'");
    answers(symmetry_magnetic_letter(NULL, 0), refusal(3, 0), "no text");
}

int main(void) {
    static const uint8_t flip_conjugates[] = { 9, 17, 33 }, flip_conjugators[] = { 0, 2, 1 };
    static const uint8_t other_conjugates[] = { 17, 9, 33 }, other_conjugators[] = { 0, 1, 2 };
    make_triangle();
    tables();
    lists();
    conjugates(9, flip_conjugates, flip_conjugators);
    conjugates(17, other_conjugates, other_conjugators);
    untouched();
    symbols();
    pointed();
    layers();
    layer_records();
    magnetic();
    written();
    records();
    magnetic_written();
    magnetic_records();
    comparisons();
    lines();
    checked();
    catalogues();
    printf("%d passed, %d failed\n", passed, failed);
    return failed != 0;
}
