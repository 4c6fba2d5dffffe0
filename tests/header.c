/* The header's constants, and what its own functions make of an answer, held to the rules and to values worked out by hand. The file is C99 and C++ alike, so that compiling it
   with all warnings tries the header in both. Prints 'N passed, M failed' and exits with 1 where M is not 0. */
#include <stdio.h>
#include <string.h>

#include "../include/symmetry.h"

static int passed, failed;

static void check(const char *what, uint64_t found, uint64_t expected)
{
    if (found == expected) {
        passed++;
    } else {
        failed++;
        printf("%s: %llu, not %llu\n", what, (unsigned long long)found, (unsigned long long)expected);
    }
}

static const struct { unsigned constant, number; } refusals[] = {
    { SYMMETRY_TEXT_TOO_LONG, 1 }, { SYMMETRY_BYTE_FORBIDDEN, 2 }, { SYMMETRY_NO_TOKEN, 3 },
    { SYMMETRY_LATTICE_WRONG, 4 }, { SYMMETRY_TOKEN_MISSPELT, 5 }, { SYMMETRY_AXIS_UNSETTLED, 6 },
    { SYMMETRY_DIGIT_WRONG, 7 }, { SYMMETRY_TOKEN_PRIMED, 8 }, { SYMMETRY_SHIFT_MALFORMED, 9 },
    { SYMMETRY_NO_ROTATION, 10 }, { SYMMETRY_TOO_MANY_TOKENS, 11 }, { SYMMETRY_LATTICE_NOT_KEPT, 12 },
    { SYMMETRY_TOO_MANY_ROTATIONS, 13 }, { SYMMETRY_TWO_TRANSLATIONS, 14 }, { SYMMETRY_LETTER_DOUBLED, 17 }, { SYMMETRY_NO_LAYER, 19 },
    { SYMMETRY_NO_ROOM, 20 },
    { SYMMETRY_ORDER, 21 }, { SYMMETRY_CELLS, 22 }, { SYMMETRY_NO_IDENTITY, 23 },
    { SYMMETRY_NO_INVERSE, 24 }, { SYMMETRY_NOT_ASSOCIATIVE, 25 }, { SYMMETRY_TOO_FEW_SLOTS, 26 },
    { SYMMETRY_NOT_A_SUBGROUP, 27 }, { SYMMETRY_NOT_AN_ELEMENT, 28 }, { SYMMETRY_NOT_NORMALIZING, 29 },
    { SYMMETRY_RECORD_SHORT, 30 }, { SYMMETRY_RECORD_EDITION, 31 }, { SYMMETRY_RECORD_LETTER, 32 },
    { SYMMETRY_RECORD_LENGTH, 33 }, { SYMMETRY_RECORD_ITEM, 34 }, { SYMMETRY_RECORD_NO_GROUP, 35 },
    { SYMMETRY_LINE_TOO_LONG, 40 }, { SYMMETRY_LINE_MISSPELT, 41 }, { SYMMETRY_LINE_DETERMINANT, 42 },
    { SYMMETRY_LIST_LENGTH, 43 }, { SYMMETRY_LIST_ENTRY, 44 },
    { SYMMETRY_PIECE_TOO_LONG, 45 }, { SYMMETRY_CATALOGUE_ENDED, 46 },
    { SYMMETRY_SECOND_SHORT, 60 }, { SYMMETRY_SECOND_EDITION, 61 }, { SYMMETRY_SECOND_LETTER, 62 },
    { SYMMETRY_SECOND_LENGTH, 63 }, { SYMMETRY_SECOND_ITEM, 64 }, { SYMMETRY_SECOND_NO_GROUP, 65 },
};
enum { REFUSALS = sizeof refusals / sizeof *refusals, ABOVE = 256 };

/* Each refusal has its number and words of its own; every other number has the same words. */
static void check_refusals(void)
{
    const char *words[ABOVE], *others = symmetry_reason(ABOVE);
    unsigned i, j, said = 0;
    for (i = 0; i < ABOVE; i++)
        words[i] = symmetry_reason(i);
    check("words on no refusal", (uint64_t)strcmp(words[0], "no refusal"), 0);
    for (i = 0; i < REFUSALS; i++) {
        check("the number of a refusal", refusals[i].constant, refusals[i].number);
        check("words on a refusal", strlen(words[refusals[i].number]) > 0, 1);
        for (j = 0; j < ABOVE; j++)
            said += j != refusals[i].number && strcmp(words[j], words[refusals[i].number]) == 0;
    }
    check("words that two numbers have", said, 0);
    for (i = 1; i < ABOVE; i++)
        said += strcmp(words[i], others) != 0;
    check("numbers with words", said, REFUSALS);
    /* counted in the header's text by whoever compiles this, so that none is forgotten above */
    check("refusals of the header", ENUMERATORS, REFUSALS);
}

static void check_sizes(void)
{
    check("the longest text", SYMMETRY_MOST_TEXT, 80);
    check("the largest order", SYMMETRY_MOST_ORDER, 48);
    check("the largest order of a magnetic symbol", SYMMETRY_MOST_MAGNETIC_ORDER, 2 * 48);
    check("the longest record", SYMMETRY_MOST_RECORD, 5 * 48 + 5);
    check("the longest record of a magnetic symbol", SYMMETRY_MOST_MAGNETIC_RECORD, 6 * 96 + 5);
    check("the bytes of an operation in it", SYMMETRY_MAGNETIC_ITEM, 2 + 3 + 1);
    check("the longest list", SYMMETRY_MOST_LIST, 5 * 48);
    check("the longest report", SYMMETRY_MOST_REPORT, 9 * (48 + 48));
    check("the bytes of a difference", SYMMETRY_REPORT_ENTRY, 1 + 2 + 3 + 3);
    check("the largest table", SYMMETRY_MOST_TABLE, 48 * 48);
    check("the subgroups of a symbol's group", SYMMETRY_MOST_SYMBOL_SUBGROUPS, 98);
    /* of the 32 vectors over two elements: 1 space of no dimension, 31 of one, 155 of two and of three, 31 of four, 1 of five */
    check("the subgroups of a group", SYMMETRY_MOST_SUBGROUPS, 1 + 31 + 155 + 155 + 31 + 1);
    check("the longest line", SYMMETRY_MOST_LINE, 64);
    /* a row of three letters and two of two, each with a sign and eleven twelfths: -x-y-z+11/12 and twice -x-y+11/12, and two commas */
    check("the longest line written", SYMMETRY_MOST_LINE_WRITTEN, 12 + 10 + 10 + 2);
    check("the bytes of an operation", SYMMETRY_OPERATION, 5);
    check("the bytes of a slot", SYMMETRY_SLOT, 8);
    check("the state of a catalogue", SYMMETRY_CATALOGUE_STATE, 1 + 80);
    check("the longest piece", SYMMETRY_MOST_PIECE, 4096);
    check("the version", SYMMETRY_VERSION_MAJOR * 100 + SYMMETRY_VERSION_MINOR, 201);
}

int main(void)
{
    /* refusal 7 at 2, refusal 1 at 80, and the largest place below refusal 35 */
    const uint64_t digit = UINT64_C(0x0700000000000002), length = UINT64_C(0x0100000000000050), last = UINT64_C(0x23FFFFFFFFFFFFFF);
    /* the rotation 0 -1 0 / 1 -1 0 / 0 0 1 has the digits 1 0 1 2 0 1 1 1 2 of base 3; the translation is 11, 0 and 4 twelfths */
    const uint64_t code = 6561 + 729 + 2 * 243 + 27 + 9 + 3 + 2, operation = code * 1728 + 11 * 144 + 0 * 12 + 4;
    const int entries[9] = { 0, -1, 0, 1, -1, 0, 0, 0, 1 };
    /* the same with time reversal, and the largest value: all entries 1, eleven twelfths along each axis, and the flag */
    const uint64_t reversed = (1 * 19683 + code) * 1728 + 11 * 144 + 0 * 12 + 4, largest = (1 * 19683 + 19682) * UINT64_C(1728) + 11 * 144 + 11 * 12 + 11;
    const uint8_t sets[16] = { 0, 0, 255, 255, 255, 255, 255, 255, 128, 7, 6, 5, 4, 3, 2, 1 };
    /* of a catalogue: 7 bytes taken and no line; 4,096 taken and a line with 48 operations; none taken and a line refused 1 at 80 */
    const uint64_t none = 7, many = 4096 + UINT64_C(65536) * (1 + 48), over = UINT64_C(65536) * (1 + 256 * 1 + 80);
    unsigned i;

    check_refusals();
    check_sizes();
    check("a list that passes", symmetry_check_kind(0), SYMMETRY_CHECK_YES);
    check("entry 47 of a list", symmetry_check_kind(65536 + 47), SYMMETRY_CHECK_ENTRY);
    check("its index", symmetry_check_detail(65536 + 47), 47);
    check("a missing code", symmetry_check_kind(131072 + 19682), SYMMETRY_CHECK_MISSING);
    check("the code", symmetry_check_detail(131072 + 19682), 19682);
    check("number of a refusal", symmetry_number(digit), 7);
    check("place of a refusal", symmetry_place(digit), 2);
    check("a refusal is refused", (uint64_t)symmetry_refused(digit), 1);
    check("number of refusal 1", symmetry_number(length), SYMMETRY_TEXT_TOO_LONG);
    check("place of refusal 1", symmetry_place(length), 80);
    check("number of refusal 35", symmetry_number(last), SYMMETRY_RECORD_NO_GROUP);
    check("the largest place", symmetry_place(last), UINT64_C(0x00FFFFFFFFFFFFFF));
    check("a value is not refused", (uint64_t)symmetry_refused(operation), 0);
    check("number of a value", symmetry_number(operation), 0);
    check("a value", symmetry_value(operation), operation);
    check("a set of all bits", symmetry_value(UINT64_C(0x0000FFFFFFFFFFFF)), UINT64_C(0x0000FFFFFFFFFFFF));
    for (i = 0; i < 9; i++)
        check("an entry plus one", (uint64_t)(symmetry_entry(operation, i / 3, i % 3) + 1), (uint64_t)(entries[i] + 1));
    for (i = 0; i < 9; i++)
        check("an entry plus one, with time reversal", (uint64_t)(symmetry_entry(reversed, i / 3, i % 3) + 1), (uint64_t)(entries[i] + 1));
    check("x", symmetry_twelfths(operation, 0), 11);
    check("y", symmetry_twelfths(operation, 1), 0);
    check("z", symmetry_twelfths(operation, 2), 4);
    check("x, with time reversal", symmetry_twelfths(reversed, 0), 11);
    check("y, with time reversal", symmetry_twelfths(reversed, 1), 0);
    check("z, with time reversal", symmetry_twelfths(reversed, 2), 4);
    check("no flag", symmetry_flag(operation), 0);
    check("no flag before the largest code", symmetry_flag(largest - 19683 * UINT64_C(1728)), 0);
    check("a flag", symmetry_flag(reversed), 1);
    check("a flag before the least code", symmetry_flag(19683 * UINT64_C(1728)), 1);
    check("a flag before the largest code", symmetry_flag(largest), 1);
    check("the first set", symmetry_set(sets, 0), UINT64_C(0x0000FFFFFFFFFFFF));
    check("the second set", symmetry_set(sets, 1), UINT64_C(0x8007060504030201));
    check("bytes taken", symmetry_catalogue_taken(none), 7);
    check("no line", (uint64_t)symmetry_catalogue_finished(none), 0);
    check("all bytes taken", symmetry_catalogue_taken(many), 4096);
    check("a line", (uint64_t)symmetry_catalogue_finished(many), 1);
    check("its operations", symmetry_catalogue_answer(many), 48);
    check("no bytes taken", symmetry_catalogue_taken(over), 0);
    check("a last line", (uint64_t)symmetry_catalogue_finished(over), 1);
    check("its refusal", symmetry_catalogue_answer(over), UINT64_C(0x0100000000000050));
    printf("%d passed, %d failed\n", passed, failed);
    return failed != 0;
}
