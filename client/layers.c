/*
 * The client behind ./layers: the subgroups of a group as text or as a picture, and the operations of layer and magnetic symbols, for the one who signs a
 * sheet. Nothing here is proved and nothing here decides: every number is an answer of the proved entries of symmetry.h, or counted from such answers.
 */
#include <stdio.h>
#include <stdlib.h>
#include <string.h>
#include "lattice.h"
#include "picture.h"

/* What the words of the call name. The caller says which, and it is not guessed from the text: lists of Hall symbols print a mark as an apostrophe. */
enum family { PLAIN, RECORD, LAYER, MAGNETIC };

static struct lattice all;

/* ---- refusals ---- */

/* A text as one line with a character a byte, so that a caret can stand under each. */
static void print_flat(FILE *to, const char *text)
{
    for (; *text; text++)
        fputc(*text >= 9 && *text <= 13 ? ' ' : *text < 32 || *text > 126 ? '?' : *text, to);
}

static void print_caret(const char *text, size_t place)
{
    fprintf(stderr, "  ");
    print_flat(stderr, text);
    fprintf(stderr, "\n  %*s\n", (int)place + 1, "^");
}

/* Whether the place of a refusal is a byte of the text; of 12 and 19 it is an index, of all others 0. */
static int points_at_byte(unsigned number)
{
    return number <= SYMMETRY_TOO_MANY_TOKENS || number == SYMMETRY_LETTER_DOUBLED;
}

/* What the writer may have meant; NULL where nothing is to be said. */
static const char *hint(enum family family, unsigned number, const char *at)
{
    if (number == SYMMETRY_LATTICE_WRONG && family == LAYER)
        return "a layer symbol begins with p or c";
    if (number == SYMMETRY_LATTICE_WRONG && strchr("pc", at[*at == '-']) && at[*at == '-'])
        return "p and c are letters of layer symbols: ./layers --layer SYMBOL";
    if (number == SYMMETRY_TOKEN_PRIMED && family == MAGNETIC)
        return "a time reversal is one apostrophe at the end of a token";
    if (number == SYMMETRY_TOKEN_PRIMED && family == PLAIN)
        return "the mark ' of printed lists is written ^ here; a time reversal is read by ./layers --magnetic SYMBOL";
    if (number == SYMMETRY_TOKEN_MISSPELT && *at == '"')
        return "the mark \" of printed lists is written = here";
    return NULL;
}

static int refuse(enum family family, const char *text, uint64_t answer)
{
    unsigned number = symmetry_number(answer);
    size_t place = (size_t)symmetry_place(answer);
    const char *said = NULL;
    fprintf(stderr, "layers: refused %u: %s", number, symmetry_reason(number));
    if (number == SYMMETRY_LATTICE_NOT_KEPT)
        fprintf(stderr, " (generator %lu; they count from 0, and a minus before the letter is the first)", (unsigned long)place);
    if (number == SYMMETRY_NO_LAYER)
        fprintf(stderr, " (operation %lu of its list; they count from 0, and the identity is the first)", (unsigned long)place);
    fprintf(stderr, "\n");
    if (family != RECORD && points_at_byte(number)) {
        print_caret(text, place);
        said = hint(family, number, text + place);
    }
    if (said)
        fprintf(stderr, "  %s\n", said);
    return 1;
}

static int misused(const char *why)
{
    fprintf(stderr, "layers: %s (./layers --help says how it is used)\n", why);
    return 2;
}

/* ---- operations as lines ---- */

/* The five bytes of an operation that was answered as a number; a flag above them is left out. */
static void bytes_of_value(uint64_t value, uint8_t bytes[SYMMETRY_OPERATION])
{
    uint64_t code = value / 1728 % 19683;
    bytes[0] = (uint8_t)(code / 256);
    bytes[1] = (uint8_t)(code % 256);
    bytes[2] = (uint8_t)symmetry_twelfths(value, 0);
    bytes[3] = (uint8_t)symmetry_twelfths(value, 1);
    bytes[4] = (uint8_t)symmetry_twelfths(value, 2);
}

static void print_line(const uint8_t bytes[SYMMETRY_OPERATION])
{
    uint8_t line[SYMMETRY_MOST_LINE_WRITTEN];
    uint64_t answer = symmetry_operation_line(bytes, SYMMETRY_OPERATION, line, sizeof line);
    printf("%.*s", (int)symmetry_value(answer), (const char *)line);
}

/* Element i of the group: a symbol's operation is asked for, a record's stands in it. */
static void print_element(const struct lattice_source *from, size_t i)
{
    uint8_t bytes[SYMMETRY_OPERATION];
    if (from->is_record)
        memcpy(bytes, from->bytes + SYMMETRY_OPERATION * i, sizeof bytes);
    else
        bytes_of_value(symmetry_value(symmetry_symbol_operation(from->bytes, from->length, i)), bytes);
    print_line(bytes);
}

/* The smallest listed subgroup that holds a set. As all subgroups are listed it is the one that the set generates. */
static uint64_t generated(uint64_t set)
{
    uint64_t smallest = all.sets[0];
    size_t layer;
    for (layer = 0; layer < all.layers; layer++)
        if ((set & ~all.sets[layer]) == 0 && lattice_members(all.sets[layer]) < lattice_members(smallest))
            smallest = all.sets[layer];
    return smallest;
}

/* Generators of a subgroup: the lowest element that is still missing, until none is. */
static void print_generators(const struct lattice_source *from, uint64_t set)
{
    uint64_t have = generated(0);
    size_t i;
    if (have == set)
        printf(" none");
    for (i = 0; i < all.order; i++) {
        uint64_t one = UINT64_C(1) << i;
        if ((set & one) == 0 || (have & one) != 0)
            continue;
        printf(" ");
        print_element(from, i);
        have = generated(have | one);
    }
}

/* ---- text ---- */

/* By this record a layer symbol's subgroups are numbered. */
static void print_record(const struct lattice_source *from)
{
    size_t i;
    printf("record ");
    for (i = 0; i < from->length; i++)
        printf("%02X", from->bytes[i]);
    printf(", by which the layers are numbered\n");
}

static void print_counts(void)
{
    size_t layer, number, together = 0, fitting = 0, dividing = 0;
    for (layer = 0; layer < all.layers; layer++) {
        fitting += all.conjugates[layer] * lattice_members(all.normalizers[layer]) == all.order;
        dividing += all.order % lattice_members(all.sets[layer]) == 0;
    }
    for (number = 0; number < all.classes; number++)
        for (layer = 0; layer < all.layers; layer++)
            if (all.class_of[layer] == number) {
                together += all.conjugates[layer];
                break;
            }
    printf("conjugates times the normalizer's order is %lu for %lu of %lu subgroups\n", (unsigned long)all.order, (unsigned long)fitting,
           (unsigned long)all.layers);
    printf("the order divides %lu for %lu of %lu subgroups\n", (unsigned long)all.order, (unsigned long)dividing, (unsigned long)all.layers);
    printf("the %lu classes hold %lu subgroups together, and %lu are listed\n", (unsigned long)all.classes, (unsigned long)together, (unsigned long)all.layers);
}

/* An operation that was answered as a number. With a flag the line ends as in magnetic structure files: ,-1 if time is reversed, else ,+1. */
static void print_operation(size_t i, uint64_t value, int flagged)
{
    uint8_t bytes[SYMMETRY_OPERATION];
    bytes_of_value(value, bytes);
    printf("operation %lu: ", (unsigned long)i);
    print_line(bytes);
    printf("%s\n", !flagged ? "" : symmetry_flag(value) ? ",-1" : ",+1");
}

static void print_subgroups(const struct lattice_source *from)
{
    size_t layer;
    for (layer = 0; layer < all.layers; layer++) {
        printf("layer %lu: order %u, class %lu, conjugates %lu, normalizer's order %u, generators", (unsigned long)layer,
               lattice_members(all.sets[layer]), (unsigned long)all.class_of[layer], (unsigned long)all.conjugates[layer],
               lattice_members(all.normalizers[layer]));
        print_generators(from, all.sets[layer]);
        printf("\n");
    }
    print_counts();
}

static void print_source(void)
{
    printf("every number is an answer of a proved entry or counted from such answers; the program that shows them is not proved\n");
}

static void print_text(enum family family, const char *text, const struct lattice_source *from)
{
    uint64_t letter = from->is_record ? symmetry_record_letter(from->bytes, from->length) : symmetry_symbol_letter(from->bytes, from->length);
    size_t i;
    print_flat(stdout, text);
    printf(": letter %c, order %lu, %lu subgroups in %lu classes\n", (int)symmetry_value(letter), (unsigned long)all.order, (unsigned long)all.layers,
           (unsigned long)all.classes);
    if (family == LAYER) {
        for (i = 0; i < all.order; i++)
            print_operation(i, symmetry_value(symmetry_layer_operation((const uint8_t *)text, strlen(text), i)), 0);
        print_record(from);
    }
    print_subgroups(from);
    print_source();
}

/* ---- what is asked ---- */

/* The value of a hexadecimal digit, or 16. */
static unsigned digit_value(char digit)
{
    static const char known[] = "0123456789abcdef0123456789ABCDEF";
    const char *found = digit ? strchr(known, digit) : NULL;
    return found ? (unsigned)((found - known) % 16) : 16;
}

/* How many bytes the digits spell, two a byte with white space between bytes; or -1 and the place of the character at fault. */
static long spelled_bytes(const char *digits, uint8_t *bytes, size_t *place)
{
    long count = 0;
    for (*place = 0; digits[*place]; ++*place) {
        unsigned high = digit_value(digits[*place]), low;
        if (strchr(" \t\n\v\f\r", digits[*place]))
            continue;
        if (high == 16)
            return -1;
        low = digit_value(digits[++*place]);
        if (low == 16)
            return -1;
        bytes[count++] = (uint8_t)(high * 16 + low);
    }
    return count;
}

/* Writes the record of edition 1 that the bytes end with or are moved to: in it operation i has the five bytes from 5 * i on. */
static uint64_t first_edition(const uint8_t *bytes, size_t length, uint8_t *record)
{
    uint64_t edition = symmetry_record_edition(bytes, length);
    if (symmetry_refused(edition))
        return edition;
    return symmetry_value(edition) == 1 ? symmetry_record_copy(bytes, length, record, SYMMETRY_MOST_RECORD, 0)
                                        : symmetry_record_move(bytes, length, record, SYMMETRY_MOST_RECORD, 0);
}

/* The subgroups of what is named: a symbol's by its text, the others' by their record of edition 1. 0, or the refused answer. */
static uint64_t gather(enum family family, const uint8_t *bytes, size_t length, struct lattice_source *from)
{
    static uint8_t record[SYMMETRY_MOST_RECORD];
    from->bytes = bytes;
    from->length = length;
    from->is_record = family != PLAIN;
    if (from->is_record) {
        uint64_t answer = family == RECORD ? first_edition(bytes, length, record) : symmetry_layer_record(bytes, length, record, sizeof record, 0);
        if (symmetry_refused(answer))
            return answer;
        from->bytes = record;
        from->length = SYMMETRY_OPERATION * ((size_t)symmetry_value(answer) + 1);
    }
    return lattice_gather(from, &all);
}

static int show(enum family family, const char *text, const uint8_t *bytes, size_t length, int picture)
{
    struct lattice_source from;
    uint64_t answer = gather(family, bytes, length, &from);
    if (symmetry_refused(answer))
        return refuse(family, text, answer);
    if (picture)
        print_picture(&all, text);
    else
        print_text(family, text, &from);
    return 0;
}

static int show_record(const char *digits, int picture)
{
    uint8_t *bytes = malloc(strlen(digits) / 2 + 1);
    size_t place;
    long count;
    int status;
    if (!bytes)
        return misused("no memory for so many digits");
    count = spelled_bytes(digits, bytes, &place);
    if (count < 0) {
        status = misused("a record is two hexadecimal digits a byte");
        print_caret(digits, place);
    } else {
        status = show(RECORD, digits, bytes, (size_t)count, picture);
    }
    free(bytes);
    return status;
}

/* A magnetic symbol has no subgroups here, so there is nothing to gather: its operations, each with its flag as magnetic structure files write it. */
static int show_magnetic(const char *text)
{
    const uint8_t *bytes = (const uint8_t *)text;
    size_t i, length = strlen(text);
    uint64_t order = symmetry_magnetic_order(bytes, length);
    if (symmetry_refused(order))
        return refuse(MAGNETIC, text, order);
    print_flat(stdout, text);
    printf(": letter %c, order %lu, operations only: the subgroups of magnetic groups are not numbered\n",
           (int)symmetry_value(symmetry_magnetic_letter(bytes, length)), (unsigned long)symmetry_value(order));
    for (i = 0; i < symmetry_value(order); i++)
        print_operation(i, symmetry_value(symmetry_magnetic_operation(bytes, length, i)), 1);
    print_source();
    return 0;
}

static enum family family_of(const char *option)
{
    return strcmp(option, "--record") == 0 ? RECORD : strcmp(option, "--layer") == 0 ? LAYER : strcmp(option, "--magnetic") == 0 ? MAGNETIC : PLAIN;
}

int main(int argc, char **argv)
{
    enum family family = PLAIN;
    int picture = 0, at = 1, status;

    for (; at < argc && strncmp(argv[at], "--", 2) == 0; at++) {
        if (strcmp(argv[at], "--svg") == 0)
            picture = 1;
        else if (family != PLAIN)
            return misused("one of --record, --layer and --magnetic");
        else if ((family = family_of(argv[at])) == PLAIN)
            return misused("no such option");
    }
    if (at + 1 != argc)
        return misused(family == RECORD ? "one record is asked for" : "one symbol is asked for");
    if (family == MAGNETIC && picture)
        return misused("a magnetic symbol has operations only, and no picture");
    status = family == MAGNETIC ? show_magnetic(argv[at])
        : family == RECORD ? show_record(argv[at], picture)
                           : show(family, argv[at], (const uint8_t *)argv[at], strlen(argv[at]), picture);
    if (fflush(stdout) != 0 || ferror(stdout)) {
        fprintf(stderr, "layers: the output could not be written\n");
        return 1;
    }
    return status;
}
