/* Makes the calls of symmetry.h that standard input asks for, one a line, and writes a line for each: the answer in hex, then every lent
   list as the call left it. A test speaks to all entries through this one program; what the answers must be, it knows by itself.

   A line is an entry's name without its 'symmetry_' and its parameters in order, separated by single spaces: numbers in decimal, bytes
   in hex. Instead of bytes '-' stands for none at a good address, 'null' for none at NULL, and '=' for the text, record or table of the
   line before. A byte changed that was not lent, next to a slice or in what was only to be read, ends the program with a message. */
#include <stdarg.h>
#include <stdint.h>
#include <stdio.h>
#include <stdlib.h>
#include <string.h>

#include "../include/symmetry.h"

enum { MOST_BYTES = 16384, GUARD_BYTES = 64, PLACES = 8, MOST_LENT = 2, MOST_LINE = 131072 };

/* A slice between guards; where it starts changes with the line, so that no entry can count on an even address. */
struct slice {
    uint8_t room[GUARD_BYTES + PLACES + MOST_BYTES + GUARD_BYTES];
    uint8_t *start;
    size_t length;
};

struct call {
    uint64_t order, number[2];
    struct slice input, lent[MOST_LENT];
};

/* How an entry's parameters are read, letter by letter: an order, a slice that is only read, a number, a lent slice. */
struct entry {
    const char *name, *form;
    uint64_t (*run)(const struct call *);
};

#define INPUT call->input.start, call->input.length
#define TABLE call->order, INPUT
#define LENT(i) call->lent[i].start, call->lent[i].length

#define ENTRIES_OF(ENTRY, SOURCE, FORM, GIVEN) \
    ENTRY(SOURCE##_order, FORM, GIVEN) \
    ENTRY(SOURCE##_identity, FORM, GIVEN) \
    ENTRY(SOURCE##_subgroups, FORM "l", GIVEN, LENT(0)) \
    ENTRY(SOURCE##_classes, FORM "l", GIVEN, LENT(0)) \
    ENTRY(SOURCE##_conjugate, FORM "nn", GIVEN, call->number[0], call->number[1]) \
    ENTRY(SOURCE##_conjugates, FORM "nll", GIVEN, call->number[0], LENT(0), LENT(1)) \
    ENTRY(SOURCE##_normalizer, FORM "n", GIVEN, call->number[0]) \
    ENTRY(SOURCE##_permutation, FORM "nnl", GIVEN, call->number[0], call->number[1], LENT(0))

#define ENTRIES(ENTRY) \
    ENTRIES_OF(ENTRY, symbol, "s", INPUT) \
    ENTRIES_OF(ENTRY, record, "s", INPUT) \
    ENTRIES_OF(ENTRY, table, "os", TABLE) \
    ENTRY(symbol_letter, "s", INPUT) \
    ENTRY(record_letter, "s", INPUT) \
    ENTRY(symbol_operation, "sn", INPUT, call->number[0]) \
    ENTRY(layer_order, "s", INPUT) \
    ENTRY(layer_letter, "s", INPUT) \
    ENTRY(layer_operation, "sn", INPUT, call->number[0]) \
    ENTRY(layer_record, "sln", INPUT, LENT(0), call->number[0]) \
    ENTRY(magnetic_order, "s", INPUT) \
    ENTRY(magnetic_letter, "s", INPUT) \
    ENTRY(magnetic_operation, "sn", INPUT, call->number[0]) \
    ENTRY(magnetic_record, "sln", INPUT, LENT(0), call->number[0]) \
    ENTRY(magnetic_record_order, "s", INPUT) \
    ENTRY(magnetic_record_letter, "s", INPUT) \
    ENTRY(magnetic_record_copy, "sln", INPUT, LENT(0), call->number[0]) \
    ENTRY(symbol_record, "sln", INPUT, LENT(0), call->number[0]) \
    ENTRY(record_copy, "sln", INPUT, LENT(0), call->number[0]) \
    ENTRY(record_edition, "s", INPUT) \
    ENTRY(record_move, "sln", INPUT, LENT(0), call->number[0]) \
    ENTRY(record_compare, "sll", INPUT, LENT(0), LENT(1)) \
    ENTRY(line_operation, "s", INPUT) \
    ENTRY(operation_line, "sl", INPUT, LENT(0)) \
    ENTRY(symbol_check, "sl", INPUT, LENT(0)) \
    ENTRY(catalogue_start, "l", LENT(0)) \
    ENTRY(catalogue_piece, "lsl", LENT(0), INPUT, LENT(1)) \
    ENTRY(catalogue_end, "ll", LENT(0), LENT(1))

#define RUN(NAME, FORM, ...) \
    static uint64_t run_##NAME(const struct call *call) { return symmetry_##NAME(__VA_ARGS__); }
#define ROW(NAME, FORM, ...) { #NAME, FORM, run_##NAME },

ENTRIES(RUN)
static const struct entry entries[] = { ENTRIES(ROW) };

static unsigned long line_number;

static void stop(const char *format, ...) {
    va_list words;
    va_start(words, format);
    fflush(stdout);
    fprintf(stderr, "line %lu: ", line_number);
    vfprintf(stderr, format, words);
    fputc('\n', stderr);
    exit(1);
}

static const struct entry *entry_of(const char *name) {
    for (size_t i = 0; i < sizeof entries / sizeof *entries; i++) {
        if (!strcmp(entries[i].name, name)) return &entries[i];
    }
    stop("no entry %s", name);
    return NULL;
}

static uint64_t number_of(const char *word) {
    char *end;
    uint64_t number = strtoull(word, &end, 10);
    if (*end || end == word) stop("no number: %s", word);
    return number;
}

static unsigned digit_of(char character) {
    if (character >= '0' && character <= '9') return (unsigned)(character - '0');
    if (character >= 'a' && character <= 'f') return (unsigned)(character - 'a') + 10;
    stop("no hex digit: %c", character);
    return 0;
}

static uint8_t guard[GUARD_BYTES];

static uint8_t *address_of(struct slice *slice) {
    return slice->room + GUARD_BYTES + line_number % PLACES;
}

static void read_slice(struct slice *slice, const char *word) {
    uint8_t *start = address_of(slice);
    size_t digits = strcmp(word, "-") && strcmp(word, "null") ? strlen(word) : 0;
    if (digits % 2 || digits / 2 > MOST_BYTES) stop("%lu hex digits", (unsigned long)digits);
    for (size_t i = 0; i < digits / 2; i++) start[i] = (uint8_t)(digit_of(word[2 * i]) << 4 | digit_of(word[2 * i + 1]));
    slice->start = strcmp(word, "null") ? start : NULL;
    slice->length = digits / 2;
    memcpy(start - GUARD_BYTES, guard, GUARD_BYTES);
    memcpy(start + slice->length, guard, GUARD_BYTES);
}

static void check_guards(const struct slice *slice, const char *name) {
    if (!slice->start) return;
    if (memcmp(slice->start - GUARD_BYTES, guard, GUARD_BYTES)) stop("%s wrote before a slice", name);
    if (memcmp(slice->start + slice->length, guard, GUARD_BYTES)) stop("%s wrote behind a slice", name);
}

static void write_slice(const struct slice *slice) {
    static char text[2 * MOST_BYTES];
    for (size_t i = 0; i < slice->length; i++) {
        text[2 * i] = "0123456789abcdef"[slice->start[i] >> 4];
        text[2 * i + 1] = "0123456789abcdef"[slice->start[i] & 15];
    }
    putchar(' ');
    if (slice->length) fwrite(text, 2, slice->length, stdout);
    else putchar('-');
}

static void answer(const struct entry *entry, struct call *call) {
    static uint8_t given[MOST_BYTES];
    int numbers = 0, lent = 0;
    for (const char *form = entry->form; *form; form++) {
        const char *word = strtok(NULL, " ");
        if (!word) stop("%s lacks a parameter", entry->name);
        if (*form == 'o') call->order = number_of(word);
        if (*form == 'n') call->number[numbers++] = number_of(word);
        if (*form == 'l') read_slice(&call->lent[lent++], word);
        if (*form == 's' && strcmp(word, "=")) {
            read_slice(&call->input, word);
            if (call->input.start) memcpy(given, call->input.start, call->input.length);
        }
    }
    if (strtok(NULL, " ")) stop("%s has a parameter too many", entry->name);
    printf("%llx", (unsigned long long)entry->run(call));
    check_guards(&call->input, entry->name);
    if (call->input.start && memcmp(call->input.start, given, call->input.length)) stop("%s changed what it reads", entry->name);
    for (int i = 0; i < lent; i++) {
        check_guards(&call->lent[i], entry->name);
        write_slice(&call->lent[i]);
    }
    putchar('\n');
}

int main(void) {
    static char line[MOST_LINE];
    static struct call call;
    memset(guard, 0xa5, sizeof guard);
    while (fgets(line, sizeof line, stdin)) {
        size_t length = strlen(line);
        line_number++;
        if (!length || line[length - 1] != '\n') stop("the line has no end");
        line[length - 1] = 0;
        const char *name = strtok(line, " ");
        if (!name) stop("the line is empty");
        answer(entry_of(name), &call);
    }
    return 0;
}
