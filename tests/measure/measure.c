/* Makes the calls that its input names, one a line, and writes a line for each: the answer and the deepest stack. Each call stands between two marks,
   where count.c counts its instructions.
   A line is CALL SOURCE NUMBER SET ELEMENT: the entry's name without "symmetry_", the symbol, record or table in hex (- for an empty one), and what else
   the entry takes, where NUMBER is a table's order, an operation's index or a record's start, and SET is in hex. Beside the entries for C there are the
   tables by value, of a test library, and where beside.c or product.c is linked its calls.
   With a word on its command line it writes the nanoseconds that a call takes by the clock instead, the middle one of 15 series of calls. */
#include <stdint.h>
#include <stdio.h>
#include <stdlib.h>
#include <string.h>
#include <time.h>
#include <ucontext.h>
#include "../../include/symmetry.h"
#include "marks.h"
#include "measure.h"

enum { LIST_ROOM = 8 * 512, RECORD_ROOM = 5 + 6 * 96, STACK_WORDS = 8192 };

/* ---- what a call is given, and what it answers ---- */
uint8_t source[SOURCE_ROOM];
size_t length;
uint64_t number;
volatile uint64_t answer;
static uint8_t sets[LIST_ROOM], bytes[48], record[RECORD_ROOM], report[SYMMETRY_MOST_REPORT], state[SYMMETRY_CATALOGUE_STATE];
/* What a record is compared with, the record of P 1; its first five bytes are a list to be checked. */
static const uint8_t other[] = { 0x40, 0x64, 0, 0, 0, 0x50, 1, 1, 0, 10 };
static uint64_t set, element;

#define SYMBOL source, length
#define RECORD source, length
#define TABLE number, source, length
#define SETS sets, sizeof sets
#define BYTES bytes, sizeof bytes
#define OUT record, sizeof record
#define STATE (state[0] = 0, state), sizeof state

#define CALLS(CALL) \
    CALL(symbol_order, SYMBOL) CALL(record_order, RECORD) CALL(table_order, TABLE) \
    CALL(symbol_identity, SYMBOL) CALL(record_identity, RECORD) CALL(table_identity, TABLE) \
    CALL(symbol_letter, SYMBOL) CALL(record_letter, RECORD) \
    CALL(symbol_operation, SYMBOL, number) \
    CALL(symbol_record, SYMBOL, OUT, number) CALL(record_copy, RECORD, OUT, number) \
    CALL(layer_order, SYMBOL) CALL(layer_letter, SYMBOL) CALL(layer_operation, SYMBOL, number) CALL(layer_record, SYMBOL, OUT, number) \
    CALL(magnetic_order, SYMBOL) CALL(magnetic_letter, SYMBOL) CALL(magnetic_operation, SYMBOL, number) CALL(magnetic_record, SYMBOL, OUT, number) \
    CALL(magnetic_record_order, RECORD) CALL(magnetic_record_letter, RECORD) CALL(magnetic_record_copy, RECORD, OUT, number) \
    CALL(record_edition, RECORD) CALL(record_move, RECORD, OUT, number) CALL(record_compare, RECORD, other, sizeof other, report, sizeof report) \
    CALL(symbol_check, SYMBOL, other, 5) CALL(line_operation, SYMBOL) CALL(operation_line, SYMBOL, OUT) \
    CALL(catalogue_start, state, sizeof state) CALL(catalogue_piece, STATE, SYMBOL, OUT) \
    CALL(symbol_subgroups, SYMBOL, SETS) CALL(record_subgroups, RECORD, SETS) CALL(table_subgroups, TABLE, SETS) \
    CALL(symbol_classes, SYMBOL, SETS) CALL(record_classes, RECORD, SETS) CALL(table_classes, TABLE, SETS) \
    CALL(symbol_conjugate, SYMBOL, set, element) CALL(record_conjugate, RECORD, set, element) CALL(table_conjugate, TABLE, set, element) \
    CALL(symbol_conjugates, SYMBOL, set, SETS, BYTES) CALL(record_conjugates, RECORD, set, SETS, BYTES) CALL(table_conjugates, TABLE, set, SETS, BYTES) \
    CALL(symbol_normalizer, SYMBOL, set) CALL(record_normalizer, RECORD, set) CALL(table_normalizer, TABLE, set) \
    CALL(symbol_permutation, SYMBOL, set, element, BYTES) CALL(record_permutation, RECORD, set, element, BYTES) \
    CALL(table_permutation, TABLE, set, element, BYTES)

/* One function a call, all of one type: arguments come from and answers go to the variables above. */
#define FUNCTION(name, ...) static void name(void) { answer = symmetry_##name(__VA_ARGS__); }
CALLS(FUNCTION)
static void nothing(void) { answer = 0; }

/* The end of a catalogue whose last line, kept in the state, is the source. */
static void keep_line(void) {
    state[0] = (uint8_t)length;
    memcpy(state + 1, source, length);
}
static void catalogue_end(void) { answer = symmetry_catalogue_end(state, sizeof state, OUT); }

/* The whole table by value, which answers its order. */
uint64_t symbol_table_order(const uint8_t *text, size_t length);
uint64_t record_table_order(const uint8_t *bytes, size_t length);
static void symbol_value(void) { answer = symbol_table_order(SYMBOL); }
static void record_value(void) { answer = record_table_order(RECORD); }

#define ENTRY(name, ...) { #name, name, NULL },
static const struct entry entries[] = {
    CALLS(ENTRY) { "catalogue_end", catalogue_end, keep_line },
    { "symbol_value", symbol_value, NULL }, { "record_value", record_value, NULL }, { "nothing", nothing, NULL }, { NULL, NULL, NULL }
};

static const struct entry *entry_among(const struct entry *some, const char *name) {
    for (; some->name != NULL; some++)
        if (strcmp(some->name, name) == 0) return some;
    return NULL;
}

static const struct entry *entry_of(const char *name) {
    const struct entry *entry = entry_among(entries, name);
    if (entry == NULL && others != NULL) entry = entry_among(others, name);
    if (entry == NULL) {
        fprintf(stderr, "no call %s\n", name);
        exit(1);
    }
    return entry;
}

/* ---- instructions ---- */
static inline void mark(long number) {
    __asm__ volatile("syscall" : "+a"(number) : : "rcx", "r11", "memory");
}

/* Kept apart, so that what stands between the marks is the same whatever is called. */
__attribute__((noinline)) static void make_marked(const struct entry *entry) {
    mark(OPENING_MARK);
    entry->make();
    mark(CLOSING_MARK);
}

/* ---- stack ---- */
static uint64_t stack[STACK_WORDS] __attribute__((aligned(64)));
static const struct entry *on_stack;
static uint8_t *top;

static void make_on_stack(void) {
    top = __builtin_frame_address(0);
    on_stack->make();
    __asm__ volatile(""); /* no jump in place of the call: it would leave the frame */
}

static void make_on_filled_stack(const struct entry *entry, uint64_t fill) {
    static ucontext_t inside, outside;
    for (size_t i = 0; i < STACK_WORDS; i++) stack[i] = fill;
    on_stack = entry;
    getcontext(&inside);
    inside.uc_stack.ss_sp = stack;
    inside.uc_stack.ss_size = sizeof stack;
    inside.uc_link = &outside;
    makecontext(&inside, make_on_stack, 0);
    swapcontext(&outside, &inside);
}

/* How many bytes of the stack, from its top at the call down to the lowest word that the call changed. */
static size_t touched(const struct entry *entry, uint64_t fill) {
    size_t untouched = 0;
    if (entry->prepare != NULL) entry->prepare();
    make_on_filled_stack(entry, fill);
    while (untouched < STACK_WORDS && stack[untouched] == fill) untouched++;
    if (untouched == 0) {
        fprintf(stderr, "%s: the stack is too small\n", entry->name);
        exit(1);
    }
    return (size_t)(top - (uint8_t *)&stack[untouched]);
}

/* Two values, since a call may write the one that is there. */
static size_t deepest(const struct entry *entry) {
    size_t one = touched(entry, UINT64_C(0xA5A5A5A5A5A5A5A5)), other = touched(entry, UINT64_C(0x5A5A5A5A5A5A5A5A));
    return one > other ? one : other;
}

/* ---- the clock ---- */
enum { SERIES = 15, SERIES_NANOSECONDS = 200000 };

static double series(const struct entry *entry, long calls) {
    struct timespec start, end;
    clock_gettime(CLOCK_MONOTONIC, &start);
    for (long i = 0; i < calls; i++) entry->make();
    clock_gettime(CLOCK_MONOTONIC, &end);
    return (double)(end.tv_sec - start.tv_sec) * 1e9 + (double)(end.tv_nsec - start.tv_nsec);
}

static int by_size(const void *one, const void *other) {
    double a = *(const double *)one, b = *(const double *)other;
    return (a > b) - (a < b);
}

static double middle_time(const struct entry *entry) {
    double times[SERIES];
    long calls = 1;
    while (series(entry, calls) < SERIES_NANOSECONDS) calls *= 2;
    for (int i = 0; i < SERIES; i++) times[i] = series(entry, calls) / (double)calls;
    qsort(times, SERIES, sizeof *times, by_size);
    return times[SERIES / 2];
}

/* ---- lines ---- */
static uint8_t digit(char c) { return (uint8_t)(c <= '9' ? c - '0' : c - 'a' + 10); }

static void read_source(const char *hex) {
    length = 0;
    for (size_t i = 0; hex[0] != '-' && hex[i] != 0; i += 2) source[length++] = (uint8_t)(digit(hex[i]) << 4 | digit(hex[i + 1]));
}

int main(int words, char **word) {
    (void)word;
    static char name[64], hex[2 * SOURCE_ROOM + 1];
    unsigned long long numbers[3];
    while (scanf("%63s %16384s %llu %llx %llu", name, hex, &numbers[0], &numbers[1], &numbers[2]) == 5) {
        const struct entry *entry = entry_of(name);
        read_source(hex);
        number = numbers[0], set = numbers[1], element = numbers[2];
        if (entry->prepare != NULL) entry->prepare();
        if (words > 1) {
            printf("%.1f\n", middle_time(entry));
            continue;
        }
        make_marked(entry);
        printf("%llu ", (unsigned long long)answer);
        printf("%zu\n", deepest(entry));
    }
    return 0;
}
