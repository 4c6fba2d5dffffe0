/* The calls of the Rust and of gemmi that are measured beside the port's, on the same inputs and in the same run. What a call starts from is made before
   its marks, and what it makes is freed within them. */
#include <string.h>
#include <sys/types.h>
#include "measure.h"

/* Of oracle/harness/measured.rs. */
void rust_given_list(const uint8_t *text, size_t length);
void rust_given_group(uint64_t order, const uint8_t *cells, size_t length);
uint64_t rust_operations(const uint8_t *text, size_t length);
uint64_t rust_table(void);
uint64_t rust_subgroups(void);
uint64_t rust_classes(void);
/* Of gemmi.cpp. */
uint64_t gemmi_operations(const char *text);

static void list(void) { rust_given_list(source, length); }
static void group(void) { rust_given_group(number, source, length); }
static void operations(void) { answer = rust_operations(source, length); }
static void table(void) { answer = rust_table(); }
static void subgroups(void) { answer = rust_subgroups(); }
static void classes(void) { answer = rust_classes(); }

/* Gemmi writes the marks ^ and = as ' and ". */
static char spelled[SOURCE_ROOM + 1];

static void spell(void) {
    for (size_t i = 0; i < length; i++) spelled[i] = (char)(source[i] == '^' ? '\'' : source[i] == '=' ? '"' : source[i]);
    spelled[length] = 0;
}

static void operations_by_gemmi(void) { answer = gemmi_operations(spelled); }

const struct entry others[] = {
    { "rust_operations", operations, NULL }, { "rust_table", table, list },
    { "rust_subgroups", subgroups, group }, { "rust_classes", classes, group },
    { "gemmi_operations", operations_by_gemmi, spell },
    { NULL, NULL, NULL },
};

/* In place of the C library's: the Rust takes the keys of its hash tables from here, once, and each further table has the next ones. So counts are the same
   in every run. */
ssize_t getrandom(void *buffer, size_t size, unsigned flags) {
    (void)flags;
    memset(buffer, 0x5a, size);
    return (ssize_t)size;
}
