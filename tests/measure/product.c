/* One product of two operations, of a test library, as a call of measure.c: SOURCE is the pair, nine digits by rows and three coordinates each. */
#include "measure.h"

uint64_t product_rest(uint64_t f, uint64_t p, uint64_t g, uint64_t q);

static uint64_t f, p, g, q;

static uint64_t packed(const uint8_t *bytes, int count) {
    uint64_t n = 0;
    for (int i = count; i-- > 0;) n = n << 8 | bytes[i];
    return n;
}

static void take(void) { f = packed(source, 8), p = packed(source + 8, 4), g = packed(source + 12, 8), q = packed(source + 20, 4); }
static void product(void) { answer = product_rest(f, p, g, q); }

const struct entry others[] = { { "product", product, take }, { NULL, NULL, NULL } };
