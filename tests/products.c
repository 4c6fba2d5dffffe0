/* Writes what the port's product answers, for tests/compare_products.py. Reads operations in pairs, the left factor first: nine digits by rows and three
   coordinates, a byte each. Writes 13 bytes for each pair: 1 and the product in the same form, or 0 and twelve zeros where an entry has left -1..1.
   With a word on its command line it reads and writes operations as numbers, eight bytes each, lowest first: pairs, and for each what the port answers. */
#include <stdint.h>
#include <stdio.h>

uint64_t product_rows(uint64_t f, uint64_t p, uint64_t g, uint64_t q);
uint64_t product_rest(uint64_t f, uint64_t p, uint64_t g, uint64_t q);
uint64_t number_product(uint64_t f, uint64_t g);

static uint64_t number(const uint8_t *bytes, int count) {
    uint64_t n = 0;
    for (int i = count; i-- > 0;) n = n << 8 | bytes[i];
    return n;
}

static int numbers(void) {
    uint8_t pair[16];
    while (fread(pair, sizeof pair, 1, stdin) == 1) {
        uint64_t n = number_product(number(pair, 8), number(pair + 8, 8));
        for (int i = 0; i < 8; i++) putchar((int)(n >> 8 * i & 255));
    }
    return 0;
}

int main(int words, char **word) {
    (void)word;
    if (words > 1) return numbers();
    uint8_t pair[24];
    while (fread(pair, sizeof pair, 1, stdin) == 1) {
        uint64_t f = number(pair, 8), p = number(pair + 8, 4), g = number(pair + 12, 8), q = number(pair + 20, 4);
        uint64_t rows = product_rows(f, p, g, q), rest = product_rest(f, p, g, q);
        putchar(rest >> 32 == 0);
        for (int i = 0; i < 8; i++) putchar((int)(rows >> 8 * i & 255));
        for (int i = 0; i < 4; i++) putchar((int)(rest >> 8 * i & 255));
    }
    return 0;
}
