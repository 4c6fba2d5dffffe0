/* Reads texts from standard input, each a length byte and that many bytes, and writes a line for each: number and place of the
   refusal, or 0, the order, and each operation in list order as rotation code and the bits of its translation's three doubles. */
#include <stdint.h>
#include <stdio.h>
#include <string.h>

uint64_t symbol_order(const uint8_t *text, size_t length);
uint64_t symbol_operation(const uint8_t *text, size_t length, size_t index);
double symbol_translation(const uint8_t *text, size_t length, size_t index, uint8_t axis);

int main(void) {
    static uint8_t text[255];
    int length;
    while ((length = getchar()) != EOF) {
        if (fread(text, 1, (size_t)length, stdin) != (size_t)length) return 1;
        uint64_t order = symbol_order(text, (size_t)length);
        if (order >> 16) {
            printf("%u %u\n", (unsigned)(order >> 16), (unsigned)(order & 65535));
            continue;
        }
        printf("0 %u", (unsigned)order);
        for (size_t i = 0; i < order; i++) {
            uint64_t operation = symbol_operation(text, (size_t)length, i);
            printf(" %u", (unsigned)(operation >> 12));
            for (uint8_t axis = 0; axis < 3; axis++) {
                double part = symbol_translation(text, (size_t)length, i, axis);
                uint64_t bits;
                memcpy(&bits, &part, sizeof bits);
                printf(" %016llx", (unsigned long long)bits);
            }
        }
        /* refusal 28 past the end, in the library's own numbers */
        if (symbol_operation(text, (size_t)length, order) != 1 || symbol_translation(text, (size_t)length, order, 0) != 2.0) printf(" no end");
        putchar('\n');
    }
    return 0;
}
