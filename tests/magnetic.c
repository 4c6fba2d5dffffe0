/* Reads texts from standard input, each a length byte and that many bytes, and writes a line for each, read as a magnetic symbol: number and
   place of the refusal, or 0, the letter, the count, and each generator as flag, rotation code, x, y and z. */
#include <stdint.h>
#include <stdio.h>

uint64_t magnetic_symbol_answer(const uint8_t *text, size_t length);
uint64_t magnetic_symbol_generator(const uint8_t *text, size_t length, uint64_t index);
uint64_t magnetic_symbol_flag(const uint8_t *text, size_t length, uint64_t index);

int main(void) {
    static uint8_t text[255];
    int length;
    while ((length = getchar()) != EOF) {
        if (fread(text, 1, (size_t)length, stdin) != (size_t)length) return 1;
        uint64_t answer = magnetic_symbol_answer(text, (size_t)length);
        unsigned flags = 0;
        for (unsigned i = 0; i < 9; i++) flags += (unsigned)magnetic_symbol_flag(text, (size_t)length, i) << i;
        if (answer >> 16) {
            printf("%u %u%s\n", (unsigned)(answer >> 16), (unsigned)(answer & 65535), flags ? " with flags" : "");
            continue;
        }
        unsigned count = answer & 255;
        printf("0 %c %u", (char)(answer >> 8), count);
        for (unsigned i = 0; i < count; i++) {
            uint64_t generator = magnetic_symbol_generator(text, (size_t)length, i);
            printf(" %u %u %u %u %u", flags >> i & 1, (unsigned)(generator >> 12), (unsigned)(generator >> 8 & 15), (unsigned)(generator >> 4 & 15), (unsigned)(generator & 15));
        }
        puts(flags >> count ? " flags past the generators" : "");
    }
    return 0;
}
