/* Prints the tables of symbols and records that the port makes: from standard input 's' or 'r', a length byte and that many bytes, time and again;
   for each a line with the order, and then the cells by rows. */
#include <stdint.h>
#include <stdio.h>

uint64_t symbol_table_order(const uint8_t *text, size_t length);
uint64_t symbol_table_cell(const uint8_t *text, size_t length, size_t place);
uint64_t record_table_order(const uint8_t *bytes, size_t length);
uint64_t record_table_cell(const uint8_t *bytes, size_t length, size_t place);

int main(void) {
    static uint8_t given[255];
    int kind;
    while ((kind = getchar()) != EOF) {
        int length = getchar();
        if (length < 0 || fread(given, 1, (size_t)length, stdin) != (size_t)length) return 1;
        size_t size = (size_t)length;
        uint64_t order = kind == 's' ? symbol_table_order(given, size) : record_table_order(given, size);
        printf("%u", (unsigned)order);
        for (size_t place = 0; place < order * order; place++)
            printf(" %u", (unsigned)(kind == 's' ? symbol_table_cell(given, size, place) : record_table_cell(given, size, place)));
        putchar('\n');
    }
    return 0;
}
