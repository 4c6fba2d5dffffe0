/* A component off the grid comes back with its bits unchanged, a NaN's payload among them: the one thing about the way back from
   doubles that its contract cannot say. Prints 'N passed, M failed' and exits with 1 where M is not 0. */
#include <stdint.h>
#include <stdio.h>
#include <string.h>

uint8_t off_grid_index(double x, double y, double z);
double off_grid_component(double x, double y, double z);

static double of_bits(uint64_t bits) {
    double value;
    memcpy(&value, &bits, sizeof value);
    return value;
}

static uint64_t bits_of(double value) {
    uint64_t bits;
    memcpy(&bits, &value, sizeof bits);
    return bits;
}

int main(void) {
    /* quiet NaNs of both signs with payloads, signalling ones (on x86-64, where a double is moved and never converted, they come back as they
       went), -0.0, 1.0, the smallest subnormal, both infinities, -1/12, and the neighbours of 1/12 */
    const uint64_t strangers[] = {
        0x7ff0000000000001, 0x7ff0deadbeef1234, 0x7ff7ffffffffffff, 0xfff0000000000001, 0xfff4000000000000, 0x7ff8000000000000, 0x7ff8000000000001, 0x7ffdeadbeef12345, 0xfff8000000000000, 0xffffffffffffffff,
        0x8000000000000000, 0x3ff0000000000000, 0x0000000000000001, 0x7ff0000000000000, 0xfff0000000000000,
        0xbfb5555555555555, 0x3fb5555555555554, 0x3fb5555555555556,
    };
    const double good = 11.0 / 12.0;
    int passed = 0, failed = 0;
    for (size_t i = 0; i < sizeof strangers / sizeof *strangers; i++) {
        for (int index = 0; index < 3; index++) {
            double component[3] = { good, good, good };
            for (int k = index; k < 3; k++) component[k] = of_bits(strangers[i] ^ (k == index ? 0 : 2));
            component[index] = of_bits(strangers[i]);
            int right = off_grid_index(component[0], component[1], component[2]) == index
                && bits_of(off_grid_component(component[0], component[1], component[2])) == strangers[i];
            if (right) passed++;
            else failed++, printf("%016llx at %d\n", (unsigned long long)strangers[i], index);
        }
    }
    for (int k = 0; k < 12; k++) {
        if (off_grid_index(k / 12.0, good, 0.0) == 3) passed++;
        else failed++, printf("%d/12\n", k);
    }
    printf("%d passed, %d failed\n", passed, failed);
    return failed != 0;
}
