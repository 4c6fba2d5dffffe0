/*
 * A small drawing client: on which layer each subgroup of a Hall symbol's group is drawn. A layer's number is the subgroup's position in the list of
 * subgroups, which the symbol alone decides, so a drawing made today has the layers of one made last year. Conjugate subgroups look alike and get one
 * colour: the number of their class.
 *
 * Build: (cd crates/calls && rt lib --cpu x86-64)
 *        gcc -std=c99 -static -I include examples/layers.c crates/calls/out/libcalls.a -o crates/calls/out/layers
 * Use:   crates/calls/out/layers '-P 4 2 3'
 */
#include <stdio.h>
#include <string.h>
#include "lattice.h"

int main(int argc, char **argv)
{
    static struct lattice all;
    struct lattice_source from = { NULL, 0, 0 };
    uint64_t answer;
    size_t layer;

    if (argc != 2) {
        fprintf(stderr, "use: %s SYMBOL\n", argv[0]);
        return 2;
    }
    from.bytes = (const uint8_t *)argv[1];
    from.length = strlen(argv[1]);
    answer = lattice_gather(&from, &all);
    if (symmetry_refused(answer)) {
        fprintf(stderr, "refused %u %llu: %s\n", symmetry_number(answer), (unsigned long long)symmetry_place(answer), symmetry_reason(symmetry_number(answer)));
        return 1;
    }
    printf("%s: %lu layers, %lu colours\n", argv[1], (unsigned long)all.layers, (unsigned long)all.classes);
    for (layer = 0; layer < all.layers; layer++)
        printf("layer %lu: %u elements, colour %lu, set %012llx\n", (unsigned long)layer, lattice_members(all.sets[layer]),
               (unsigned long)all.class_of[layer], (unsigned long long)all.sets[layer]);
    return 0;
}
