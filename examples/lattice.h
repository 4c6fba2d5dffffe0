/*
 * The subgroups of one group and how they belong together, gathered by the entries of symmetry.h from a symbol's text or from a record. What is
 * gathered here stands once for the small example and for the client of ./layers; nothing here decides anything: every number is an entry's answer.
 */
#ifndef LATTICE_H
#define LATTICE_H

#include "symmetry.h"

/* Room for the subgroups of any symbol or record. */
enum { LATTICE_MOST = SYMMETRY_MOST_SYMBOL_SUBGROUPS };

/* What a group is given by. */
struct lattice_source {
    const uint8_t *bytes;
    size_t length;
    int is_record; /* else a symbol's text */
};

/* Subgroups by their layer, which is the position in the list of subgroups; classes by their position in the list of classes. */
struct lattice {
    size_t order, layers, classes;
    uint64_t sets[LATTICE_MOST], normalizers[LATTICE_MOST];
    size_t class_of[LATTICE_MOST], conjugates[LATTICE_MOST];
};

static inline unsigned lattice_members(uint64_t set)
{
    unsigned count = 0;
    for (; set != 0; set &= set - 1)
        count++;
    return count;
}

/* The layer of a listed subgroup. */
static inline size_t lattice_layer(const struct lattice *all, uint64_t set)
{
    size_t layer = 0;
    while (layer + 1 < all->layers && all->sets[layer] != set)
        layer++;
    return layer;
}

static inline uint64_t lattice_list(const struct lattice_source *from, int classes, uint8_t *sets, size_t length)
{
    if (from->is_record)
        return classes ? symmetry_record_classes(from->bytes, from->length, sets, length) : symmetry_record_subgroups(from->bytes, from->length, sets, length);
    return classes ? symmetry_symbol_classes(from->bytes, from->length, sets, length) : symmetry_symbol_subgroups(from->bytes, from->length, sets, length);
}

static inline uint64_t lattice_normalizer(const struct lattice_source *from, uint64_t set)
{
    return from->is_record ? symmetry_record_normalizer(from->bytes, from->length, set) : symmetry_symbol_normalizer(from->bytes, from->length, set);
}

/* One class: its members get its number, how many they are, and their normalizers. */
static inline uint64_t lattice_class(const struct lattice_source *from, struct lattice *all, size_t number, uint64_t first)
{
    uint8_t alike[8 * SYMMETRY_MOST_ORDER], conjugators[SYMMETRY_MOST_ORDER];
    uint64_t answer, found;
    size_t i;
    found = from->is_record
        ? symmetry_record_conjugates(from->bytes, from->length, first, alike, sizeof alike, conjugators, sizeof conjugators)
        : symmetry_symbol_conjugates(from->bytes, from->length, first, alike, sizeof alike, conjugators, sizeof conjugators);
    if (symmetry_refused(found))
        return found;
    for (i = 0; i < symmetry_value(found); i++) {
        size_t layer = lattice_layer(all, symmetry_set(alike, i));
        answer = lattice_normalizer(from, all->sets[layer]);
        if (symmetry_refused(answer))
            return answer;
        all->class_of[layer] = number;
        all->conjugates[layer] = (size_t)symmetry_value(found);
        all->normalizers[layer] = symmetry_value(answer);
    }
    return 0;
}

/* 0, or the refused answer. */
static inline uint64_t lattice_gather(const struct lattice_source *from, struct lattice *all)
{
    uint8_t sets[8 * LATTICE_MOST];
    uint64_t answer;
    size_t i;
    answer = from->is_record ? symmetry_record_order(from->bytes, from->length) : symmetry_symbol_order(from->bytes, from->length);
    if (symmetry_refused(answer))
        return answer;
    all->order = (size_t)symmetry_value(answer);
    answer = lattice_list(from, 0, sets, sizeof sets);
    if (symmetry_refused(answer))
        return answer;
    all->layers = (size_t)symmetry_value(answer);
    for (i = 0; i < all->layers; i++)
        all->sets[i] = symmetry_set(sets, i);
    answer = lattice_list(from, 1, sets, sizeof sets);
    if (symmetry_refused(answer))
        return answer;
    all->classes = (size_t)symmetry_value(answer);
    for (i = 0; i < all->classes; i++) {
        answer = lattice_class(from, all, i, symmetry_set(sets, i));
        if (symmetry_refused(answer))
            return answer;
    }
    return 0;
}

#endif
