/* The subgroups of a group as a picture in SVG. */
#ifndef PICTURE_H
#define PICTURE_H

#include "lattice.h"

/* A row an order, a node a subgroup with the number of its layer, a frame a class, a line a maximal inclusion; on standard output. */
void print_picture(const struct lattice *all, const char *name);

#endif
