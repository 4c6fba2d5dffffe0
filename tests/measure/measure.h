/* What measure.c and beside.c share: what a call is given, what it answers, and the calls themselves. */
#ifndef MEASURE_H
#define MEASURE_H

#include <stddef.h>
#include <stdint.h>

enum { SOURCE_ROOM = 8192 };

extern uint8_t source[SOURCE_ROOM];
extern size_t length;
extern uint64_t number;
extern volatile uint64_t answer;

/* A call, and what has to be done before its marks, or NULL. */
struct entry {
    const char *name;
    void (*make)(void), (*prepare)(void);
};

/* The calls of beside.c, ended by one without a name; no list where it is not linked. */
extern const struct entry others[] __attribute__((weak));

#endif
