/* The marks that bound a measured call: numbers of system calls that Linux does not have, so that a program with marks runs anywhere and the plugin
   that counts instructions sees them. */
#ifndef MARKS_H
#define MARKS_H

enum { OPENING_MARK = 1000001, CLOSING_MARK = 1000002 };

#endif
