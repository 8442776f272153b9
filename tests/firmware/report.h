/* What the tests count and write. */
#ifndef REPORT_H
#define REPORT_H

#include <stddef.h>

/* Names the case that is tried; it is written before each thing that doesn't hold. */
void case_is(const char *format, ...);

/* One thing that must hold of the case. Answers whether it does. */
int holds(int fact, const char *what);

/* How many things didn't hold so far. */
size_t failures(void);

/* While a change is tried that must be noticed, what doesn't hold is counted apart and not written. */
void expect_failures(void);
size_t failures_met(void);

/* Ends the program where memory or a file of the tests isn't there. */
void stop(const char *what);
void *room(size_t bytes);

/* The summary of a group. */
void group_done(const char *name, size_t cases);

#endif
