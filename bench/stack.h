/* Calls whose stack or instructions are counted. */
#ifndef STACK_H
#define STACK_H

#include <stddef.h>

/* Runs `call` on a stack of its own that was filled with a pattern, and answers how much of it was written. */
size_t stack_of(void (*call)(void *with), void *with);

/* Just the call, from a function that a profiler can be told to start at: `valgrind --tool=callgrind --toggle-collect=once`. */
void once(void (*call)(void *with), void *with);

#endif
