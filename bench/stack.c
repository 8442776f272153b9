#define _POSIX_C_SOURCE 200809L

#include "stack.h"

#include <pthread.h>
#include <stdlib.h>
#include <string.h>

#include "plans.h"

enum { STACK = 8 << 20, PATTERN = 0xa5, PAGE = 4096 };

struct started {
    void (*call)(void *with);
    void *with;
};

static void *start(void *with)
{
    struct started *s = with;

    s->call(s->with);
    return NULL;
}

static void nothing(void *with)
{
    (void)with;
}

static size_t written(void (*call)(void *with), void *with)
{
    struct started s;
    unsigned char *stack;
    void *block;
    pthread_attr_t attributes;
    pthread_t thread;
    size_t i = 0;

    s.call = call;
    s.with = with;
    if (posix_memalign(&block, PAGE, STACK) != 0)
        give_up("no memory");
    stack = block;
    memset(stack, PATTERN, STACK);
    if (pthread_attr_init(&attributes) != 0 || pthread_attr_setstack(&attributes, stack, STACK) != 0
        || pthread_create(&thread, &attributes, start, &s) != 0 || pthread_join(thread, NULL) != 0)
        give_up("no thread");
    pthread_attr_destroy(&attributes);
    while (i < STACK && stack[i] == PATTERN)
        i++;
    free(block);
    return STACK - i;
}

size_t stack_of(void (*call)(void *with), void *with)
{
    size_t alone = written(nothing, NULL), taken = written(call, with);

    return taken > alone ? taken - alone : 0;
}

void once(void (*call)(void *with), void *with)
{
    call(with);
}
