#include "report.h"

#include <stdarg.h>
#include <stdio.h>
#include <stdlib.h>

enum { MOST_WRITTEN = 40 };

static char current[400] = "start";
static size_t failed, met;
static int expecting;

void case_is(const char *format, ...)
{
    va_list values;

    va_start(values, format);
    vsnprintf(current, sizeof current, format, values);
    va_end(values);
}

int holds(int fact, const char *what)
{
    if (fact)
        return 1;
    if (expecting) {
        met++;
        return 0;
    }
    failed++;
    if (failed <= MOST_WRITTEN)
        printf("%s: not so: %s\n", current, what);
    return 0;
}

size_t failures(void)
{
    return failed;
}

void expect_failures(void)
{
    expecting = 1;
    met = 0;
}

size_t failures_met(void)
{
    expecting = 0;
    return met;
}

void stop(const char *what)
{
    printf("%s: can't go on: %s\n", current, what);
    exit(2);
}

void *room(size_t bytes)
{
    void *at = malloc(bytes == 0 ? 1 : bytes);

    if (at == NULL)
        stop("no memory");
    return at;
}

void group_done(const char *name, size_t cases)
{
    static size_t failed_before;

    printf("firmware: %s: %zu cases, %zu failed\n", name, cases, failed - failed_before);
    fflush(stdout);
    holds(cases > 0, "a group has cases");
    failed_before = failed;
}
