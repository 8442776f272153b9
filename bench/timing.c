#define _POSIX_C_SOURCE 200809L

#include "timing.h"

#include <stdlib.h>
#include <string.h>
#include <time.h>

enum { LEAST_RUNS = 3 };

/* How long a run is to take, and all runs of a task at most, in seconds. */
#define RUN 0.004
#define ALL_RUNS 4.0

static clockid_t clock_used = CLOCK_MONOTONIC;

void use_processor_clock(void)
{
    clock_used = CLOCK_PROCESS_CPUTIME_ID;
}

int by_processor_clock(void)
{
    return clock_used != CLOCK_MONOTONIC;
}

static double now(void)
{
    struct timespec t;

    clock_gettime(clock_used, &t);
    return (double)t.tv_sec + 1e-9 * (double)t.tv_nsec;
}

static double seconds(const struct task *t, size_t times)
{
    double sum = 0, start = now();
    size_t i;

    if (t->before == NULL && t->after == NULL) {
        for (i = 0; i < times; i++)
            t->run(t->with);
        return (now() - start) / (double)times;
    }
    for (i = 0; i < times; i++) {
        if (t->before != NULL)
            t->before(t->with);
        start = now();
        t->run(t->with);
        sum += now() - start;
        if (t->after != NULL)
            t->after(t->with);
    }
    return sum / (double)times;
}

double samples[MOST_TASKS][RUNS];

static int ascending(const void *a, const void *b)
{
    double x = *(const double *)a, y = *(const double *)b;

    return x < y ? -1 : x > y;
}

double median(const double *values, size_t count)
{
    double sorted[RUNS];

    memcpy(sorted, values, count * sizeof *sorted);
    qsort(sorted, count, sizeof *sorted, ascending);
    return count % 2 == 1 ? sorted[count / 2] : (sorted[count / 2 - 1] + sorted[count / 2]) / 2;
}

size_t measure(const struct task *tasks, size_t count, double *medians)
{
    size_t times[MOST_TASKS], runs = RUNS, i, r;
    double all = 0;

    for (i = 0; i < count; i++) {
        double once = seconds(&tasks[i], 1);

        if (once < ALL_RUNS / RUNS)
            once = seconds(&tasks[i], 1 + (size_t)(RUN / 4 / (once + 1e-7)));
        times[i] = 1 + (size_t)(RUN / (once + 1e-9));
        all += once * (double)times[i];
    }
    while (runs > LEAST_RUNS && all * (double)runs > ALL_RUNS)
        runs--;
    for (r = 0; r < runs; r++)
        for (i = 0; i < count; i++)
            samples[i][r] = seconds(&tasks[i], times[i]);
    for (i = 0; i < count; i++)
        medians[i] = median(samples[i], runs);
    return runs;
}

double difference(size_t task, size_t less, size_t runs)
{
    double differences[RUNS];
    size_t i;

    for (i = 0; i < runs; i++)
        differences[i] = samples[task][i] - samples[less][i];
    return median(differences, runs);
}
