/* Times as medians of several runs, which take turns. */
#ifndef TIMING_H
#define TIMING_H

#include <stddef.h>

enum { RUNS = 15, MOST_TASKS = 4 };

/* What is timed: `run`, with `before` and `after` around it where they aren't null. */
struct task {
    void (*before)(void *with);
    void (*run)(void *with);
    void (*after)(void *with);
    void *with;
};

/* The times of the last measurement's runs, by task. */
extern double samples[MOST_TASKS][RUNS];

/* From now on the processor's clock, which stands while another program has the core. */
void use_processor_clock(void);
int by_processor_clock(void);

double median(const double *values, size_t count);

/* Runs tasks in turns, and answers how often; the median time of each goes to `medians`, in seconds. */
size_t measure(const struct task *tasks, size_t count, double *medians);

/* The median of the differences of two tasks' runs, of the last measurement. */
double difference(size_t task, size_t less, size_t runs);

#endif
