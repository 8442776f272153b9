#include "examples.h"

#include <stdio.h>
#include <stdlib.h>
#include <string.h>

#include "goals.h"
#include "ours.h"
#include "plans.h"
#include "stack.h"
#include "timing.h"

enum { SETTINGS = 64 };

/* A store, and what its calls are asked for: its roots, the wanted answers and the settings take turns. */
struct walking {
    char name[32];
    struct ours ours;
    /* what an example gives */
    uint8_t *setting;
    /* where roots are evaluated, one setting after the other */
    uint8_t *settings;
    size_t count;
    /* only yes is wanted */
    int only_yes;
    size_t turn;
    unsigned answers;
};

/* A constant has one answer only, so for the other one its example is refused. */
static void leave_out_constants(struct ours *s)
{
    size_t i, kept = 0;

    for (i = 0; i < s->nroots; i++)
        if (s->roots[i] != 1 && s->roots[i] != -1)
            s->roots[kept++] = s->roots[i];
    s->nroots = kept;
}

static struct walking walking_of(const char *name, struct plan plan)
{
    struct walking w;
    struct file file = text_file(&plan);
    uint64_t state = 0x5e771;
    size_t i;

    memset(&w, 0, sizeof w);
    snprintf(w.name, sizeof w.name, "%s", name);
    w.ours = ours_open(plan.levels, plan.count, plan.count);
    if (ours_load(&w.ours, file.bytes, file.len) != 0)
        give_up("a generated file is refused");
    leave_out_constants(&w.ours);
    w.setting = room_for(plan.levels, 1);
    w.count = SETTINGS;
    w.settings = room_for(SETTINGS * (size_t)plan.levels, 1);
    for (i = 0; i < SETTINGS * (size_t)plan.levels; i++)
        w.settings[i] = draw(&state) % 2;
    drop_file(&file);
    drop_plan(&plan);
    return w;
}

/* Roots are evaluated where an example of the first one says yes: so both walks take the same way. */
static struct walking along_example(struct walking w)
{
    w.only_yes = 1;
    w.count = 1;
    ours_example(&w.ours, w.ours.roots[0], 1, w.settings);
    return w;
}

static void drop_walking(struct walking *w)
{
    ours_close(&w->ours);
    free(w->setting);
    free(w->settings);
}

static zt_edge root_of(const struct walking *w)
{
    return w->ours.roots[w->turn % w->ours.nroots];
}

static uint8_t wanted_of(const struct walking *w)
{
    return w->only_yes || w->turn % 2 == 0;
}

static const uint8_t *setting_of(const struct walking *w)
{
    return w->settings + w->turn % w->count * w->ours.levels;
}

static void find_example(void *with)
{
    struct walking *w = with;

    ours_example(&w->ours, root_of(w), wanted_of(w), w->setting);
    w->turn++;
}

/* Node 1 needs no walk: this is the check of the store, and the zeros of the setting. */
static void check_example(void *with)
{
    struct walking *w = with;

    ours_example(&w->ours, 1, 1, w->setting);
    w->turn++;
}

static void evaluate(void *with)
{
    struct walking *w = with;

    w->answers += (unsigned)ours_evaluate(&w->ours, root_of(w), setting_of(w));
    w->turn++;
}

static void check_evaluation(void *with)
{
    struct walking *w = with;

    w->answers += (unsigned)ours_evaluate(&w->ours, 1, setting_of(w));
    w->turn++;
}

/* What is found must be right, or its time says nothing. */
static void hold_examples(struct walking *w)
{
    for (w->turn = 0; w->turn < 2 * w->ours.nroots; w->turn++) {
        ours_example(&w->ours, root_of(w), wanted_of(w), w->setting);
        if (ours_evaluate(&w->ours, root_of(w), w->setting) != wanted_of(w))
            give_up("an example isn't answered as wanted");
    }
}

/* medians: the example, its check, the evaluation, its check. */
static size_t time_walks(struct walking *w, double *medians)
{
    struct task tasks[4] = {{NULL, find_example, NULL, NULL}, {NULL, check_example, NULL, NULL}, {NULL, evaluate, NULL, NULL},
        {NULL, check_evaluation, NULL, NULL}};
    size_t i;

    hold_examples(w);
    for (i = 0; i < 4; i++)
        tasks[i].with = w;
    return measure(tasks, 4, medians);
}

static void call_row(struct walking w)
{
    double medians[4];

    time_walks(&w, medians);
    printf("  %-14s %11.2f %11.2f %15.2f\n", w.name, medians[0] * 1e6, medians[1] * 1e6, medians[2] * 1e6);
    fflush(stdout);
    drop_walking(&w);
}

static void tell_calls(void)
{
    printf("\nExample: the first setting at which one root answers as wanted; each call checks the store\n");
    printf("  %-14s %11s %11s %15s\n", "store", "call us", "check us", "evaluation's us");
    call_row(walking_of("100", random_plan(24, 100, 0)));
    call_row(walking_of("4,000", random_plan(48, 4000, 0)));
    call_row(walking_of("32,000", random_plan(64, 32000, 0)));
    call_row(walking_of("32,000 deep", random_plan(ZT_MOST_LEVELS, 32000, 0)));
}

static void walk_row(struct walking w)
{
    double medians[4], levels = w.ours.levels;
    size_t runs = time_walks(&w, medians);
    double example = difference(0, 1, runs), evaluation = difference(2, 3, runs);

    printf("  %-22s %11.3f %11.2f %15.3f %11.2f %6.2f\n", w.name, example * 1e6, example * 1e9 / levels, evaluation * 1e6,
        evaluation * 1e9 / levels, example / evaluation);
    fflush(stdout);
    note(EXAMPLE_GOAL, example / evaluation, "walk", w.name);
    drop_walking(&w);
}

static void tell_walks(void)
{
    printf("\nWalk of an example: the call without the check, down all levels; and the walk of an evaluation\n");
    printf("  %-22s %11s %11s %15s %11s %6s\n", "levels", "us", "ns/level", "evaluation's us", "ns/level", "times");
    walk_row(walking_of("64, parity", parity_plan(64)));
    walk_row(walking_of("4,096, parity", parity_plan(ZT_MOST_LEVELS)));
    walk_row(along_example(walking_of("64, ands and ors", and_or_plan(64))));
    walk_row(along_example(walking_of("4,096, ands and ors", and_or_plan(ZT_MOST_LEVELS))));
}

static void stack_row(struct walking w)
{
    size_t taken[2];

    taken[0] = stack_of(find_example, &w);
    w.ours.work_len = 0;
    taken[1] = stack_of(find_example, &w);
    printf("  %-14s %11zu %11zu\n", w.name, taken[0], taken[1]);
    note(EXAMPLE_STACK, (double)taken[0] / 1024, "with", w.name);
    note(EXAMPLE_STACK, (double)taken[1] / 1024, "without", w.name);
    drop_walking(&w);
}

static void tell_stack(void)
{
    printf("\nPeak stack of an example in bytes, with work and without\n  %-14s %11s %11s\n", "", "with", "without");
    stack_row(walking_of("32,000", random_plan(64, 32000, 0)));
    stack_row(walking_of("4,096 levels", parity_plan(ZT_MOST_LEVELS)));
}

void tell_examples(void)
{
    tell_calls();
    tell_walks();
    tell_stack();
}
