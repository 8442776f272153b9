#include "tips.h"

#include <stdio.h>
#include <stdlib.h>
#include <string.h>

#include "goals.h"
#include "ours.h"
#include "plans.h"
#include "stack.h"
#include "timing.h"

enum { SETTINGS = 64, LOWER = 8 };

/* A store, and what its calls are asked for: its roots and the settings take turns. */
struct tipping {
    char name[32];
    struct ours ours;
    /* one setting after the other */
    uint8_t *settings;
    size_t count;
    size_t turn;
    long answers;
};

static struct tipping tipping_of(const char *name, struct plan plan)
{
    struct tipping t;
    struct file file = text_file(&plan);
    uint64_t state = 0x71b5;
    size_t i;

    memset(&t, 0, sizeof t);
    snprintf(t.name, sizeof t.name, "%s", name);
    t.ours = ours_open(plan.levels, plan.count, plan.count);
    if (ours_load(&t.ours, file.bytes, file.len) != 0)
        give_up("a generated file is refused");
    t.count = SETTINGS;
    t.settings = room_for(SETTINGS * (size_t)plan.levels, 1);
    for (i = 0; i < SETTINGS * (size_t)plan.levels; i++)
        t.settings[i] = draw(&state) % 2;
    drop_file(&file);
    drop_plan(&plan);
    return t;
}

/* At the setting in which all levels are no. */
static struct tipping at_no(struct tipping t)
{
    t.count = 1;
    memset(t.settings, 0, t.ours.levels);
    return t;
}

static struct tipping without_work(struct tipping t)
{
    t.ours.work_len = 0;
    return t;
}

static void drop_tipping(struct tipping *t)
{
    ours_close(&t->ours);
    free(t->settings);
}

static zt_edge root_of(const struct tipping *t)
{
    return t->ours.roots[t->turn % t->ours.nroots];
}

static uint8_t *setting_of(const struct tipping *t)
{
    return t->settings + t->turn % t->count * t->ours.levels;
}

static void find_tip(void *with)
{
    struct tipping *t = with;

    t->answers += ours_tip(&t->ours, root_of(t), setting_of(t));
    t->turn++;
}

/* Node 1 has no way: this is the check of the store and of the setting. */
static void check_tip(void *with)
{
    struct tipping *t = with;

    t->answers += ours_tip(&t->ours, 1, setting_of(t));
    t->turn++;
}

static void evaluate(void *with)
{
    struct tipping *t = with;

    t->answers += ours_evaluate(&t->ours, root_of(t), setting_of(t));
    t->turn++;
}

static void check_evaluation(void *with)
{
    struct tipping *t = with;

    t->answers += ours_evaluate(&t->ours, 1, setting_of(t));
    t->turn++;
}

/* Does the flip of a level turn the answer over? By evaluations. */
static int turns_over(const struct tipping *t, size_t level)
{
    uint8_t *setting = setting_of(t);
    int answer = ours_evaluate(&t->ours, root_of(t), setting), other;

    setting[level] ^= 1;
    other = ours_evaluate(&t->ours, root_of(t), setting);
    setting[level] ^= 1;
    return other != answer;
}

/* What is found must be right, or its time says nothing: its flip turns the answer over, and those of some lower levels don't. */
static void hold_tips(struct tipping *t)
{
    uint64_t state = 0xf11b;
    size_t lower, i;

    for (t->turn = 0; t->turn < t->count; t->turn++) {
        int level = ours_tip(&t->ours, root_of(t), setting_of(t));

        if (level >= 0 && !turns_over(t, (size_t)level))
            give_up("a tipping point doesn't turn the answer over");
        lower = level >= 0 ? (size_t)level : t->ours.levels;
        for (i = 0; i < LOWER && lower > 0; i++)
            if (turns_over(t, draw(&state) % lower))
                give_up("a lower level turns the answer over");
    }
}

/* medians: the tipping point, its check, the evaluation, its check. */
static size_t time_tips(struct tipping *t, double *medians)
{
    struct task tasks[4] = {{NULL, find_tip, NULL, NULL}, {NULL, check_tip, NULL, NULL}, {NULL, evaluate, NULL, NULL},
        {NULL, check_evaluation, NULL, NULL}};
    size_t i;

    hold_tips(t);
    for (i = 0; i < 4; i++)
        tasks[i].with = t;
    return measure(tasks, 4, medians);
}

static void call_row(struct tipping t)
{
    double medians[4];

    time_tips(&t, medians);
    printf("  %-14s %11.2f %11.2f %15.2f\n", t.name, medians[0] * 1e6, medians[1] * 1e6, medians[2] * 1e6);
    fflush(stdout);
    drop_tipping(&t);
}

static void tell_calls(void)
{
    printf("\nTipping point: the lowest level whose flip turns one root's answer over at one setting; each call checks the store\n");
    printf("  %-14s %11s %11s %15s\n", "store", "call us", "check us", "evaluation's us");
    call_row(tipping_of("100", random_plan(24, 100, 0)));
    call_row(tipping_of("4,000", random_plan(48, 4000, 0)));
    call_row(tipping_of("32,000", random_plan(64, 32000, 0)));
    call_row(tipping_of("32,000 deep", random_plan(ZT_MOST_LEVELS, 32000, 0)));
}

/* The walk of an evaluation times the levels is what a caller would take that flips each level and evaluates, the checks apart. */
static void way_row(struct tipping t, const char *work, int is_goal)
{
    double medians[4], levels = t.ours.levels;
    size_t runs = time_tips(&t, medians);
    double tip = difference(0, 1, runs), walks = difference(2, 3, runs) * levels;

    printf("  %-22s %-8s %11.2f %11.2f %13.2f %13.1f %8.1f\n", t.name, work, medians[1] * 1e6, tip * 1e6, walks / levels * 1e6, walks * 1e6,
        walks / tip);
    fflush(stdout);
    if (is_goal)
        note(TIP_GOAL, walks / tip, work, t.name);
    drop_tipping(&t);
}

static void tell_ways(void)
{
    printf("\nWay of a tipping point: the call without the check, where all levels are no; and an evaluation's walk, and one for each level.\n");
    printf("Where three levels are asked for no flip turns the answer over; a parity's first one does\n");
    printf("  %-22s %-8s %11s %11s %13s %13s %8s\n", "levels", "work", "check us", "us", "one walk us", "all walks us", "times");
    way_row(at_no(tipping_of("64, three of them", threshold_plan(64, 3))), "with", 0);
    way_row(without_work(at_no(tipping_of("64, three of them", threshold_plan(64, 3)))), "without", 0);
    way_row(at_no(tipping_of("4,096, three of them", threshold_plan(ZT_MOST_LEVELS, 3))), "with", 1);
    way_row(without_work(at_no(tipping_of("4,096, three of them", threshold_plan(ZT_MOST_LEVELS, 3)))), "without", 0);
    way_row(at_no(tipping_of("4,096, parity", parity_plan(ZT_MOST_LEVELS))), "with", 1);
    way_row(without_work(at_no(tipping_of("4,096, parity", parity_plan(ZT_MOST_LEVELS)))), "without", 0);
}

static void stack_row(struct tipping t)
{
    size_t taken[2];

    taken[0] = stack_of(find_tip, &t);
    t.ours.work_len = 0;
    taken[1] = stack_of(find_tip, &t);
    printf("  %-14s %11zu %11zu\n", t.name, taken[0], taken[1]);
    note(TIP_STACK, (double)taken[0] / 1024, "with", t.name);
    note(TIP_STACK, (double)taken[1] / 1024, "without", t.name);
    drop_tipping(&t);
}

static void tell_stack(void)
{
    printf("\nPeak stack of a tipping point in bytes, with work and without\n  %-14s %11s %11s\n", "", "with", "without");
    stack_row(tipping_of("32,000", random_plan(64, 32000, 0)));
    stack_row(at_no(tipping_of("4,096 levels", threshold_plan(ZT_MOST_LEVELS, 3))));
}

void tell_tips(void)
{
    tell_calls();
    tell_ways();
    tell_stack();
}
