#include "turns.h"

#include <stdio.h>
#include <stdlib.h>
#include <string.h>

#include "goals.h"
#include "ours.h"
#include "plans.h"
#include "stack.h"
#include "timing.h"

/* An old store without a free slot, and the new one that it is turned into. */
struct turning {
    struct ours ours;
    uint16_t *level;
    zt_old_edge *then, *els;
    zt_old_index *next, heads[ZT_BUCKETS];
    uint8_t *setting;
};

/* The lists of a store whose numbers have 16 bits: a bucket is the same at both widths, so the chains are too. */
static void take_narrow(struct turning *t, const struct ours *from)
{
    size_t i;

    t->level = room_for(from->slots, sizeof *t->level);
    t->then = room_for(from->slots, sizeof *t->then);
    t->els = room_for(from->slots, sizeof *t->els);
    t->next = room_for(from->slots, sizeof *t->next);
    for (i = 0; i < from->slots; i++) {
        t->level[i] = from->level[i];
        t->then[i] = (zt_old_edge)from->then[i];
        t->els[i] = (zt_old_edge)from->els[i];
        t->next[i] = (zt_old_index)from->next[i];
    }
    for (i = 0; i < ZT_BUCKETS; i++)
        t->heads[i] = (zt_old_index)from->heads[i];
}

static struct turning turning_of(struct plan plan)
{
    struct turning t;
    struct file f = text_file(&plan);

    memset(&t, 0, sizeof t);
    t.ours = ours_open(plan.levels, plan.count, plan.count);
    if (ours_load(&t.ours, f.bytes, f.len) != 0 || t.ours.count != plan.count)
        give_up("a generated file is refused");
    take_narrow(&t, &t.ours);
    t.setting = room_for(plan.levels, 1);
    drop_file(&f);
    drop_plan(&plan);
    return t;
}

static void drop_turning(struct turning *t)
{
    ours_close(&t->ours);
    free(t->level), free(t->then), free(t->els), free(t->next);
    free(t->setting);
}

static void turn(void *with)
{
    struct turning *t = with;
    struct ours *s = &t->ours;
    struct zt_widen_answer answer = zt_widen(s->levels, ZT_OLD_MOST_NODES, t->level, ZT_OLD_MOST_NODES, t->then, ZT_OLD_MOST_NODES,
        t->els, ZT_OLD_MOST_NODES, t->next, ZT_OLD_MOST_NODES, t->heads, ZT_BUCKETS, &s->count, s->level, s->slots, s->then, s->slots,
        s->els, s->slots, s->next, s->slots, s->heads, ZT_BUCKETS, s->work, s->work_len);

    if (answer.refusal != 0)
        give_up("an old store is refused");
}

static void check_new(void *with)
{
    struct turning *t = with;

    ours_evaluate(&t->ours, 1, t->setting);
}

/* The old store turned into a new one of so many slots, with work for the old one's nodes or without. */
static void turn_row(struct turning *t, const char *slots, size_t new_slots, size_t work_len)
{
    struct task tasks[2] = {{NULL, turn, NULL, NULL}, {NULL, check_new, NULL, NULL}};
    struct turning row = *t;
    double medians[2];
    size_t taken;

    row.ours = ours_open(t->ours.levels, new_slots, 1);
    row.ours.work_len = work_len;
    tasks[0].with = tasks[1].with = &row;
    turn(&row);
    measure(tasks, 2, medians);
    taken = stack_of(turn, &row);
    printf("  %-14s %-8s %11.1f %11.1f %8.2f %11zu\n", slots, work_len == 0 ? "without" : "with", medians[0] * 1e6, medians[1] * 1e6,
        medians[0] / medians[1], taken);
    fflush(stdout);
    note(TURN_STACK, (double)taken / 1024, work_len == 0 ? "without" : "with", slots);
    ours_close(&row.ours);
}

void tell_turns(void)
{
    struct turning t = turning_of(random_plan(64, ZT_OLD_MOST_NODES, 0));

    printf("\nTurn: an old store of %d nodes into a new one, with work for its nodes and without, beside the check of the new one\n",
        ZT_OLD_MOST_NODES);
    printf("  %-14s %-8s %11s %11s %8s %11s\n", "new slots", "work", "us", "check us", "times", "stack");
    turn_row(&t, "32,767", ZT_OLD_MOST_NODES, ZT_WORK_ENTRIES(ZT_OLD_MOST_NODES));
    turn_row(&t, "32,767", ZT_OLD_MOST_NODES, 0);
    turn_row(&t, "1,000,000", ZT_MOST_NODES, ZT_WORK_ENTRIES(ZT_OLD_MOST_NODES));
    drop_turning(&t);
}
