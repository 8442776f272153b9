/*
 * Turns an old store into a new one, and evaluates a round there:
 *
 *     widen SETTING
 *
 * SETTING has a character for each of the two points, gate and dock, 1 for yes and 0 for no. Two lines are written: how many nodes were turned, and
 * whether the round `counts` or `does not count` for the root that was kept. A refusal is written as `refused N line M`, and the status is 1.
 *
 * A reader whose firmware had edges of 16 bits keeps its store, and the roots that loads gave it, in lists of that width. With the new firmware it
 * turns the store once, into lists that it lends for good; the roots stay the numbers that they were. Here the old store has the two nodes of
 * plan.dddmp: its root 3, full, counts where both points are yes.
 */
#include <stdio.h>
#include <stdlib.h>
#include <string.h>

#include "zonetweed.h"

enum { LEVELS = 2, OLD_SLOTS = 4, SLOTS = 16 };

/* What the old firmware left: the store, whose first slot is that of node 1, and a root. */
static const zt_old_index old_count = 3;
static const uint16_t old_level[OLD_SLOTS] = {0, 1, 0};
static const zt_old_edge old_then[OLD_SLOTS] = {0, 1, 2}, old_els[OLD_SLOTS] = {0, -1, -1};
static const zt_old_index old_next[OLD_SLOTS] = {0}, old_heads[ZT_BUCKETS] = {[1] = 3, [255] = 2};
static const zt_old_edge old_root = 3;

/* The new store. It is output, so it needn't be cleared, and it may have more slots than the old one had. */
static zt_index count, next[SLOTS], heads[ZT_BUCKETS];
static uint16_t level[SLOTS];
static zt_edge then[SLOTS], els[SLOTS];

/* Work for all nodes that the store can have. */
static zt_index work[ZT_WORK_ENTRIES(SLOTS)];

static void fail(const char *what)
{
    fprintf(stderr, "widen: %s\n", what);
    exit(2);
}

static void refuse(uint8_t refusal, size_t line)
{
    if (printf("refused %u line %zu\n", refusal, line) < 0 || fflush(stdout) != 0)
        fail("can't write the refusal");
    exit(1);
}

static void turn(void)
{
    struct zt_widen_answer turned = zt_widen(LEVELS, old_count, old_level, OLD_SLOTS, old_then, OLD_SLOTS, old_els, OLD_SLOTS,
        old_next, OLD_SLOTS, old_heads, ZT_BUCKETS, &count, level, SLOTS, then, SLOTS, els, SLOTS, next, SLOTS, heads, ZT_BUCKETS,
        work, ZT_WORK_ENTRIES(SLOTS));

    if (turned.refusal != 0)
        refuse(turned.refusal, turned.line);
    if (printf("turned %lu nodes\n", (unsigned long)count) < 0)
        fail("can't write");
}

/* A character other than 0 and 1 becomes a byte other than 0 and 1, and fewer characters are no setting: both are refused with 4. */
static void evaluate(const char *text)
{
    uint8_t setting[LEVELS];
    struct zt_evaluate_answer evaluated;
    size_t i, len = strlen(text);

    for (i = 0; i < len; i++)
        setting[i] = (uint8_t)(text[i] - '0');
    evaluated = zt_evaluate(LEVELS, count, level, SLOTS, then, SLOTS, els, SLOTS, next, SLOTS, heads, ZT_BUCKETS, old_root, setting,
        len, work, ZT_WORK_ENTRIES(SLOTS));
    if (evaluated.refusal != 0)
        refuse(evaluated.refusal, evaluated.line);
    if (printf("full %s\n", evaluated.answer ? "counts" : "does not count") < 0)
        fail("can't write");
}

int main(int argc, char **argv)
{
    if (argc != 2)
        fail("usage: widen SETTING");
    if (strlen(argv[1]) > LEVELS)
        fail("too many points in the setting");
    turn();
    evaluate(argv[1]);
    return fflush(stdout) == 0 ? 0 : 2;
}
