#include "joins.h"

#include <stdio.h>
#include <stdlib.h>
#include <string.h>

#include "buddy.h"
#include "goals.h"
#include "ours.h"
#include "pairs.h"
#include "plans.h"
#include "stack.h"
#include "timing.h"

/* From so many nodes of both roots on a join counts for the goal; and plans of a site have at most so many levels. */
enum { LARGE = 500, PLAN_LEVELS = 64 };

static const char *const names[OPS] = {"and", "or", "xor"};

/* A pair of roots in a store that has no other nodes, and what is done with it. */
struct joining {
    char name[32];
    struct ours ours;
    zt_edge left, right, root;
    enum op op;
    /* the store without what joins added */
    zt_index count;
    zt_index heads[ZT_BUCKETS];
};

static struct joining joining_of(const char *name, struct plan plan)
{
    struct joining j;

    memset(&j, 0, sizeof j);
    snprintf(j.name, sizeof j.name, "%s", name);
    j.ours = ours_with(&plan);
    j.left = j.ours.roots[0];
    j.right = j.ours.roots[1];
    ours_lend_cache(&j.ours, BUDDY_RESULTS);
    j.count = j.ours.count;
    memcpy(j.heads, j.ours.heads, sizeof j.heads);
    drop_plan(&plan);
    return j;
}

static struct joining joining_script(const char *name, struct script script)
{
    struct joining j = joining_of(name, built(&script));

    drop_script(&script);
    return j;
}

/* Takes back what a join added: the newest nodes stand first in their chains. */
static void take_back(void *with)
{
    struct joining *j = with;
    size_t more = (size_t)(j->ours.count - j->count);

    memset(j->ours.level + j->count, 0, more * sizeof *j->ours.level);
    memset(j->ours.then + j->count, 0, more * sizeof *j->ours.then);
    memset(j->ours.els + j->count, 0, more * sizeof *j->ours.els);
    memset(j->ours.next + j->count, 0, more * sizeof *j->ours.next);
    memcpy(j->ours.heads, j->heads, sizeof j->heads);
    j->ours.count = j->count;
}

static void join_ours(void *with)
{
    struct joining *j = with;

    j->root = ours_join(&j->ours, j->op, j->left, j->right);
}

/* The and of a root with itself takes no step: this is the check of the store, and the zeros of cache and work. */
static void check_ours(void *with)
{
    struct joining *j = with;

    ours_join(&j->ours, AND, j->left, j->left);
}

static void join_without(void *with)
{
    struct joining *j = with;
    size_t lent = j->ours.cache_len;

    j->ours.cache_len = 0;
    join_ours(with);
    j->ours.cache_len = lent;
}

static void clear_theirs(void *with)
{
    (void)with;
    buddy_clear();
}

static void join_theirs(void *with)
{
    buddy_join(((struct joining *)with)->op);
}

static void agree(struct joining *j)
{
    join_ours(j);
    buddy_join(j->op);
    if (!buddy_agrees(&j->ours, j->root)) {
        fflush(stdout);
        fprintf(stderr, "bench: the sides disagree about %s, %s\n", j->name, names[j->op]);
        exit(1);
    }
}

static void join_heads(void)
{
    printf("  %-22s %-4s %6s %6s %6s %9s %9s %9s %9s", "", "", "left", "right", "result", "call us", "check us", "join us", "no cache");
    if (buddy_there())
        printf(" %9s %6s %6s", "BuDDy us", "join", "call");
    printf("\n");
}

/* One join: the call, the check in it, what is left, and the same call with no cache lent. */
static void join_row(struct joining *j, enum op op)
{
    struct task tasks[4] = {{take_back, join_ours, NULL, NULL}, {take_back, check_ours, NULL, NULL}, {take_back, join_without, NULL, NULL},
        {clear_theirs, join_theirs, NULL, NULL}};
    size_t i, runs, sizes[2] = {ours_size(&j->ours, j->left), ours_size(&j->ours, j->right)};
    int collections = buddy_collections();
    double medians[4], alone;

    j->op = op;
    for (i = 0; i < 4; i++)
        tasks[i].with = j;
    runs = measure(tasks, buddy_there() ? 4 : 3, medians);
    if (buddy_collections() != collections)
        give_up("BuDDy collected nodes in what was timed");
    alone = difference(0, 1, runs);
    take_back(j);
    agree(j);
    printf("  %-22s %-4s %6zu %6zu %6zu %9.1f %9.1f %9.1f %9.1f", j->name, names[op], sizes[0], sizes[1], ours_size(&j->ours, j->root),
        medians[0] * 1e6, medians[1] * 1e6, alone * 1e6, medians[2] * 1e6);
    if (buddy_there()) {
        printf(" %9.1f %6.2f %6.2f", medians[3] * 1e6, medians[3] / alone, medians[3] / medians[0]);
        if (sizes[0] + sizes[1] >= LARGE)
            note(JOIN_GOAL, medians[3] / alone, names[op], j->name);
    }
    printf("\n");
    fflush(stdout);
    if (j->ours.levels <= PLAN_LEVELS)
        note(JOIN_WITHOUT, medians[2] * 1e3, names[op], j->name);
}

static void join_rows(struct joining j)
{
    enum op op;

    buddy_open(&j.ours, j.left, j.right);
    for (op = AND; op < OPS; op++)
        join_row(&j, op);
    buddy_close();
    ours_close(&j.ours);
}

static void tell_pairs(void)
{
    printf("\nJoins: the two roots of a store with %d slots, with a cache for %d results; and with no cache lent\n", JOIN_SLOTS, BUDDY_RESULTS);
    if (buddy_there())
        printf("  BuDDy has room for %d nodes and %d results, and none of either are left from before. The ratios are its time by that of\n"
            "  Zonetweed's join without the check of the store, and by that of the whole call.\n", BUDDY_NODES, BUDDY_RESULTS);
    else
        printf("  BuDDy (Debian's libbdd-dev) isn't there: Zonetweed is measured alone.\n");
    join_heads();
    join_rows(joining_script("queens 6", queens(6)));
    join_rows(joining_script("queens 7", queens(7)));
    join_rows(joining_script("queens 8", queens(8)));
    join_rows(joining_script("adder 11, apart", adder(11, 0)));
    join_rows(joining_script("adder 800, by turns", adder(800, 1)));
    join_rows(joining_of("weights to 1", threshold_pair(60, 1, 0)));
    join_rows(joining_of("weights to 2", threshold_pair(60, 2, 0)));
    join_rows(joining_of("weights to 3", threshold_pair(60, 3, 0)));
    join_rows(joining_of("random 150", random_pair(60, 150, 1)));
    join_rows(joining_of("random 200", random_pair(60, 200, 0)));
    join_rows(joining_of("parity 40", parity_pair(40)));
    join_rows(joining_of("parity 4,096", parity_pair(ZT_MOST_LEVELS)));
    if (buddy_there())
        printf("  Both sides agree on every result.\n");
}

/* All joins of a problem one after another: each of Zonetweed's calls checks the store as it has become. */
struct problem {
    struct script script;
    struct ours ours;
    zt_edge *edges;
};

static void empty_problem(void *with)
{
    struct problem *p = with;

    ours_close(&p->ours);
    p->ours = levels_only(p->script.levels);
    ours_lend_cache(&p->ours, BUDDY_RESULTS);
}

static void solve_ours(void *with)
{
    struct problem *p = with;

    run_script(&p->ours, &p->script, p->edges);
}

static void start_theirs(void *with)
{
    buddy_start(((struct problem *)with)->script.levels);
}

static void solve_theirs(void *with)
{
    buddy_run(&((struct problem *)with)->script);
}

static void close_theirs(void *with)
{
    (void)with;
    buddy_close();
}

static void problem_row(int n)
{
    struct problem p;
    struct task tasks[2] = {{empty_problem, solve_ours, NULL, NULL}, {start_theirs, solve_theirs, close_theirs, NULL}};
    double medians[2];

    p.script = queens(n);
    join_pair(&p.script);
    p.ours = levels_only(p.script.levels);
    p.edges = room_for(p.script.levels + p.script.count + 1, sizeof *p.edges);
    tasks[0].with = tasks[1].with = &p;
    measure(tasks, buddy_there() ? 2 : 1, medians);
    printf("  queens %-15d %6zu %8u %11.1f", n, p.script.count, p.ours.count, medians[0] * 1e6);
    if (buddy_there())
        printf(" %11.1f %6.2f", medians[1] * 1e6, medians[1] / medians[0]);
    printf("\n");
    fflush(stdout);
    drop_script(&p.script);
    ours_close(&p.ours);
    free(p.edges);
}

static void tell_problems(void)
{
    printf("\nWhole problems: all joins, each of which checks the store\n  %-22s %6s %8s %11s", "", "joins", "nodes", "us");
    if (buddy_there())
        printf(" %11s %6s", "BuDDy's us", "ratio");
    printf("\n");
    problem_row(5);
    problem_row(6);
    problem_row(7);
    problem_row(8);
}

/* Several joins in one run, one of each pair, so that no call meets what the last one left in the machine's memory of branches. */
enum { TURNS = 8 };

struct turns {
    size_t count;
    struct joining joinings[TURNS];
};

static void take_back_all(void *with)
{
    struct turns *t = with;
    size_t i;

    for (i = 0; i < t->count; i++)
        take_back(&t->joinings[i]);
}

static void join_all(void *with)
{
    struct turns *t = with;
    size_t i;

    for (i = 0; i < t->count; i++)
        join_ours(&t->joinings[i]);
}

static void check_all(void *with)
{
    struct turns *t = with;
    size_t i;

    for (i = 0; i < t->count; i++)
        check_ours(&t->joinings[i]);
}

static void close_all(struct turns *t)
{
    size_t i;

    for (i = 0; i < t->count; i++)
        ours_close(&t->joinings[i].ours);
}

static void take_pair(struct turns *t, struct joining j)
{
    j.op = AND;
    ours_lend_cache(&j.ours, JOIN_SLOTS);
    t->joinings[t->count++] = j;
}

/* Eight joins and one: times by the nodes that they add, the check of the store apart. */
static void growth_row(const char *what, struct turns *small, struct turns *large)
{
    struct task tasks[4] = {{take_back_all, join_all, NULL, NULL}, {take_back_all, check_all, NULL, NULL},
        {take_back_all, join_all, NULL, NULL}, {take_back_all, check_all, NULL, NULL}};
    double medians[4], each[2], times;
    size_t i, k, runs, nodes[2] = {0, 0};
    struct turns *both[2];

    both[0] = small;
    both[1] = large;
    for (i = 0; i < 4; i++)
        tasks[i].with = both[i / 2];
    runs = measure(tasks, 4, medians);
    for (i = 0; i < 2; i++) {
        take_back_all(both[i]);
        join_all(both[i]);
        for (k = 0; k < both[i]->count; k++)
            nodes[i] += (size_t)(both[i]->joinings[k].ours.count - both[i]->joinings[k].count);
        each[i] = difference(2 * i, 2 * i + 1, runs) / (double)nodes[i];
    }
    times = 8 * each[1] / each[0];
    printf("  %-22s %9zu %11.1f %9zu %11.1f %8.2f\n", what, nodes[0], each[0] * 1e9, nodes[1], each[1] * 1e9, times);
    fflush(stdout);
    note(JOIN_GROWTH, times, "and", what);
    close_all(small);
    close_all(large);
}

static void tell_growth(void)
{
    struct turns small = {0}, large = {0};
    uint64_t seed;

    printf("\nGrowth of joins: eight small pairs and a large one, their and, the check of the store apart, with a cache for %d results\n",
        JOIN_SLOTS);
    printf("  %-22s %9s %11s %9s %11s %8s\n", "", "new nodes", "ns/node", "new nodes", "ns/node", "8 times");
    for (seed = 0; seed < TURNS; seed++)
        take_pair(&small, joining_of("", threshold_pair(48, 1, seed)));
    take_pair(&large, joining_of("", threshold_pair(60, 4, 0)));
    growth_row("weights", &small, &large);
    small.count = large.count = 0;
    for (seed = 0; seed < TURNS; seed++)
        take_pair(&small, joining_script("", adder(100, 1)));
    take_pair(&large, joining_script("", adder(800, 1)));
    growth_row("adder, by turns", &small, &large);
}

/* The stack of a join, with work and cache and without. */
static void stack_row(struct joining j)
{
    size_t taken[2];

    j.op = XOR;
    taken[0] = stack_of(join_ours, &j);
    take_back(&j);
    j.ours.cache_len = j.ours.work_len = 0;
    taken[1] = stack_of(join_ours, &j);
    printf("  %-22s %11zu %11zu\n", j.name, taken[0], taken[1]);
    note(JOIN_STACK, (double)taken[0] / 1024, "with", j.name);
    note(JOIN_STACK, (double)taken[1] / 1024, "without", j.name);
    ours_close(&j.ours);
}

static void tell_stack(void)
{
    printf("\nPeak stack of a join in bytes, with work and cache and without\n  %-22s %11s %11s\n", "", "with", "without");
    stack_row(joining_of("weights, 60 levels", threshold_pair(60, 2, 0)));
    stack_row(joining_of("parity, 4,096 levels", parity_pair(ZT_MOST_LEVELS)));
}

void tell_joins(void)
{
    tell_pairs();
    tell_problems();
    tell_growth();
    tell_stack();
}
