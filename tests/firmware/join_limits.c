/* Refusals of joins and opposites and their order; stores of no levels and of as many as there may be; long chains; full stores. */
#include <stdlib.h>
#include <time.h>

#include "groups.h"
#include "report.h"

/* Seconds of processor time that the longest join may take here, also under a tool that watches memory. */
enum { MOST_SECONDS = 5 };

static size_t cases;

/* Makes a join, and holds it to its refusal, its root, and how many nodes it adds. */
static void join_gives(struct store *s, enum operation op, zt_edge a, zt_edge b, unsigned refusal, zt_edge root, size_t added)
{
    size_t count = s->count;
    struct zt_join_answer answer = call_join(s, op, a, b);

    holds(answer.refusal == refusal, "a join has the right refusal");
    holds(answer.root == root, "a join has the right root");
    holds(s->count == count + added, "a join adds as many nodes as it needs");
    cases++;
}

static void join_refused(struct store *s, zt_edge a, zt_edge b, unsigned refusal)
{
    size_t op;

    for (op = 0; op < OPERATIONS; op++) {
        case_is("join %zu of %d and %d in a store of %u nodes, refused with %u", op, a, b, (unsigned)s->count, refusal);
        join_gives(s, (enum operation)op, a, b, refusal, 0, 0);
    }
}

static void opposite_gives(const struct store *s, zt_edge root, unsigned refusal, zt_edge opposite)
{
    struct zt_join_answer answer;

    case_is("opposite of %d in a store of %u nodes", root, (unsigned)s->count);
    answer = call_opposite(s, root);
    holds(answer.refusal == refusal, "an opposite has the right refusal");
    holds(answer.root == opposite, "an opposite has the right root");
    cases++;
}

/* Each root in turn is none of the store. */
static void refuse_bad_roots(struct store *s, zt_edge good)
{
    zt_edge beyond = (zt_edge)(s->count + 1), bad[BAD_ROOTS];
    size_t i;

    bad_roots(beyond, bad);
    for (i = 0; i < BAD_ROOTS; i++) {
        join_refused(s, bad[i], good, 4);
        join_refused(s, (zt_edge)-good, bad[i], 4);
        join_refused(s, bad[i], bad[BAD_ROOTS - 1 - i], 4);
        opposite_gives(s, bad[i], 4, 0);
    }
}

/*
 * The order is 3, 4, 40. All three faults are there; then the store is mended, then one root, then the other; and with a slot more nothing is
 * refused. The nodes are x1, x0 and their and.
 */
static void try_order(void)
{
    struct store full = plan_store(), s;
    size_t op;

    add_node(&full, 0, 1, -1);
    s = with_slots(&full, full.count);
    s.heads[9]++;
    join_refused(&s, 0, 9, 3);
    join_refused(&s, 2, 4, 3);
    opposite_gives(&s, 9, 3, 0);
    opposite_gives(&s, 2, 3, 0);
    s.heads[9]--;
    join_refused(&s, 0, 9, 4);
    join_refused(&s, 2, 9, 4);
    join_refused(&s, 0, 4, 4);
    drop_store(&s);
    for (op = OR; op < OPERATIONS; op++) {
        case_is("join %zu of a full store, then with a slot more", op);
        s = with_slots(&full, full.count);
        join_gives(&s, (enum operation)op, 2, 4, 40, 0, 0);
        drop_store(&s);
        s = with_slots(&full, full.count + 1u);
        join_gives(&s, (enum operation)op, 2, 4, 0, op == OR ? 5 : -5, 1);
        drop_store(&s);
    }
    s = with_slots(&full, full.count);
    case_is("joins of a full store that take no node");
    join_gives(&s, AND, 2, 4, 0, 3, 0);
    join_gives(&s, AND, 2, -2, 0, -1, 0);
    join_gives(&s, OR, -3, 4, 0, 1, 0);
    join_gives(&s, XOR, -4, -4, 0, -1, 0);
    drop_store(&s);
    drop_store(&full);
}

static void try_bad_roots(void)
{
    struct store s = plan_store(), full = with_slots(&s, s.count), none = empty_store(0, 1);

    refuse_bad_roots(&s, 3);
    refuse_bad_roots(&full, 2);
    refuse_bad_roots(&none, 1);
    opposite_gives(&s, 3, 0, -3);
    opposite_gives(&s, -2, 0, 2);
    opposite_gives(&none, 1, 0, -1);
    opposite_gives(&none, -1, 0, 1);
    drop_store(&s);
    drop_store(&full);
    drop_store(&none);
}

/* Chains of exclusive ors */

static uint64_t state = 2463534242u;

static int toss(void)
{
    state ^= state << 13;
    state ^= state >> 7;
    state ^= state << 17;
    return (int)(state >> 20 & 1);
}

/* Adds the chain that says whether an even number of some levels is no: every second level from this one on, the deepest first. */
static zt_edge add_chain(struct store *s, unsigned first)
{
    unsigned l = s->levels;
    zt_edge last = 1;

    while (l-- > first)
        if (l % 2 == first % 2) {
            add_node(s, (uint16_t)l, last, (zt_edge)-last);
            last = (zt_edge)s->count;
        }
    return last;
}

static void hold_some_answers(const struct store *s, enum operation op, zt_edge a, zt_edge b, zt_edge root)
{
    uint8_t *setting = room(s->levels);
    size_t i, l;

    for (i = 0; i < 20; i++) {
        for (l = 0; l < s->levels; l++)
            setting[l] = (uint8_t)toss();
        holds(answer_of(s, root, setting) == operation_on(op, answer_of(s, a, setting), answer_of(s, b, setting)), "the joined chain answers");
    }
    free(setting);
}

static void join_chains(struct store *s, enum operation op, zt_edge a, zt_edge b, size_t added)
{
    zt_edge root = (zt_edge)(op == XOR ? -(long)(s->count + added) : (long)(s->count + added));
    clock_t start = clock();

    case_is("join %d of two chains over %u levels", (int)op, (unsigned)s->levels);
    join_gives(s, op, a, b, 0, root, added);
    holds((clock() - start) / CLOCKS_PER_SEC < MOST_SECONDS, "it ends soon");
    hold_some_answers(s, op, a, b, root);
}

/*
 * One chain has the even levels, the other the odd ones. Their exclusive or is a chain of all levels, whose last node is there. Their and has a
 * node at the top, two below, and from there to the last level but one the ands of the two chains' rests with every sign, four of them. Their or
 * is the opposite of the and of their opposites, and shares these.
 */
static void try_chains(uint16_t levels)
{
    size_t all = 4 * (size_t)levels - 9, slots = levels + 1u + (levels - 1u) + all + 3;
    struct store s = empty_store(levels, slots), small;
    zt_edge a = add_chain(&s, 0), b = add_chain(&s, 1);

    small = with_slots(&s, s.count + all - 1);
    join_gives(&small, AND, a, b, 40, 0, 0);
    drop_store(&small);
    small = with_slots(&s, s.count + all);
    join_gives(&small, AND, a, b, 0, (zt_edge)(s.count + all), all);
    join_gives(&small, OR, a, b, 40, 0, 0);
    drop_store(&small);
    join_chains(&s, XOR, a, b, levels - 1u);
    join_chains(&s, AND, b, a, all);
    join_chains(&s, OR, a, b, 3);
    holds(s.count == slots, "the slots just do");
    drop_store(&s);
}

/* Full stores */

/*
 * At each level of the store the first node is (last, 1), the second (last, -1), the third (1, last) and the fourth (1, -last), where last is the
 * last node of the level below; at its top there are the first three.
 */
static void join_in_full_store(struct store *s)
{
    zt_edge last = 4, left = (zt_edge)(last + 1), top = (zt_edge)s->count;

    case_is("joins of a full store of %zu slots", s->level_len);
    join_gives(s, AND, left, (zt_edge)(left + 2), 0, last, 0);
    join_gives(s, OR, (zt_edge)(left + 1), (zt_edge)-(left + 3), 0, last, 0);
    join_gives(s, XOR, top, top, 0, -1, 0);
    join_gives(s, XOR, -1, top, 0, top, 0);
    join_gives(s, OR, top, (zt_edge)(top - 1), 0, top, 0);
    join_gives(s, XOR, top, (zt_edge)(top - 1), 40, 0, 0);
    join_gives(s, AND, top, (zt_edge)-left, 40, 0, 0);
    opposite_gives(s, top, 0, (zt_edge)-top);
}

/* As many nodes as slots, and as an edge of 16 bits could name. */
static void try_full(void)
{
    struct store s = full_store(MANY_NODES, MANY_NODES);

    join_in_full_store(&s);
    join_refused(&s, 0, 1, 4);
    join_refused(&s, MANY_NODES, -MANY_NODES - 1, 4);
    join_refused(&s, MANY_NODES, INT32_MIN, 4);
    opposite_gives(&s, -MANY_NODES - 1, 4, 0);
    s.next[MANY_NODES - 1]++;
    join_refused(&s, 0, 1, 3);
    join_refused(&s, 1, 1, 3);
    opposite_gives(&s, 1, 3, 0);
    drop_store(&s);
}

/* Numbers that an edge of 16 bits has, and the first ones that it hasn't: a store of so many slots is filled, and then there is no room. */
static void pass_16_bits(size_t slots)
{
    struct store s = full_store(32764, slots);
    zt_edge x0, x1;

    add_node(&s, 0, 1, -1);
    x0 = (zt_edge)s.count;
    add_node(&s, 1, 1, -1);
    x1 = (zt_edge)s.count;
    case_is("joins around number 32,768 in %zu slots", slots);
    join_gives(&s, AND, x0, x1, 0, 32767, 1);
    join_gives(&s, AND, x1, x0, 0, 32767, 0);
    join_gives(&s, OR, (zt_edge)-x0, (zt_edge)-x1, 0, -32767, 0);
    if (slots == 32767) {
        join_gives(&s, OR, x0, x1, 40, 0, 0);
        join_gives(&s, XOR, x1, x0, 40, 0, 0);
    } else {
        join_gives(&s, OR, x0, x1, 0, 32768, 1);
        join_gives(&s, XOR, x1, x0, slots == 32768 ? 40 : 0, slots == 32768 ? 0 : -32769, slots != 32768);
        join_gives(&s, AND, -32768, -32767, 0, -32768, 0);
        join_gives(&s, AND, 32768, -1, 0, -1, 0);
        hold_some_answers(&s, OR, x0, x1, 32768);
        opposite_gives(&s, -32768, 0, 32768);
    }
    drop_store(&s);
}

void try_join_limits(void)
{
    cases = 0;
    try_order();
    try_bad_roots();
    every_cache = 1;
    try_chains(40);
    every_cache = 0;
    try_chains(ZT_MOST_LEVELS);
    try_full();
    pass_16_bits(32767);
    pass_16_bits(32768);
    pass_16_bits(40000);
    group_done("refusals of joins, long chains, full stores", cases);
}
