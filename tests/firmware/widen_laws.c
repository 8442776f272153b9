/*
 * Turns of old stores: empty ones, full ones, ones that break each rule in turn, ones damaged at random; the lengths of the new lists; and calls that
 * go on after a turn, beside the same calls on a store that was wide from its start.
 */
#include <stdlib.h>
#include <string.h>

#include "groups.h"
#include "report.h"
#include "stored.h"
#include "widen_calls.h"

static size_t cases;

/* Turns an old store into new lists of so many slots, and holds that to its refusal. */
static void widen_gives(const struct old_store *o, size_t slots, unsigned refusal)
{
    struct widening c = widening_into(slots);

    call_widen(&c, o);
    holds(c.answer.refusal == refusal, "a turn has the right refusal");
    done_widening(&c);
    cases++;
}

static struct old_store old_plan(void)
{
    struct store s = plan_store();
    struct old_store o = narrowed(&s);

    drop_store(&s);
    return o;
}

/* Empty stores and full ones */

static void turn_empty(uint16_t levels, size_t slots, unsigned refusal)
{
    struct store s = empty_store(levels, slots);
    struct old_store o = narrowed(&s);

    case_is("turn of an empty store of %u levels and %zu slots", (unsigned)levels, slots);
    widen_gives(&o, slots, refusal);
    widen_gives(&o, slots + 1, refusal);
    widen_gives(&o, 40000, refusal);
    widen_gives(&o, 1, refusal);
    widen_gives(&o, 0, 1);
    drop_old_store(&o);
    drop_store(&s);
}

/* A store with so many nodes in so many slots. An old one has at most 32,767 nodes, though its count and its links could be larger. */
static void turn_full(size_t nodes, size_t slots)
{
    struct store s = full_store(nodes, slots);
    struct old_store o = narrowed(&s);
    unsigned refusal = nodes > 32767 ? 3 : 0;

    case_is("turn of a store of %zu nodes and %zu slots", nodes, slots);
    holds(keeps_rules(&s), "as a new store it would keep the rules");
    widen_gives(&o, nodes, refusal);
    widen_gives(&o, nodes + 1, refusal);
    widen_gives(&o, slots + 100, refusal);
    widen_gives(&o, nodes - 1, 1);
    o.heads[3]++;
    widen_gives(&o, nodes, 3);
    widen_gives(&o, nodes - 1, 1);
    drop_old_store(&o);
    drop_store(&s);
}

/* A count that the lists have slots for, and no nodes. */
static void turn_counted(zt_old_index count)
{
    struct store s = empty_store(2, 65535);
    struct old_store o = narrowed(&s);

    case_is("turn of a store that counts %u and has no nodes", (unsigned)count);
    o.count = count;
    widen_gives(&o, count, 3);
    widen_gives(&o, 65535, 3);
    if (count > 0)
        widen_gives(&o, count - 1u, 1);
    drop_old_store(&o);
    drop_store(&s);
}

/* Broken stores */

/* The plan's nodes in so many slots, with so many heads. */
static struct store with_slots_and_heads(size_t slots, size_t heads)
{
    struct store few = plan_store(), s = with_slots(&few, slots);

    free(s.heads);
    s.heads = room(heads * sizeof *s.heads);
    memset(s.heads, 0, heads * sizeof *s.heads);
    memcpy(s.heads, few.heads, ZT_BUCKETS * sizeof *s.heads);
    s.heads_len = heads;
    drop_store(&few);
    return s;
}

/* Node 2 is x1, node 3 its and with x0; five slots. Each number breaks one rule, the first few those of the lengths. */
enum { BREAKS = 37 };

static size_t *length_of(struct old_store *o, size_t list)
{
    size_t *lens[STORE_PARTS];

    lens[STORE_LEVEL] = &o->level_len;
    lens[STORE_THEN] = &o->then_len;
    lens[STORE_ELS] = &o->els_len;
    lens[STORE_NEXT] = &o->next_len;
    lens[STORE_HEADS] = &o->heads_len;
    return lens[list];
}

/* One list of an old store has an entry more, which is 0: all others are an entry of zeros shorter, or the heads are one too many. */
static void turn_longer(size_t list)
{
    struct store s = with_slots_and_heads(6, ZT_BUCKETS + 1);
    struct old_store o = narrowed(&s);
    size_t part;

    case_is("turn of an old store whose list %zu is longer", list);
    for (part = 0; part < STORE_PARTS; part++)
        *length_of(&o, part) -= part != list;
    widen_gives(&o, 6, 3);
    widen_gives(&o, 2, 1);
    drop_old_store(&o);
    drop_store(&s);
}

static void break_slots(struct old_store *o, size_t how)
{
    switch (how) {
    case 0: o->level[0] = 1; break;
    case 1: o->then[0] = 1; break;
    case 2: o->els[0] = -1; break;
    case 3: o->next[0] = 2; break;
    case 4: o->level[3] = 1; break;
    case 5: o->then[3] = 1; break;
    case 6: o->els[4] = -1; break;
    case 7: o->next[4] = 1; break;
    case 8: o->next[1] = 1; break;
    case 9: o->next[1] = 2; break;
    case 10: o->next[2] = 2; break;
    case 11: o->next[2] = 65535; break;
    case 12: o->heads[0] = 2; break;
    case 13: o->heads[255] = 65535; break;
    case 14: o->heads[bucket_of(0, 2, -1)] = 0; break;
    default: o->heads[bucket_of(0, 2, -1)] = 2; break;
    }
}

static void break_nodes(struct old_store *o, size_t how)
{
    switch (how) {
    case 0: o->count = 0; break;
    case 1: o->count = 2; break;
    case 2: o->count = 4; break;
    case 3: o->count = 6; break;
    case 4: o->levels = 1; break;
    case 5: o->levels = 0; break;
    case 6: o->levels = ZT_MOST_LEVELS + 1; break;
    case 7: o->levels = 65535; break;
    case 8: o->level[2] = 1; break;
    case 9: o->level[1] = 65535; break;
    case 10: o->then[2] = -2; break;
    case 11: o->then[2] = 0; break;
    case 12: o->els[2] = 0; break;
    case 13: o->els[2] = 2; break;
    case 14: o->els[2] = -32768; break;
    default: o->then[2] = 3; break;
    }
}

/* The entry that is broken also moves the node to another bucket, where it has one: the links are mended, so that the rule is broken for itself. */
static void mend_links(struct old_store *o)
{
    size_t node, bucket;

    if (o->count < 2 || o->count > o->level_len)
        return;
    memset(o->heads, 0, o->heads_len * sizeof *o->heads);
    for (node = 2; node <= o->count; node++) {
        bucket = bucket_of(o->level[node - 1], o->then[node - 1], o->els[node - 1]);
        o->next[node - 1] = o->heads[bucket];
        o->heads[bucket] = (zt_old_index)node;
    }
}

static void turn_broken(size_t how, int mended)
{
    struct old_store o = old_plan();

    case_is("turn of an old store, broken in way %zu%s", how, mended ? ", links mended" : "");
    if (how < STORE_PARTS)
        --*length_of(&o, how);
    else if (how < 21)
        break_slots(&o, how - STORE_PARTS);
    else
        break_nodes(&o, how - 21);
    if (mended)
        mend_links(&o);
    holds(mended || !keeps_old_rules(&o), "the store is broken");
    widen_gives(&o, 70, keeps_old_rules(&o) ? 0 : 3);
    widen_gives(&o, 2, o.count > 2 ? 1 : 3);
    drop_old_store(&o);
}

/* Two nodes alike, chained as they should be; nodes of one bucket in another order. */
static void turn_chains(void)
{
    struct store s = empty_store(300, 6);
    struct old_store o;

    case_is("turns of stores with wrong chains");
    add_node(&s, 290, 1, -1);
    add_node(&s, 34, 1, -1);
    o = narrowed(&s);
    holds(bucket_of(290, 1, -1) == bucket_of(34, 1, -1), "two nodes share a bucket");
    widen_gives(&o, 3, 0);
    o.heads[bucket_of(34, 1, -1)] = 2;
    o.next[1] = 3;
    o.next[2] = 0;
    widen_gives(&o, 3, 3);
    o.next[2] = 2;
    widen_gives(&o, 3, 3);
    drop_old_store(&o);
    add_node(&s, 34, 1, -1);
    o = narrowed(&s);
    widen_gives(&o, 4, 3);
    drop_old_store(&o);
    drop_store(&s);
}

/* A node above a deeper one whose number is higher: as then, and as else. */
static void turn_upside_down(zt_edge then, zt_edge els)
{
    struct store s = empty_store(2, 3);
    struct old_store o;

    case_is("turn of a store with the children %d and %d of node 2", (int)then, (int)els);
    add_node(&s, 0, then, els);
    add_node(&s, 1, 1, -1);
    o = narrowed(&s);
    widen_gives(&o, 3, 3);
    drop_old_store(&o);
    drop_store(&s);
}

/* Lengths */

static void widen_with_length(size_t part, size_t len, unsigned refusal)
{
    struct old_store o = old_plan();
    struct widening c = widening_into(3);
    int broken;

    case_is("turn with new list %zu of %zu entries", part, len);
    for (broken = 0; broken < 2; broken++) {
        c.lens[part] = len;
        o.next[4] = (zt_old_index)broken;
        call_widen(&c, &o);
        holds(c.answer.refusal == (refusal != 0 ? refusal : broken ? 3 : 0), "1 is judged before 3");
        done_widening(&c);
        cases++;
    }
    drop_old_store(&o);
}

static void try_new_lengths(void)
{
    static const size_t heads[] = {0, 1, 255, 257, 512, 65536};
    size_t part, i;

    for (part = STORE_LEVEL; part <= STORE_NEXT; part++) {
        widen_with_length(part, 0, 1);
        widen_with_length(part, 2, 1);
        widen_with_length(part, 3, 0);
        widen_with_length(part, 4, 1);
        widen_with_length(part, 1000, 1);
    }
    for (i = 0; i < sizeof heads / sizeof *heads; i++)
        widen_with_length(STORE_HEADS, heads[i], 1);
    widen_with_length(STORE_HEADS, ZT_BUCKETS, 0);
}

/* Nothing of an old store, and nothing or just heads of a new one, all with null pointers. */
static void try_nothing(void)
{
    struct old_store o;
    struct widening c = widening_into(0);
    int before = null_where_empty;

    null_where_empty = 1;
    memset(&o, 0, sizeof o);
    case_is("turn of no lists");
    widen_gives(&o, 0, 3);
    widen_gives(&o, 5, 3);
    c.lens[STORE_HEADS] = 0;
    call_widen(&c, &o);
    holds(c.answer.refusal == 1, "no heads are too few");
    done_widening(&c);
    o.count = 1;
    widen_gives(&o, 0, 1);
    widen_gives(&o, 1, 3);
    null_where_empty = before;
}

/* Stores damaged at random */

static uint64_t state = 987654321987654321u;

static uint64_t chance(uint64_t below)
{
    state ^= state << 13;
    state ^= state >> 7;
    state ^= state << 17;
    return state % below;
}

static uint16_t other_value(uint16_t value)
{
    return (uint16_t)(chance(2) ? value + chance(7) - 3 : chance(65536));
}

static void damage(struct old_store *o)
{
    size_t slot = (size_t)chance(o->level_len), head = (size_t)chance(o->heads_len);

    switch (chance(7)) {
    case 0: o->level[slot] = other_value(o->level[slot]); break;
    case 1: o->then[slot] = (zt_old_edge)other_value((uint16_t)o->then[slot]); break;
    case 2: o->els[slot] = (zt_old_edge)other_value((uint16_t)o->els[slot]); break;
    case 3: o->next[slot] = other_value(o->next[slot]); break;
    case 4: o->heads[head] = other_value(o->heads[head]); break;
    case 5: o->levels = other_value(o->levels); break;
    default: o->count = other_value(o->count); break;
    }
}

/* What the call itself is held to says what must come of it. */
static void try_damaged(const struct store *s)
{
    size_t i, broken = 0, tries = exact ? 2 : 10;

    for (i = 0; i < tries; i++) {
        struct old_store o = narrowed(s);
        struct widening c = widening_into(s->level_len + (size_t)chance(3));

        case_is("old store of %u nodes, damaged", (unsigned)o.count);
        damage(&o);
        call_widen(&c, &o);
        broken += c.answer.refusal != 0;
        done_widening(&c);
        drop_old_store(&o);
        cases++;
    }
    holds(s->count < 4 || exact || broken > 0, "some damaged stores are refused");
}

/* Calls that go on after a turn */

/* Two stores in which the same calls are made: one was turned, the other one was wide from its start. */
struct pair {
    struct store turned, wide;
};

/* Where the turn is none, what comes after it is tried all the same, on a copy of the other store. */
static struct pair pair_of(const struct store *s, size_t slots)
{
    struct old_store o = narrowed(s);
    struct pair p;

    p.turned = turned(&o, slots);
    p.wide = with_slots(s, slots);
    if (!holds(same_store(&p.turned, &p.wide), "a turned store is as one that was wide from its start")) {
        drop_store(&p.turned);
        p.turned = copy_of(&p.wide);
    }
    drop_old_store(&o);
    return p;
}

static void drop_pair(struct pair *p)
{
    drop_store(&p->turned);
    drop_store(&p->wide);
}

static zt_edge join_both(struct pair *p, enum operation op, zt_edge a, zt_edge b)
{
    struct zt_join_answer one = call_join(&p->turned, op, a, b), other = call_join(&p->wide, op, a, b);

    holds(one.refusal == other.refusal && one.root == other.root, "a join after a turn answers the same");
    holds(same_store(&p->turned, &p->wide), "a join after a turn leaves the same");
    cases++;
    return one.root;
}

/* Loads a file into both, which give the same roots; answers the first. */
static zt_edge load_both(struct pair *p, const char *file, const uint16_t *list, size_t list_len)
{
    struct load one = load_of(file, strlen(file), list, list_len, 10), other = load_of(file, strlen(file), list, list_len, 10);
    zt_edge root;

    call_load(&one, &p->turned);
    call_load(&other, &p->wide);
    root = roots_of(&one)[0];
    holds(one.answer.refusal == 0 && same_load_answers(&one.answer, &other.answer), "a load after a turn answers the same");
    holds(memcmp(roots_of(&one), roots_of(&other), ZT_ROOT_ENTRIES * sizeof root) == 0, "a load after a turn gives the same roots");
    holds(same_store(&p->turned, &p->wide), "a load after a turn leaves the same");
    done_with(&one);
    done_with(&other);
    cases++;
    return root;
}

/* What an edge of the old store answers, and the same edge of the new one. */
static void same_answers(const struct store *old, const struct store *s, zt_edge root)
{
    uint8_t *setting = room(s->levels);
    size_t i, l;

    for (i = 0; i < 4; i++) {
        for (l = 0; l < s->levels; l++)
            setting[l] = (uint8_t)chance(2);
        holds(call_evaluate(s, root, setting, s->levels).answer == answer_of(old, root, setting), "a root from before the turn answers as it did");
    }
    free(setting);
}

static void go_on_small(const struct store *s)
{
    size_t edges = edges_of(s), i;
    struct pair p = pair_of(s, s->count + 12u);

    case_is("calls after the turn of a store of %u nodes", (unsigned)s->count);
    for (i = 0; i < edges; i++) {
        same_answers(s, &p.turned, edge_at(i));
        join_both(&p, (enum operation)(i % OPERATIONS), edge_at(i), edge_at(edges - 1 - i));
    }
    for (i = 0; i < edges; i++)
        same_answers(s, &p.turned, edge_at(i));
    drop_pair(&p);
    try_damaged(s);
}

/* The plan is read before the turn and after it: its roots are the same numbers. So are roots that a join gave. */
static void go_on_plan(void)
{
    static const uint8_t both[2] = {1, 1};
    struct store s = empty_store(2, 4);
    struct load c = load_of(plan, strlen(plan), plan_levels, 2, 3);
    struct pair p;
    zt_edge root, opposite;

    case_is("the plan before and after a turn");
    call_load(&c, &s);
    root = roots_of(&c)[0];
    opposite = call_opposite(&s, 2).root;
    p = pair_of(&s, 10);
    holds(load_both(&p, plan, plan_levels, 2) == root, "the plan's root is the same number as before");
    holds(p.turned.count == s.count, "and takes no node");
    holds(join_both(&p, AND, 2, opposite) == -1, "a root and its opposite from before the turn");
    holds(join_both(&p, AND, root, 2) == root, "a root from before the turn, joined");
    holds(call_evaluate(&p.turned, root, both, 2).answer == 1, "it answers yes");
    holds(call_evaluate(&p.turned, -root, both, 2).answer == 0, "its opposite answers no");
    done_with(&c);
    drop_pair(&p);
    drop_store(&s);
}

/* Two roots, exported and read back. */
static void export_roots(const struct store *s, zt_edge a, zt_edge b)
{
    uint16_t order[ZT_MOST_LEVELS];
    zt_edge roots[2];
    struct export e;
    size_t l;

    roots[0] = a;
    roots[1] = b;
    for (l = 0; l < s->levels; l++)
        order[l] = (uint16_t)l;
    e = export_of(s, roots, 2, order, s->levels);
    e.text = 1;
    call_export(&e, s);
    if (holds(e.answer.refusal == 0, "roots from before and after a turn are exported"))
        hold_back(s, roots, 2, e.out.at, e.answer.len);
    done_exporting(&e);
}

/* An old store that is full gains nodes after its turn, with numbers that an edge of 16 bits doesn't have. */
static void go_on_full(void)
{
    static const uint16_t list[2] = {5, 7};
    struct store s = full_store(32767, 32767);
    struct pair p = pair_of(&s, 32767 + 40);
    zt_edge root = load_both(&p, plan, list, 2), joined;

    case_is("calls after the turn of a full store");
    holds(root == 32769, "the plan's nodes are the next ones");
    joined = join_both(&p, XOR, root, 32767);
    holds(magnitude_of(joined) > 32769, "a join needs further ones");
    holds(join_both(&p, XOR, joined, 32767) == root, "and gives the plan back");
    holds(join_both(&p, AND, 32767, -32767) == -1, "the last root from before, and its opposite");
    holds(load_both(&p, plan, list, 2) == root, "the plan is the same number as before");
    same_answers(&s, &p.turned, 32767);
    same_answers(&s, &p.turned, -32766);
    same_answers(&p.wide, &p.turned, joined);
    same_answers(&p.wide, &p.turned, root);
    export_roots(&p.turned, joined, -32767);
    drop_pair(&p);
    drop_store(&s);
}

void try_widen_laws(void)
{
    size_t how;

    cases = 0;
    turn_empty(0, 1, 0);
    turn_empty(1, 7, 0);
    turn_empty(ZT_MOST_LEVELS, 1, 0);
    turn_empty(ZT_MOST_LEVELS + 1, 1, 3);
    turn_empty(65535, 3, 3);
    turn_full(32767, 32767);
    turn_full(32767, 40000);
    turn_full(32766, 32767);
    turn_full(32768, 40000);
    turn_full(MANY_NODES - 2000, MANY_NODES - 2000);
    turn_counted(0);
    turn_counted(2);
    turn_counted(32768);
    turn_counted(65535);
    for (how = 0; how < BREAKS; how++) {
        turn_broken(how, 0);
        turn_broken(how, 1);
    }
    for (how = 0; how < STORE_PARTS; how++)
        turn_longer(how);
    turn_chains();
    turn_upside_down(3, -1);
    turn_upside_down(1, -3);
    try_new_lengths();
    try_nothing();
    group_done("turns: full, empty and broken old stores, lengths", cases);
    cases = 0;
    with_small_stores(go_on_small, exact ? 16 * step : 1);
    go_on_plan();
    go_on_full();
    group_done("turns: damaged stores, and calls that go on", cases);
}
