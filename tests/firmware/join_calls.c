/* Joins and opposites, with all that holds of every one of them. */
#include <string.h>

#include "calls.h"
#include "report.h"

int every_cache;

/* None; around a line of four entries; an odd number; around what a join has of its own; long. */
static const size_t cache_lengths[] = {0, 1, 3, 4, 5, 41, ZT_OWN_CACHE_ENTRIES - 1, ZT_OWN_CACHE_ENTRIES, ZT_OWN_CACHE_ENTRIES + 1, 20003};
enum { CACHE_LENGTHS = sizeof cache_lengths / sizeof *cache_lengths };

static size_t cache_in_turn(void)
{
    static size_t calls;

    return cache_lengths[calls++ % CACHE_LENGTHS];
}

int operation_on(enum operation op, int a, int b)
{
    switch (op) {
    case AND: return a && b;
    case OR: return a || b;
    default: return a != b;
    }
}

/* Joins */

enum join_part { JOIN_COUNT = STORE_PARTS, JOIN_CACHE, JOIN_WORK, JOIN_PARTS };

typedef struct zt_join_answer join_call(uint16_t levels, zt_index *count, uint16_t *level, size_t level_len, zt_edge *then, size_t then_len,
    zt_edge *els, size_t els_len, zt_index *next, size_t next_len, zt_index *heads, size_t heads_len, zt_edge left, zt_edge right,
    zt_edge *cache, size_t cache_len, zt_index *work, size_t work_len);

static join_call *const calls[OPERATIONS] = {zt_and, zt_or, zt_xor};

/* A join that was asked for, and what one call of it gave. */
struct join {
    enum operation op;
    zt_edge left, right;
    struct zt_join_answer answer;
    struct lent parts[JOIN_PARTS];
};

/*
 * What the cache might hold of an earlier join of the same two roots in another store: lines of an operation's number (an or stands as the and of
 * the opposites), two edges, and a result, which isn't right here.
 */
static struct lent stale_cache(const struct join *c, size_t entries)
{
    struct lent part = lend_room(entries, sizeof(zt_edge));
    int sorted = magnitude_of(c->left) <= magnitude_of(c->right);
    zt_edge line[4], *at = part.at;
    size_t i;

    line[0] = c->op == XOR ? 2 : 1;
    line[1] = sorted ? c->left : c->right;
    line[2] = sorted ? c->right : c->left;
    for (i = 1; i <= 2; i++)
        if (c->op == OR || (c->op == XOR && line[i] < 0))
            line[i] = opposite_of(line[i]);
    line[3] = 1;
    for (i = 0; !exact && i < entries; i++)
        at[i] = line[i % 4];
    return part;
}

static void check_refused(const struct join *c)
{
    holds(c->answer.root == 0, "a refused join has root 0");
    holds(all_as_before(c->parts, 0, JOIN_COUNT), "a refused join leaves the store as it was");
}

static void join_with(struct join *c, const struct store *s, size_t cache, size_t work)
{
    struct lent *p = c->parts;

    lend_store(p, s);
    p[JOIN_COUNT] = lend(&s->count, 1, sizeof s->count);
    p[JOIN_CACHE] = stale_cache(c, cache);
    p[JOIN_WORK] = lend_room(work, sizeof(zt_index));
    c->answer = calls[c->op](s->levels, p[JOIN_COUNT].at, p[STORE_LEVEL].at, p[STORE_LEVEL].entries, p[STORE_THEN].at, p[STORE_THEN].entries,
        p[STORE_ELS].at, p[STORE_ELS].entries, p[STORE_NEXT].at, p[STORE_NEXT].entries, p[STORE_HEADS].at, p[STORE_HEADS].entries,
        c->left, c->right, p[JOIN_CACHE].at, p[JOIN_CACHE].entries, p[JOIN_WORK].at, p[JOIN_WORK].entries);
    holds(all_guards_hold(p, JOIN_PARTS), "a join writes nothing beside its parts");
    holds(all_zeros(p, JOIN_CACHE, JOIN_WORK), "cache and work end as zeros");
    holds(c->answer.line == 0, "a join has line 0");
    if (c->answer.refusal != 0)
        check_refused(c);
}

/* The same join with another cache and other work gives the same. */
static void join_otherwise(const struct join *c, const struct store *s, size_t cache, size_t work)
{
    struct join other = *c;

    join_with(&other, s, cache, work);
    holds(other.answer.refusal == c->answer.refusal && other.answer.root == c->answer.root, "a join with another cache answers the same");
    holds(all_alike(c->parts, other.parts, 0, JOIN_COUNT), "a join with another cache leaves the same");
    give_back(other.parts, JOIN_PARTS);
}

static void check_accepted(const struct join *c, struct store *s)
{
    zt_index old = s->count;

    take_over(c->parts, &c->parts[JOIN_COUNT], s);
    holds(s->count >= old, "the count doesn't fall");
    holds(keeps_old_nodes(c->parts, old), "old nodes stay as they were");
    holds(keeps_rules(s), "a join leaves a store that keeps the rules");
    holds(magnitude_of(c->answer.root) >= 1 && magnitude_of(c->answer.root) <= s->count, "the root is an edge of the store");
}

struct zt_join_answer call_join(struct store *s, enum operation op, zt_edge left, zt_edge right)
{
    struct join c;
    size_t i;

    memset(&c, 0, sizeof c);
    c.op = op;
    c.left = left;
    c.right = right;
    join_with(&c, s, cache_in_turn(), work_for(most_nodes(s)));
    join_otherwise(&c, s, 0, 0);
    for (i = 0; every_cache && i < CACHE_LENGTHS; i++)
        join_otherwise(&c, s, cache_lengths[i], work_for(most_nodes(s)));
    if (c.answer.refusal == 0)
        check_accepted(&c, s);
    give_back(c.parts, JOIN_PARTS);
    return c.answer;
}

/* Opposites */

enum { OPPOSITE_WORK = STORE_PARTS, OPPOSITE_PARTS };

static struct zt_join_answer opposite_with(const struct store *s, zt_edge root, const struct lent *p, const struct lent *work)
{
    return zt_not(s->levels, s->count, p[STORE_LEVEL].at, p[STORE_LEVEL].entries, p[STORE_THEN].at, p[STORE_THEN].entries,
        p[STORE_ELS].at, p[STORE_ELS].entries, p[STORE_NEXT].at, p[STORE_NEXT].entries, p[STORE_HEADS].at, p[STORE_HEADS].entries,
        root, work->at, work->entries);
}

struct zt_join_answer call_opposite(const struct store *s, zt_edge root)
{
    struct lent p[OPPOSITE_PARTS], none = lend_room(0, sizeof(zt_index));
    struct zt_join_answer a, other;

    lend_store(p, s);
    p[OPPOSITE_WORK] = lend_room(work_for(nodes_there(s)), sizeof(zt_index));
    a = opposite_with(s, root, p, &p[OPPOSITE_WORK]);
    other = opposite_with(s, root, p, &none);
    holds(all_guards_hold(p, OPPOSITE_PARTS) && guards_hold(&none), "an opposite writes nothing beside its parts");
    holds(all_as_before(p, 0, STORE_HEADS), "an opposite leaves the store as it was");
    holds(all_zeros(p, OPPOSITE_WORK, OPPOSITE_WORK), "work ends as zeros");
    holds(a.refusal == other.refusal && a.line == other.line && a.root == other.root, "an opposite without work answers the same");
    holds(a.line == 0, "an opposite has line 0");
    holds(a.refusal == 0 || a.root == 0, "a refused opposite has root 0");
    give_back(p, OPPOSITE_PARTS);
    give_back(&none, 1);
    return a;
}
