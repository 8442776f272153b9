/*
 * Joins of every pair of edges of small stores, `02/joins.tsv`, whose answers a program worked out from truth tables. Each is made in both
 * orders, and in a store with one slot too few for its new nodes, with just enough, and with two more.
 */
#include <stdlib.h>
#include <string.h>

#include "groups.h"
#include "report.h"
#include "stored.h"

enum { SMALL_COLUMNS = 7, ANSWERS_AT = 3, MOST_LACKING = 1000 };

static const char small_joins[] = "02/joins.tsv";
static const char none[] = "-";

/* What a join must give: its root, and the new nodes as they stand in the table. */
struct expected {
    zt_edge root;
    const char *nodes;
};

/* A line of the table: a store, and what its answers are read from. */
struct small {
    struct store store;
    char *lacking[MOST_LACKING];
    size_t lacking_len;
    const char *answers[OPERATIONS];
};

static void read_lacking(char *column, struct small *c)
{
    c->lacking_len = 0;
    while (*column != 0 && strcmp(column, none) != 0) {
        if (c->lacking_len == MOST_LACKING)
            stop("a store lacks too many results");
        c->lacking[c->lacking_len++] = cut(&column, ' ');
    }
}

static int next_small(struct table *t, struct small *c)
{
    size_t op;

    if (!next_line(t, SMALL_COLUMNS, SMALL_COLUMNS))
        return 0;
    c->store = empty_store((uint16_t)number_in(t->columns[0]), entries_in(t->columns[1]) + 1);
    add_nodes(&c->store, t->columns[1]);
    read_lacking(t->columns[2], c);
    for (op = 0; op < OPERATIONS; op++)
        c->answers[op] = t->columns[ANSWERS_AT + op];
    return 1;
}

/* The answer that stands here, a root, or a root and the number of its new nodes. Moves behind it. */
static struct expected next_answer(const struct small *c, const char **at)
{
    struct expected e;
    size_t len = strcspn(*at, ","), number = strcspn(*at, ":");

    e.root = (zt_edge)number_in(*at);
    e.nodes = none;
    if (number < len) {
        size_t k = (size_t)number_in(*at + number + 1);

        if (k >= c->lacking_len)
            stop("an answer has no new nodes");
        e.nodes = c->lacking[k];
    }
    *at += len + ((*at)[len] == ',');
    return e;
}

struct store with_slots(const struct store *s, size_t slots)
{
    struct store wide = empty_store(s->levels, slots);
    size_t i;

    for (i = 1; i < s->count; i++)
        add_node(&wide, s->level[i], s->then[i], s->els[i]);
    return wide;
}

static void hold_in_room(const struct store *store, enum operation op, zt_edge a, zt_edge b, const struct expected *e, size_t free_slots)
{
    struct store s = with_slots(store, store->count + free_slots), after = copy_of(&s);
    int fits = entries_in(e->nodes) <= free_slots;
    struct zt_join_answer answer = call_join(&s, op, a, b);

    if (fits)
        add_nodes(&after, e->nodes);
    holds(answer.refusal == (fits ? 0 : 40), "a join is refused just where its nodes don't fit");
    holds(answer.root == (fits ? e->root : 0), "the root is the stored one");
    holds(same_store(&s, &after), "the new nodes are the stored ones");
    drop_store(&s);
    drop_store(&after);
}

static size_t hold_pair(const struct store *s, enum operation op, zt_edge a, zt_edge b, const struct expected *e)
{
    size_t nodes = entries_in(e->nodes);

    if (nodes > 0)
        hold_in_room(s, op, a, b, e, nodes - 1);
    hold_in_room(s, op, a, b, e, nodes);
    hold_in_room(s, op, b, a, e, nodes);
    hold_in_room(s, op, b, a, e, nodes + 2);
    return nodes > 0 ? 4 : 3;
}

size_t edges_of(const struct store *s)
{
    return 2 * (size_t)s->count;
}

zt_edge edge_at(size_t i)
{
    return (zt_edge)(i % 2 == 0 ? (long)(i / 2) + 1 : -(long)(i / 2) - 1);
}

/* What is done with a pair of edges and its stored answer. */
typedef size_t with_pair(const struct store *s, enum operation op, zt_edge a, zt_edge b, const struct expected *e);

static size_t go_through_pairs(const struct small *c, enum operation op, with_pair *each)
{
    const char *at = c->answers[op];
    size_t i, j, done = 0;

    for (i = 0; i < edges_of(&c->store); i++)
        for (j = i; j < edges_of(&c->store); j++) {
            struct expected e = next_answer(c, &at);

            done += each(&c->store, op, edge_at(i), edge_at(j), &e);
        }
    if (*at != 0)
        stop("a store has more answers than pairs");
    return done;
}

static size_t go_through(with_pair *each, size_t every)
{
    struct table t = open_table(vectors, small_joins);
    struct small c;
    size_t op, done = 0;

    while (next_small(&t, &c)) {
        for (op = 0; op < OPERATIONS && t.line % every == 0; op++)
            done += go_through_pairs(&c, (enum operation)op, each);
        drop_store(&c.store);
    }
    close_table(&t);
    return done;
}

void try_small_joins(void)
{
    group_done(small_joins, go_through(hold_pair, exact ? 12 * step : 1));
}

/* Changed answers: one pair of many, in turn. */

static void try_changed(const struct store *s, enum operation op, zt_edge a, zt_edge b, const struct expected *e, const char *change)
{
    expect_failures();
    hold_pair(s, op, a, b, e);
    must_be_noticed(change);
}

static size_t change_pair(const struct store *s, enum operation op, zt_edge a, zt_edge b, const struct expected *e)
{
    static size_t pairs;
    struct expected other = *e;

    if (pairs++ % 37 != 0)
        return 0;
    other.root = (zt_edge)-e->root;
    try_changed(s, op, a, b, &other, "another root of two edges is noticed");
    other = *e;
    other.nodes = strcmp(e->nodes, none) == 0 ? "0:1:-1" : none;
    try_changed(s, op, a, b, &other, "other new nodes of two edges are noticed");
    return 2;
}

void change_small_joins(void)
{
    go_through(change_pair, 1);
}

void with_small_stores(void (*each)(const struct store *s), size_t every)
{
    struct table t = open_table(vectors, small_joins);
    struct small c;

    while (next_small(&t, &c)) {
        if (t.line % every == 0)
            each(&c.store);
        drop_store(&c.store);
    }
    close_table(&t);
}
