/* Stored joins and opposites, the tables of document 02's second request; and changed ones, which must be noticed. */
#include <stdlib.h>
#include <string.h>

#include "groups.h"
#include "report.h"

enum { JOIN_COLUMNS = 22, OPPOSITE_COLUMNS = 12 };

static const char joins[] = "02/02_join.tsv", opposites[] = "02/02_opposite.tsv";

enum operation operation_in(const char *column)
{
    static const char *const names[OPERATIONS] = {"and", "or", "xor"};
    size_t op;

    for (op = 0; op < OPERATIONS; op++)
        if (strcmp(column, names[op]) == 0)
            return (enum operation)op;
    stop("an operation isn't known");
    return AND;
}

/* Joins */

struct join_vector {
    struct store before, after;
    enum operation op;
    zt_edge left, right;
    /* what the join must give */
    unsigned refusal;
    zt_edge root;
};

/* A store after a join. The number of its heads isn't stored: it is that of the store before. */
static struct store joined_store(char **columns, const struct store *before)
{
    struct store s = store_after(columns, before->levels);

    free(s.heads);
    s.heads_len = before->heads_len;
    s.heads = room(s.heads_len * sizeof *s.heads);
    heads_in(columns[5], s.heads, s.heads_len);
    return s;
}

static int next_join(struct table *t, struct join_vector *v)
{
    char **column = t->columns;

    if (!next_line(t, JOIN_COLUMNS, JOIN_COLUMNS))
        return 0;
    if (strcmp(column[8], "none") != 0 || strcmp(column[20], "none") != 0)
        stop("a stored join lends a list of counts");
    v->before = store_in(column);
    v->op = operation_in(column[9]);
    v->left = (zt_edge)number_in(column[10]);
    v->right = (zt_edge)number_in(column[11]);
    v->refusal = (unsigned)number_in(column[12]);
    v->root = (zt_edge)number_in(column[13]);
    v->after = joined_store(column + 14, &v->before);
    return 1;
}

static void drop_join(struct join_vector *v)
{
    drop_store(&v->before);
    drop_store(&v->after);
}

static void hold_join(const struct join_vector *v)
{
    struct store s = copy_of(&v->before);
    struct zt_join_answer a = call_join(&s, v->op, v->left, v->right);

    holds(a.refusal == v->refusal, "the refusal is the stored one");
    holds(a.root == v->root, "the root is the stored one");
    holds(same_store(&s, &v->after), "the store is the stored one");
    drop_store(&s);
}

static size_t try_join_table(void)
{
    struct table t = open_table(vectors, joins);
    struct join_vector v;
    size_t cases = 0;

    every_cache = 1;
    for (; next_join(&t, &v); cases++) {
        hold_join(&v);
        drop_join(&v);
    }
    every_cache = 0;
    close_table(&t);
    return cases;
}

/* Opposites */

struct opposite_vector {
    struct store store;
    zt_edge root;
    unsigned refusal;
    zt_edge opposite;
};

static int next_opposite(struct table *t, struct opposite_vector *v)
{
    if (!next_line(t, OPPOSITE_COLUMNS, OPPOSITE_COLUMNS))
        return 0;
    v->store = store_in(t->columns);
    v->root = (zt_edge)number_in(t->columns[8]);
    v->refusal = (unsigned)number_in(t->columns[9]);
    v->opposite = (zt_edge)number_in(t->columns[10]);
    return 1;
}

static void hold_opposite(const struct opposite_vector *v)
{
    struct zt_join_answer a = call_opposite(&v->store, v->root);

    holds(a.refusal == v->refusal, "the refusal is the stored one");
    holds(a.root == v->opposite, "the opposite is the stored one");
}

static size_t try_opposite_table(void)
{
    struct table t = open_table(vectors, opposites);
    struct opposite_vector v;
    size_t cases = 0;

    for (; next_opposite(&t, &v); cases++) {
        hold_opposite(&v);
        drop_store(&v.store);
    }
    close_table(&t);
    return cases;
}

void try_joins(void)
{
    group_done(joins, try_join_table());
    group_done(opposites, try_opposite_table());
}

/* Changed cases */

static void try_changed_join(const struct join_vector *v, const char *change)
{
    expect_failures();
    hold_join(v);
    must_be_noticed(change);
}

static void change_lists_after(struct join_vector *v)
{
    struct store *after = &v->after;
    size_t last;

    /* the lists of a damaged store may be unequal, and one of them empty */
    if (v->refusal == 3)
        return;
    last = after->level_len - 1;
    after->level[last]++;
    try_changed_join(v, "another level after a join is noticed");
    after->level[last]--;
    after->then[last]++;
    try_changed_join(v, "another then edge after a join is noticed");
    after->then[last]--;
    after->els[last]++;
    try_changed_join(v, "another else edge after a join is noticed");
    after->els[last]--;
    after->next[last]++;
    try_changed_join(v, "another link after a join is noticed");
    after->next[last]--;
    after->heads[0]++;
    try_changed_join(v, "another head after a join is noticed");
    after->heads[0]--;
}

static void change_join(struct join_vector *v)
{
    v->refusal++;
    try_changed_join(v, "another refusal of a join is noticed");
    v->refusal--;
    v->root = (zt_edge)(v->root == 0 ? 1 : -v->root);
    try_changed_join(v, "another root of a join is noticed");
    v->root = (zt_edge)(v->refusal != 0 ? 0 : -v->root);
    v->after.count++;
    try_changed_join(v, "another count after a join is noticed");
    v->after.count--;
    change_lists_after(v);
}

static void change_opposite(struct opposite_vector *v)
{
    expect_failures();
    v->refusal++;
    hold_opposite(v);
    must_be_noticed("another refusal of an opposite is noticed");
    v->refusal--;
    expect_failures();
    v->opposite = (zt_edge)(v->opposite == 0 ? 1 : -v->opposite);
    hold_opposite(v);
    must_be_noticed("another opposite is noticed");
}

void change_joins(void)
{
    struct table t = open_table(vectors, joins);
    struct join_vector v;
    struct opposite_vector o;

    while (next_join(&t, &v)) {
        change_join(&v);
        hold_join(&v);
        drop_join(&v);
    }
    close_table(&t);
    t = open_table(vectors, opposites);
    while (next_opposite(&t, &o)) {
        change_opposite(&o);
        drop_store(&o.store);
    }
    close_table(&t);
}
