#include "old_stores.h"

#include <stdlib.h>
#include <string.h>

#include "report.h"
#include "table.h"

static void *copied(const void *from, size_t bytes)
{
    void *at = room(bytes);

    if (bytes != 0)
        memcpy(at, from, bytes);
    return at;
}

static zt_old_edge *narrow_edges(const zt_edge *edges, size_t len)
{
    zt_old_edge *list = room(len * sizeof *list);
    size_t i;

    for (i = 0; i < len; i++) {
        list[i] = (zt_old_edge)edges[i];
        if (list[i] != edges[i])
            stop("an edge has more than 16 bits");
    }
    return list;
}

static zt_old_index *narrow_numbers(const zt_index *numbers, size_t len)
{
    zt_old_index *list = room(len * sizeof *list);
    size_t i;

    for (i = 0; i < len; i++) {
        list[i] = (zt_old_index)numbers[i];
        if (list[i] != numbers[i])
            stop("a node number has more than 16 bits");
    }
    return list;
}

struct old_store narrowed(const struct store *s)
{
    struct old_store o;

    if (s->count > UINT16_MAX)
        stop("a count has more than 16 bits");
    o.levels = s->levels;
    o.count = (zt_old_index)s->count;
    o.level = copied(s->level, s->level_len * sizeof *s->level);
    o.then = narrow_edges(s->then, s->then_len);
    o.els = narrow_edges(s->els, s->els_len);
    o.next = narrow_numbers(s->next, s->next_len);
    o.heads = narrow_numbers(s->heads, s->heads_len);
    o.level_len = s->level_len;
    o.then_len = s->then_len;
    o.els_len = s->els_len;
    o.next_len = s->next_len;
    o.heads_len = s->heads_len;
    return o;
}

struct old_store old_store_in(char **columns)
{
    struct store s = store_in(columns);
    struct old_store o = narrowed(&s);

    drop_store(&s);
    return o;
}

struct old_store old_copy_of(const struct old_store *o)
{
    struct old_store c = *o;

    c.level = copied(o->level, o->level_len * sizeof *o->level);
    c.then = copied(o->then, o->then_len * sizeof *o->then);
    c.els = copied(o->els, o->els_len * sizeof *o->els);
    c.next = copied(o->next, o->next_len * sizeof *o->next);
    c.heads = copied(o->heads, o->heads_len * sizeof *o->heads);
    return c;
}

void drop_old_store(struct old_store *o)
{
    free(o->level);
    free(o->then);
    free(o->els);
    free(o->next);
    free(o->heads);
}

static zt_edge *wide_edges(const zt_old_edge *edges, size_t len)
{
    zt_edge *list = room(len * sizeof *list);
    size_t i;

    for (i = 0; i < len; i++)
        list[i] = edges[i];
    return list;
}

static zt_index *wide_numbers(const zt_old_index *numbers, size_t len)
{
    zt_index *list = room(len * sizeof *list);
    size_t i;

    for (i = 0; i < len; i++)
        list[i] = numbers[i];
    return list;
}

struct store same_numbers(const struct old_store *o)
{
    struct store s;

    s.levels = o->levels;
    s.count = o->count;
    s.level = copied(o->level, o->level_len * sizeof *o->level);
    s.then = wide_edges(o->then, o->then_len);
    s.els = wide_edges(o->els, o->els_len);
    s.next = wide_numbers(o->next, o->next_len);
    s.heads = wide_numbers(o->heads, o->heads_len);
    s.level_len = o->level_len;
    s.then_len = o->then_len;
    s.els_len = o->els_len;
    s.next_len = o->next_len;
    s.heads_len = o->heads_len;
    return s;
}

/* The rules say the same of the same numbers, but for the count; a sum has the same remainder by 256, wherever it wraps. */
int keeps_old_rules(const struct old_store *o)
{
    struct store s = same_numbers(o);
    int keeps = o->count <= ZT_OLD_MOST_NODES && keeps_rules(&s);

    drop_store(&s);
    return keeps;
}
