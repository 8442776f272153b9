#include "stores.h"

#include <stdlib.h>
#include <string.h>

#include "report.h"

static void *copied(const void *from, size_t bytes)
{
    void *at = room(bytes);

    if (bytes != 0)
        memcpy(at, from, bytes);
    return at;
}

static void *zeros(size_t bytes)
{
    void *at = room(bytes);

    memset(at, 0, bytes);
    return at;
}

struct store empty_store(uint16_t levels, size_t slots)
{
    struct store s;

    s.levels = levels;
    s.count = 1;
    s.level = zeros(slots * sizeof *s.level);
    s.then = zeros(slots * sizeof *s.then);
    s.els = zeros(slots * sizeof *s.els);
    s.next = zeros(slots * sizeof *s.next);
    s.heads = zeros(ZT_BUCKETS * sizeof *s.heads);
    s.level_len = s.then_len = s.els_len = s.next_len = slots;
    s.heads_len = ZT_BUCKETS;
    return s;
}

struct store copy_of(const struct store *s)
{
    struct store c = *s;

    c.level = copied(s->level, s->level_len * sizeof *s->level);
    c.then = copied(s->then, s->then_len * sizeof *s->then);
    c.els = copied(s->els, s->els_len * sizeof *s->els);
    c.next = copied(s->next, s->next_len * sizeof *s->next);
    c.heads = copied(s->heads, s->heads_len * sizeof *s->heads);
    return c;
}

void drop_store(struct store *s)
{
    free(s->level);
    free(s->then);
    free(s->els);
    free(s->next);
    free(s->heads);
}

static int same_list(const void *a, size_t a_len, const void *b, size_t b_len, size_t width)
{
    return a_len == b_len && (a_len == 0 || memcmp(a, b, a_len * width) == 0);
}

int same_store(const struct store *a, const struct store *b)
{
    return a->levels == b->levels && a->count == b->count
        && same_list(a->level, a->level_len, b->level, b->level_len, sizeof *a->level)
        && same_list(a->then, a->then_len, b->then, b->then_len, sizeof *a->then)
        && same_list(a->els, a->els_len, b->els, b->els_len, sizeof *a->els)
        && same_list(a->next, a->next_len, b->next, b->next_len, sizeof *a->next)
        && same_list(a->heads, a->heads_len, b->heads, b->heads_len, sizeof *a->heads);
}

size_t magnitude_of(zt_edge edge)
{
    return edge < 0 ? (size_t)-(long)edge : (size_t)edge;
}

zt_edge opposite_of(zt_edge edge)
{
    return (zt_edge)(0 - (uint32_t)edge);
}

void bad_roots(zt_edge beyond, zt_edge *bad)
{
    static const zt_edge far[BAD_ROOTS] = {0, INT32_MIN, 0, 0, INT32_MAX, -32768, 65537, -INT32_MAX};
    size_t i;

    for (i = 0; i < BAD_ROOTS; i++)
        bad[i] = magnitude_of(far[i]) < (size_t)beyond && far[i] != 0 ? 0 : far[i];
    bad[2] = beyond;
    bad[3] = (zt_edge)-beyond;
}

size_t bucket_of(uint16_t level, zt_edge then, zt_edge els)
{
    uint32_t sum = (uint32_t)level + 3 * (uint32_t)then + 5 * (uint32_t)els;

    return sum % 256;
}

void add_node(struct store *s, uint16_t level, zt_edge then, zt_edge els)
{
    size_t slot = s->count, bucket = bucket_of(level, then, els);

    s->level[slot] = level;
    s->then[slot] = then;
    s->els[slot] = els;
    s->next[slot] = s->heads[bucket];
    s->count++;
    s->heads[bucket] = s->count;
}

/* Over the first nodes there are up to nine at each level, whose children are the last two nodes of the level below. */
struct store full_store(size_t nodes, size_t slots)
{
    static const int8_t pairs[9][2] = {{0, 2}, {0, 3}, {2, 0}, {2, 1}, {0, 1}, {4, 2}, {4, 3}, {4, 0}, {4, 1}};
    struct store s = empty_store(4096, slots);
    uint16_t l = 4095;
    size_t k;

    add_node(&s, l, 1, -1);
    add_node(&s, --l, 2, 1);
    add_node(&s, l, 2, -1);
    while (s.count < nodes) {
        zt_edge last = (zt_edge)s.count, edges[5];

        edges[0] = last;
        edges[1] = (zt_edge)-last;
        edges[2] = 1;
        edges[3] = -1;
        edges[4] = (zt_edge)(last - 1);
        l--;
        for (k = 0; k < 9 && s.count < nodes; k++)
            add_node(&s, l, edges[pairs[k][0]], edges[pairs[k][1]]);
    }
    return s;
}

/*
 * The first twelve nodes are one above the other. At each level over them are up to 276, with all pairs of children of which the then is one of the
 * twelve nodes before that level, and the else is one of them too, with a minus or without, and another edge.
 */
struct store wide_store(size_t nodes, size_t slots)
{
    struct store s = empty_store(4096, slots);
    uint16_t l = 4095;
    zt_edge last, t, e;

    add_node(&s, l, 1, -1);
    while (s.count < 13)
        add_node(&s, --l, (zt_edge)s.count, -1);
    while (s.count < nodes) {
        last = (zt_edge)s.count;
        l--;
        for (t = last - 11; t <= last; t++)
            for (e = last - 11; e <= last; e++) {
                if (s.count < nodes)
                    add_node(&s, l, t, -e);
                if (s.count < nodes && t != e)
                    add_node(&s, l, t, e);
            }
    }
    return s;
}

static int lengths_fit(const struct store *s)
{
    return s->level_len == s->then_len && s->level_len == s->els_len && s->level_len == s->next_len && s->heads_len == ZT_BUCKETS
        && s->count >= 1 && s->count <= s->level_len && s->count <= ZT_MOST_NODES && s->levels <= ZT_MOST_LEVELS;
}

static int slot_is_zeros(const struct store *s, size_t slot)
{
    return s->level[slot] == 0 && s->then[slot] == 0 && s->els[slot] == 0 && s->next[slot] == 0;
}

/* 'slot 1 and unused slots are zero' */
static int rest_is_zeros(const struct store *s)
{
    size_t slot;

    for (slot = s->count; slot < s->level_len; slot++)
        if (!slot_is_zeros(s, slot))
            return 0;
    return slot_is_zeros(s, 0);
}

/* 'children are lower numbers, never 0, at deeper levels'; node 1 is deeper than every level */
static int child_fits(const struct store *s, size_t node, zt_edge child)
{
    size_t n = magnitude_of(child);

    return n >= 1 && n < node && (n == 1 || s->level[n - 1] > s->level[node - 1]);
}

static int node_fits(const struct store *s, size_t node)
{
    zt_edge then = s->then[node - 1], els = s->els[node - 1];

    return then > 0 && then != els && child_fits(s, node, then) && child_fits(s, node, els) && s->level[node - 1] < s->levels;
}

static int alike(const struct store *s, size_t a, size_t b)
{
    return s->level[a - 1] == s->level[b - 1] && s->then[a - 1] == s->then[b - 1] && s->els[a - 1] == s->els[b - 1];
}

static size_t spread(const struct store *s, size_t node)
{
    uint64_t key = (uint64_t)s->level[node - 1] * 2654435761u + (uint64_t)(uint32_t)s->then[node - 1] * 40503u + (uint32_t)s->els[node - 1];

    return (size_t)((key ^ key >> 15) * 2246822519u);
}

/* Each node goes to a place of a table that only nodes like it, or nodes that found their own places taken, are met before. */
static int none_alike(const struct store *s)
{
    size_t places = 16, node, at;
    zt_index *table;

    while (places < 2 * (size_t)s->count)
        places *= 2;
    table = zeros(places * sizeof *table);
    for (node = 2; node <= s->count; node++) {
        for (at = spread(s, node) % places; table[at] != 0 && !alike(s, node, table[at]); at = (at + 1) % places)
            ;
        if (table[at] != 0)
            break;
        table[at] = (zt_index)node;
    }
    free(table);
    return node > s->count;
}

/* 'each chain holds just its bucket, newest first': a node's link is the bucket's node before it, and the head is the last one */
static int chains_fit(const struct store *s)
{
    zt_index newest[ZT_BUCKETS] = {0};
    size_t node;

    for (node = 2; node <= s->count; node++) {
        size_t bucket = bucket_of(s->level[node - 1], s->then[node - 1], s->els[node - 1]);

        if (s->next[node - 1] != newest[bucket])
            return 0;
        newest[bucket] = (zt_index)node;
    }
    return memcmp(newest, s->heads, sizeof newest) == 0;
}

int keeps_rules(const struct store *s)
{
    size_t node;

    if (!lengths_fit(s) || !rest_is_zeros(s))
        return 0;
    for (node = 2; node <= s->count; node++)
        if (!node_fits(s, node))
            return 0;
    return chains_fit(s) && none_alike(s);
}

int answer_of(const struct store *s, zt_edge edge, const uint8_t *setting)
{
    int yes = 1;

    for (;;) {
        size_t n = magnitude_of(edge);

        if (edge < 0)
            yes = !yes;
        if (n == 1)
            return yes;
        edge = setting[s->level[n - 1]] == 1 ? s->then[n - 1] : s->els[n - 1];
    }
}

/* Children have lower numbers, so one pass from the highest down marks all that is reached. */
size_t reached_levels(const struct store *s, const zt_edge *roots, size_t count, uint16_t *list)
{
    uint8_t *reached = zeros((size_t)s->count + 1), *used = zeros((size_t)s->levels + 1);
    size_t i, n = 0;

    for (i = 0; i < count; i++)
        reached[magnitude_of(roots[i])] = 1;
    for (i = s->count; i >= 2; i--) {
        if (!reached[i])
            continue;
        used[s->level[i - 1]] = 1;
        reached[magnitude_of(s->then[i - 1])] = 1;
        reached[magnitude_of(s->els[i - 1])] = 1;
    }
    for (i = 0; i < s->levels; i++)
        if (used[i])
            list[n++] = (uint16_t)i;
    free(reached);
    free(used);
    return n;
}
