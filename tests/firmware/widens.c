/* Stored turns of old stores, a table of document 02's fifth request; and changed ones, which must be noticed. */
#include <stdlib.h>
#include <string.h>

#include "groups.h"
#include "report.h"
#include "widen_calls.h"

enum { WIDEN_COLUMNS = 21 };

static const char widens[] = "02/05_widen.tsv";

struct widen_vector {
    struct old_store old;
    struct widening call;
    /* what the call must give: the whole new lists, and the heads that are lent */
    unsigned refusal;
    struct store after;
};

/* The new store: its count, the four slot lists as they were lent, and the heads that aren't 0, of as many as were lent. */
static struct store read_after(char **column, uint16_t levels, size_t heads_len)
{
    struct store s;

    s.levels = levels;
    s.count = (zt_index)number_in(column[0]);
    s.level = short_list(column[1], &s.level_len);
    s.then = edge_list(column[2], &s.then_len);
    s.els = edge_list(column[3], &s.els_len);
    s.next = wide_list(column[4], &s.next_len);
    s.heads_len = heads_len;
    s.heads = room(heads_len * sizeof *s.heads);
    heads_in(column[5], s.heads, heads_len);
    return s;
}

static int next_widen(struct table *t, struct widen_vector *v)
{
    char **column = t->columns;
    size_t part;

    if (!next_line(t, WIDEN_COLUMNS, WIDEN_COLUMNS))
        return 0;
    v->old = old_store_in(column);
    v->call = widening_into(0);
    for (part = 0; part < STORE_PARTS; part++)
        v->call.lens[part] = (size_t)number_in(column[8 + part]);
    v->refusal = (unsigned)number_in(column[13]);
    v->after = read_after(column + 14, v->old.levels, v->call.lens[STORE_HEADS]);
    return 1;
}

static void drop_widen(struct widen_vector *v)
{
    drop_old_store(&v->old);
    drop_store(&v->after);
}

/* Does a part hold this list, and nothing more? */
static int holds_list(const struct lent *part, const void *list, size_t len)
{
    return part->entries == len && (len == 0 || memcmp(part->at, list, len * part->width) == 0);
}

static void hold_widen(const struct widen_vector *v)
{
    const struct lent *p = v->call.parts + WIDEN_NEW;
    const struct store *s = &v->after;

    holds(v->call.answer.refusal == v->refusal, "the refusal is the stored one");
    holds(memcmp(v->call.parts[WIDEN_COUNT].at, &s->count, sizeof s->count) == 0, "the new count is the stored one");
    holds(holds_list(&p[STORE_LEVEL], s->level, s->level_len), "the new levels are the stored ones");
    holds(holds_list(&p[STORE_THEN], s->then, s->then_len), "the new then edges are the stored ones");
    holds(holds_list(&p[STORE_ELS], s->els, s->els_len), "the new else edges are the stored ones");
    holds(holds_list(&p[STORE_NEXT], s->next, s->next_len), "the new links are the stored ones");
    holds(holds_list(&p[STORE_HEADS], s->heads, s->heads_len), "the new heads are the stored ones");
}

/* Makes each turn, and does something with what it gave. */
static size_t make_each(void (*each)(struct widen_vector *v))
{
    struct table t = open_table(vectors, widens);
    struct widen_vector v;
    size_t cases = 0;

    for (; next_widen(&t, &v); cases++) {
        call_widen(&v.call, &v.old);
        each(&v);
        done_widening(&v.call);
        drop_widen(&v);
    }
    close_table(&t);
    return cases;
}

static void only_hold(struct widen_vector *v)
{
    hold_widen(v);
}

void try_widens(void)
{
    group_done(widens, make_each(only_hold));
}

/* Changed cases */

static void try_changed(const struct widen_vector *v, const char *change)
{
    expect_failures();
    hold_widen(v);
    must_be_noticed(change);
}

static void change_lists_of(struct widen_vector *v)
{
    struct store *s = &v->after;
    size_t last = s->level_len - 1;

    s->level[last]++;
    try_changed(v, "another level is noticed");
    s->level[last]--;
    s->then[last] ^= INT32_MIN;
    try_changed(v, "another then edge is noticed");
    s->then[last] ^= INT32_MIN;
    s->els[0]--;
    try_changed(v, "another else edge is noticed");
    s->els[0]++;
    s->next[last] += 65536;
    try_changed(v, "another link is noticed");
    s->next[last] -= 65536;
    s->next_len--;
    try_changed(v, "a longer list is noticed");
    s->next_len++;
}

static void hold_changed(struct widen_vector *v)
{
    struct store *s = &v->after;

    v->refusal++;
    try_changed(v, "another refusal of a turn is noticed");
    v->refusal--;
    s->count += 65536;
    try_changed(v, "another count is noticed");
    s->count -= 65536;
    if (s->level_len > 0 && s->level_len == s->then_len && s->level_len == s->next_len && s->els_len > 0)
        change_lists_of(v);
    if (s->heads_len > 0) {
        s->heads[s->heads_len - 1]++;
        try_changed(v, "another head is noticed");
        s->heads[s->heads_len - 1]--;
    }
}

void change_widens(void)
{
    make_each(hold_changed);
}
