#include "widen_calls.h"

#include <stdlib.h>
#include <string.h>

#include "report.h"

static const size_t widths[STORE_PARTS] = {sizeof(uint16_t), sizeof(zt_edge), sizeof(zt_edge), sizeof(zt_index), sizeof(zt_index)};

struct widening widening_into(size_t slots)
{
    struct widening c;
    size_t part;

    memset(&c, 0, sizeof c);
    for (part = STORE_LEVEL; part <= STORE_NEXT; part++)
        c.lens[part] = slots;
    c.lens[STORE_HEADS] = ZT_BUCKETS;
    return c;
}

static void lend_old(struct lent *p, const struct old_store *o)
{
    p[STORE_LEVEL] = lend(o->level, o->level_len, sizeof *o->level);
    p[STORE_THEN] = lend(o->then, o->then_len, sizeof *o->then);
    p[STORE_ELS] = lend(o->els, o->els_len, sizeof *o->els);
    p[STORE_NEXT] = lend(o->next, o->next_len, sizeof *o->next);
    p[STORE_HEADS] = lend(o->heads, o->heads_len, sizeof *o->heads);
}

/* What the new lists may hold before the call: what nobody wrote, or a byte everywhere. */
enum stale { UNWRITTEN = -1, ZEROS = 0, ONES = 0xff };

static void lend_new(struct widening *c, enum stale stale, size_t work)
{
    struct lent *p = c->parts;
    size_t part;

    for (part = 0; part < STORE_PARTS; part++)
        p[WIDEN_NEW + part] = lend_room(c->lens[part], widths[part]);
    p[WIDEN_COUNT] = lend_room(1, sizeof(zt_index));
    p[WIDEN_WORK] = lend_room(work, sizeof(zt_index));
    for (part = WIDEN_NEW; stale != UNWRITTEN && part <= WIDEN_WORK; part++)
        if (p[part].entries != 0)
            memset(p[part].at, stale, p[part].entries * p[part].width);
}

static void widen_with(struct widening *c, const struct old_store *o, enum stale stale, size_t work)
{
    struct lent *p = c->parts, *n = p + WIDEN_NEW;

    lend_old(p, o);
    lend_new(c, stale, work);
    c->answer = zt_widen(o->levels, o->count, p[STORE_LEVEL].at, p[STORE_LEVEL].entries, p[STORE_THEN].at, p[STORE_THEN].entries,
        p[STORE_ELS].at, p[STORE_ELS].entries, p[STORE_NEXT].at, p[STORE_NEXT].entries, p[STORE_HEADS].at, p[STORE_HEADS].entries,
        p[WIDEN_COUNT].at, n[STORE_LEVEL].at, n[STORE_LEVEL].entries, n[STORE_THEN].at, n[STORE_THEN].entries, n[STORE_ELS].at,
        n[STORE_ELS].entries, n[STORE_NEXT].at, n[STORE_NEXT].entries, n[STORE_HEADS].at, n[STORE_HEADS].entries,
        p[WIDEN_WORK].at, p[WIDEN_WORK].entries);
    holds(all_guards_hold(p, WIDEN_PARTS), "a turn writes nothing beside its parts");
    holds(all_as_before(p, WIDEN_OLD, STORE_HEADS), "a turn leaves the old store as it was");
    holds(zeros_from(&p[WIDEN_WORK], 0), "work ends as zeros");
    holds(c->answer.line == 0, "a turn has line 0");
}

/* The same turn with other work and other stale content gives the same. */
static void widen_otherwise(const struct widening *c, const struct old_store *o, enum stale stale, size_t work)
{
    struct widening other = *c;

    widen_with(&other, o, stale, work);
    holds(other.answer.refusal == c->answer.refusal, "a turn over other content answers the same");
    holds(all_alike(c->parts, other.parts, WIDEN_NEW, WIDEN_COUNT), "a turn over other content leaves the same");
    done_widening(&other);
}

/* 'slot lists unequal or shorter than the old count, or other than 256 heads, meet 1, before 3' */
static unsigned refusal_for(const struct widening *c, const struct old_store *o)
{
    size_t part;

    for (part = STORE_LEVEL; part <= STORE_NEXT; part++)
        if (c->lens[part] != c->lens[STORE_LEVEL] || c->lens[part] < o->count)
            return 1;
    if (c->lens[STORE_HEADS] != ZT_BUCKETS)
        return 1;
    return keeps_old_rules(o) ? 0 : 3;
}

/* Each list holds the entries of the old one, as numbers; what the new one has more is zeros. */
static int has_numbers(const struct store *s, const struct old_store *o)
{
    size_t i;

    for (i = 0; i < o->count; i++)
        if (s->level[i] != o->level[i] || s->then[i] != o->then[i] || s->els[i] != o->els[i] || s->next[i] != o->next[i])
            return 0;
    for (i = 0; i < ZT_BUCKETS; i++)
        if (s->heads[i] != o->heads[i])
            return 0;
    return s->count == o->count;
}

static void check_turned(const struct widening *c, const struct old_store *o)
{
    struct store s = new_store(c, o->levels);
    size_t part;

    holds(has_numbers(&s, o), "the new store has the numbers of the old one");
    for (part = STORE_LEVEL; part <= STORE_NEXT; part++)
        holds(zeros_from(&c->parts[WIDEN_NEW + part], o->count), "unused slots of the new store are zeros");
    holds(keeps_rules(&s), "the new store keeps the rules");
    drop_store(&s);
}

void call_widen(struct widening *c, const struct old_store *o)
{
    unsigned refusal = refusal_for(c, o);

    widen_with(c, o, UNWRITTEN, work_for(o->count));
    widen_otherwise(c, o, ONES, 0);
    widen_otherwise(c, o, ZEROS, work_for(o->count));
    holds(c->answer.refusal == refusal, "a turn is judged by the lengths of the new lists, and then by the old store's rules");
    if (c->answer.refusal != 0)
        holds(all_zeros(c->parts, WIDEN_NEW, WIDEN_COUNT), "a refused turn leaves zeros, and count 0");
    else if (refusal == 0)
        check_turned(c, o);
}

void done_widening(struct widening *c)
{
    give_back(c->parts, WIDEN_PARTS);
}

struct store new_store(const struct widening *c, uint16_t levels)
{
    struct store s = empty_store(levels, c->lens[STORE_LEVEL]);

    take_over(c->parts + WIDEN_NEW, &c->parts[WIDEN_COUNT], &s);
    return s;
}

struct store turned(const struct old_store *o, size_t slots)
{
    struct widening c = widening_into(slots);
    struct store s;

    call_widen(&c, o);
    holds(c.answer.refusal == 0, "an old store that keeps the rules is turned");
    s = new_store(&c, o->levels);
    done_widening(&c);
    return s;
}
