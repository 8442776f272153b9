/* Tipping points, with all that holds of every one of them. */
#include <stdlib.h>
#include <string.h>

#include "calls.h"
#include "report.h"

enum tip_part { TIP_SETTING = STORE_PARTS, TIP_WORK, TIP_PARTS };

struct tip tip_of(const struct store *s, zt_edge root, const uint8_t *setting)
{
    struct tip c;

    memset(&c, 0, sizeof c);
    c.root = root;
    c.setting = setting;
    c.setting_len = s->levels;
    return c;
}

static struct zt_tip_answer tip_with(const struct tip *c, const struct store *s, const struct lent *p)
{
    return zt_tip(s->levels, s->count, p[STORE_LEVEL].at, p[STORE_LEVEL].entries, p[STORE_THEN].at, p[STORE_THEN].entries,
        p[STORE_ELS].at, p[STORE_ELS].entries, p[STORE_NEXT].at, p[STORE_NEXT].entries, p[STORE_HEADS].at, p[STORE_HEADS].entries,
        c->root, p[TIP_SETTING].at, p[TIP_SETTING].entries, p[TIP_WORK].at, p[TIP_WORK].entries);
}

/* Makes the call with this work, which is given back with all other parts. */
static struct zt_tip_answer tip_by(const struct tip *c, const struct store *s, struct lent work)
{
    struct lent p[TIP_PARTS];
    struct zt_tip_answer a;

    lend_store(p, s);
    p[TIP_SETTING] = lend(c->setting, c->setting_len, sizeof *c->setting);
    p[TIP_WORK] = work;
    a = tip_with(c, s, p);
    holds(all_guards_hold(p, TIP_PARTS), "a tipping point writes nothing beside its parts");
    holds(all_as_before(p, 0, TIP_SETTING), "a tipping point leaves the store and the setting as they were");
    holds(all_zeros(p, TIP_WORK, TIP_WORK), "work ends as zeros");
    holds(a.line == 0, "a tipping point has line 0");
    holds(a.refusal == 0 || a.level == 0, "a refused tipping point has level 0");
    give_back(p, TIP_PARTS);
    return a;
}

/* Small numbers, such as a call could have left there that remembers what nodes answer: nothing may be taken for remembered. */
static struct lent used_work(size_t entries)
{
    zt_index *content = room(entries * sizeof *content);
    struct lent work;
    size_t i;

    for (i = 0; i < entries; i++)
        content[i] = (zt_index)(i % 4);
    work = lend(content, entries, sizeof *content);
    free(content);
    return work;
}

/* From none to one more than there are nodes, another length from call to call: some have no entry for each node's answer, some just have. */
static size_t next_work_length(size_t nodes)
{
    static size_t calls;
    size_t turn = calls++;

    switch (turn % 4) {
    case 0: return nodes == 0 ? 0 : nodes - 1;
    case 1: return nodes;
    case 2: return nodes + 1;
    default: return turn % (nodes + 1);
    }
}

static int same_tips(struct zt_tip_answer a, struct zt_tip_answer b)
{
    return a.refusal == b.refusal && a.line == b.line && a.level == b.level;
}

static int is_good(const struct tip *c, const struct store *s)
{
    size_t i;

    for (i = 0; i < c->setting_len; i++)
        if (c->setting[i] > 1)
            return 0;
    return c->setting_len == s->levels && keeps_rules(s) && magnitude_of(c->root) >= 1 && magnitude_of(c->root) <= s->count;
}

int turns_over(const struct tip *c, const struct store *s, size_t level)
{
    uint8_t *flipped = room(c->setting_len);
    int answer;

    memcpy(flipped, c->setting, c->setting_len);
    flipped[level] = !flipped[level];
    answer = answer_of(s, c->root, flipped);
    free(flipped);
    return answer != answer_of(s, c->root, c->setting);
}

static void check_given(const struct tip *c, const struct store *s)
{
    if (holds(is_good(c, s), "a level is given where store, root and setting are good")
        && holds(c->answer.level < s->levels, "the level is one of the store's"))
        holds(turns_over(c, s, c->answer.level), "its flip turns the answer over");
}

void call_tip(struct tip *c, const struct store *s)
{
    size_t nodes = nodes_there(s);

    c->answer = tip_by(c, s, lend_room(work_for(nodes), sizeof(zt_index)));
    holds(same_tips(c->answer, tip_by(c, s, lend_room(0, sizeof(zt_index)))), "a tipping point without work is the same");
    holds(same_tips(c->answer, tip_by(c, s, used_work(next_work_length(nodes)))), "a tipping point with little work is the same");
    if (c->answer.refusal == 0)
        check_given(c, s);
}

void tip_with_work(struct tip *c, const struct store *s, size_t entries)
{
    c->answer = tip_by(c, s, used_work(entries));
}
