/* Examples, with all that holds of every one of them. */
#include <string.h>

#include "calls.h"
#include "report.h"

enum example_part { EXAMPLE_SETTING = STORE_PARTS, EXAMPLE_WORK, EXAMPLE_PARTS };

struct example example_of(const struct store *s, zt_edge root, uint8_t wanted)
{
    struct example c;

    memset(&c, 0, sizeof c);
    c.root = root;
    c.wanted = wanted;
    c.setting_len = s->levels;
    return c;
}

static void lend_example(const struct example *c, const struct store *s, size_t work, struct lent *p)
{
    lend_store(p, s);
    p[EXAMPLE_SETTING] = lend_room(c->setting_len, sizeof(uint8_t));
    p[EXAMPLE_WORK] = lend_room(work, sizeof(zt_index));
}

static struct zt_example_answer example_with(const struct example *c, const struct store *s, const struct lent *p)
{
    return zt_example(s->levels, s->count, p[STORE_LEVEL].at, p[STORE_LEVEL].entries, p[STORE_THEN].at, p[STORE_THEN].entries,
        p[STORE_ELS].at, p[STORE_ELS].entries, p[STORE_NEXT].at, p[STORE_NEXT].entries, p[STORE_HEADS].at, p[STORE_HEADS].entries,
        c->root, c->wanted, p[EXAMPLE_SETTING].at, p[EXAMPLE_SETTING].entries, p[EXAMPLE_WORK].at, p[EXAMPLE_WORK].entries);
}

/* The same example without work gives the same. */
static void example_without_work(const struct example *c, const struct store *s, const struct lent *parts)
{
    struct lent p[EXAMPLE_PARTS];
    struct zt_example_answer a;

    lend_example(c, s, 0, p);
    a = example_with(c, s, p);
    holds(all_guards_hold(p, EXAMPLE_PARTS), "an example without work writes nothing beside its parts");
    holds(all_as_before(p, 0, STORE_HEADS), "an example without work leaves the store as it was");
    holds(a.refusal == c->answer.refusal && a.line == c->answer.line, "an example without work answers the same");
    holds(all_alike(p, parts, EXAMPLE_SETTING, EXAMPLE_SETTING), "an example without work gives the same setting");
    give_back(p, EXAMPLE_PARTS);
}

static int is_no_or_yes(const struct lent *setting)
{
    const uint8_t *at = setting->at;
    size_t i;

    for (i = 0; i < setting->entries; i++)
        if (at[i] > 1)
            return 0;
    return 1;
}

static void check_given(const struct example *c, const struct store *s)
{
    int fits = holds(c->setting_len >= s->levels, "an example is given where the setting is long enough")
        && holds(keeps_rules(s), "and the store keeps the rules")
        && holds(magnitude_of(c->root) >= 1 && magnitude_of(c->root) <= s->count, "and the root is an edge of the store");

    holds(is_no_or_yes(&c->setting), "the setting has the bytes 0 and 1 alone");
    if (!fits)
        return;
    holds(zeros_from(&c->setting, s->levels), "the setting is zeros beyond the levels");
    holds(answer_of(s, c->root, c->setting.at) == (c->wanted != 0), "the root answers as wanted at the setting");
}

void call_example(struct example *c, const struct store *s)
{
    struct lent p[EXAMPLE_PARTS];

    lend_example(c, s, work_for(nodes_there(s)), p);
    c->answer = example_with(c, s, p);
    example_without_work(c, s, p);
    holds(all_guards_hold(p, EXAMPLE_PARTS), "an example writes nothing beside its parts");
    holds(all_as_before(p, 0, STORE_HEADS), "an example leaves the store as it was");
    holds(all_zeros(p, EXAMPLE_WORK, EXAMPLE_WORK), "work ends as zeros");
    holds(c->answer.line == 0, "an example has line 0");
    c->setting = p[EXAMPLE_SETTING];
    if (c->answer.refusal != 0)
        holds(zeros_from(&c->setting, 0), "the setting of a refused example is zeros");
    else
        check_given(c, s);
    give_back(p, EXAMPLE_SETTING);
    give_back(&p[EXAMPLE_WORK], 1);
}

void done_with_example(struct example *c)
{
    give_back(&c->setting, 1);
}

int gives_setting(const struct example *c, const uint8_t *setting, size_t len)
{
    return c->setting.entries >= len && (len == 0 || memcmp(c->setting.at, setting, len) == 0) && zeros_from(&c->setting, len);
}
