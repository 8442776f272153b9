/* Stored tipping points, the table of document 02's sixth request; and changed ones, which must be noticed. */
#include <stdlib.h>
#include <string.h>

#include "groups.h"
#include "report.h"

enum { TIP_COLUMNS = 13 };

static const char tips[] = "02/06_tip.tsv";

struct tip_vector {
    struct store store;
    struct tip call;
    struct bytes setting;
    /* what the call must give */
    unsigned refusal, level;
};

static int next_tip(struct table *t, struct tip_vector *v)
{
    char **column = t->columns;

    if (!next_line(t, TIP_COLUMNS, TIP_COLUMNS))
        return 0;
    v->store = store_in(column);
    v->setting = bytes_in(column[9], strlen(column[9]));
    v->call = tip_of(&v->store, (zt_edge)number_in(column[8]), v->setting.at);
    v->call.setting_len = v->setting.len;
    v->refusal = (unsigned)number_in(column[10]);
    v->level = (unsigned)number_in(column[11]);
    return 1;
}

static void drop_tip(struct tip_vector *v)
{
    drop_store(&v->store);
    free(v->setting.at);
}

static void hold_tip(struct tip_vector *v)
{
    call_tip(&v->call, &v->store);
    holds(v->call.answer.refusal == v->refusal, "the refusal is the stored one");
    holds(v->call.answer.level == v->level, "the level is the stored one");
}

void try_tips(void)
{
    struct table t = open_table(vectors, tips);
    struct tip_vector v;
    size_t cases = 0;

    for (; next_tip(&t, &v); cases++) {
        hold_tip(&v);
        drop_tip(&v);
    }
    close_table(&t);
    group_done(tips, cases);
}

/* Changed cases */

static void try_changed(struct tip_vector *v, const char *change)
{
    expect_failures();
    hold_tip(v);
    must_be_noticed(change);
}

/* Where a level tips, another setting is refused that is a byte shorter, or has a byte that is neither no nor yes. */
static void change_asked(struct tip_vector *v)
{
    size_t i;

    for (i = 0; i < v->setting.len; i++) {
        v->setting.at[i] ^= 2;
        try_changed(v, "another byte of a setting is noticed");
        v->setting.at[i] ^= 2;
    }
    v->call.setting_len--;
    try_changed(v, "a shorter setting is noticed");
    v->call.setting_len++;
    v->call.root = v->call.root < 0 ? -1 : 1;
    try_changed(v, "a tipping point of a constant is noticed");
}

/* Any other level is noticed; for a lower one and a deeper one it is tried. */
static void change_level(struct tip_vector *v)
{
    v->level++;
    try_changed(v, "a deeper level is noticed");
    v->level -= 2;
    try_changed(v, "a lower level is noticed");
    v->level++;
}

void change_tips(void)
{
    struct table t = open_table(vectors, tips);
    struct tip_vector v;

    while (next_tip(&t, &v)) {
        v.refusal++;
        try_changed(&v, "another refusal of a tipping point is noticed");
        v.refusal--;
        change_level(&v);
        if (v.refusal == 0)
            change_asked(&v);
        drop_tip(&v);
    }
    close_table(&t);
}
