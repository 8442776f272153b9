/* Stored examples, the table of document 02's fourth request; and changed ones, which must be noticed. */
#include <stdlib.h>
#include <string.h>

#include "groups.h"
#include "report.h"

enum { EXAMPLE_COLUMNS = 14 };

static const char examples[] = "02/04_walk.tsv";

struct example_vector {
    struct store store;
    struct example call;
    /* what the call must give: the setting is all that was lent */
    unsigned refusal;
    struct bytes setting;
};

static int next_example(struct table *t, struct example_vector *v)
{
    char **column = t->columns;

    if (!next_line(t, EXAMPLE_COLUMNS, EXAMPLE_COLUMNS))
        return 0;
    v->store = store_in(column);
    v->call = example_of(&v->store, (zt_edge)number_in(column[8]), (uint8_t)number_in(column[9]));
    v->call.setting_len = (size_t)number_in(column[10]);
    v->refusal = (unsigned)number_in(column[11]);
    v->setting = bytes_in(column[12], strlen(column[12]));
    if (v->setting.len != v->call.setting_len)
        stop("a stored setting isn't as long as the one that is lent");
    return 1;
}

static void drop_example(struct example_vector *v)
{
    drop_store(&v->store);
    free(v->setting.at);
}

static void hold_example(struct example_vector *v)
{
    call_example(&v->call, &v->store);
    holds(v->call.answer.refusal == v->refusal, "the refusal is the stored one");
    holds(gives_setting(&v->call, v->setting.at, v->setting.len), "the setting is the stored one");
    done_with_example(&v->call);
}

void try_examples(void)
{
    struct table t = open_table(vectors, examples);
    struct example_vector v;
    size_t cases = 0;

    for (; next_example(&t, &v); cases++) {
        hold_example(&v);
        drop_example(&v);
    }
    close_table(&t);
    group_done(examples, cases);
}

/* Changed cases */

static void try_changed(struct example_vector *v, const char *change)
{
    expect_failures();
    hold_example(v);
    must_be_noticed(change);
}

static void change_setting(struct example_vector *v)
{
    size_t i;

    for (i = 0; i < v->setting.len; i++) {
        v->setting.at[i] ^= 1;
        try_changed(v, "another byte of a setting is noticed");
        v->setting.at[i] ^= 1;
    }
}

/* Of a root that isn't refused, the setting for the other answer is another one. */
static void change_asked(struct example_vector *v)
{
    uint8_t wanted = v->call.wanted;

    v->call.wanted = wanted == 0;
    try_changed(v, "another wanted answer is noticed");
    v->call.wanted = wanted;
    v->call.root = (zt_edge)-v->call.root;
    try_changed(v, "an example of the opposite is noticed");
    v->call.root = (zt_edge)-v->call.root;
}

void change_examples(void)
{
    struct table t = open_table(vectors, examples);
    struct example_vector v;

    while (next_example(&t, &v)) {
        v.refusal++;
        try_changed(&v, "another refusal of an example is noticed");
        v.refusal--;
        change_setting(&v);
        if (v.refusal == 0)
            change_asked(&v);
        drop_example(&v);
    }
    close_table(&t);
}
