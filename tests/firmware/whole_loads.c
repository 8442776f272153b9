/* Stored loads with all that they give, `02/03_load.tsv` and `02/05_load.tsv`: the answer's numbers, every output, and the store; and changed ones,
   which must be noticed. */
#include <stdlib.h>
#include <string.h>

#include "groups.h"
#include "report.h"

enum { WHOLE_COLUMNS = 34, NUMBERS = 10, OUTPUTS = LOAD_ROOTLENS - LOAD_IDS + 1 };

static const char *const whole_loads[] = {"02/03_load.tsv", "02/05_load.tsv"};
enum { WHOLE_LOADS = sizeof whole_loads / sizeof *whole_loads };

/* An output as it is stored, without the zeros at its end; a root's entry is its two's complement. */
struct output {
    uint32_t *at;
    size_t len;
};

struct whole_load {
    struct bytes file;
    uint16_t *list;
    size_t list_len;
    size_t lens[LOAD_PARTS];
    struct store before, after;
    /* what the load must give */
    struct zt_load_answer answer;
    struct output outputs[OUTPUTS];
};

static void read_lens(const char *lists, const char *edges, const char *seats, size_t *lens)
{
    size_t count, i;
    uint32_t *list = wide_list(lists, &count);

    if (count != OUTPUTS)
        stop("a stored load has another number of lists");
    fit_outputs(lens, 0);
    for (i = 0; i < OUTPUTS; i++)
        lens[LOAD_IDS + i] = list[i];
    lens[LOAD_EDGES] = (size_t)number_in(edges);
    lens[LOAD_SEATS] = (size_t)number_in(seats);
    free(list);
}

static struct zt_load_answer answer_in(char **column)
{
    size_t count;
    uint32_t *n = wide_list(column[2], &count);
    struct zt_load_answer a;

    if (count != NUMBERS)
        stop("a stored load has another number of numbers");
    memset(&a, 0, sizeof a);
    a.refusal = (uint8_t)number_in(column[0]);
    a.line = (size_t)number_in(column[1]);
    a.ascii = (uint8_t)n[0];
    a.varinfo = (uint8_t)n[1];
    a.ddstart = n[2];
    a.ddlen = n[3];
    a.nnodes = n[4];
    a.nvars = n[5];
    a.nsuppvars = n[6];
    a.nroots = n[7];
    a.next = n[8];
    a.lines = n[9];
    free(n);
    return a;
}

static int next_whole_load(struct table *t, struct whole_load *w)
{
    char **column = t->columns;
    size_t i;

    if (!next_line(t, WHOLE_COLUMNS, WHOLE_COLUMNS))
        return 0;
    if (strcmp(column[10], "none") != 0 || strcmp(column[32], "none") != 0)
        stop("a stored load lends a list of counts");
    w->file = bytes_in(column[0], strlen(column[0]));
    w->list = short_list(column[1], &w->list_len);
    w->before = store_in(column + 2);
    read_lens(column[11], column[12], column[13], w->lens);
    w->answer = answer_in(column + 14);
    for (i = 0; i < OUTPUTS; i++)
        w->outputs[i].at = wide_list(column[17 + i], &w->outputs[i].len);
    w->after = store_after(column + 26, w->before.levels);
    return 1;
}

static void drop_whole_load(struct whole_load *w)
{
    size_t i;

    free(w->file.at);
    free(w->list);
    for (i = 0; i < OUTPUTS; i++)
        free(w->outputs[i].at);
    drop_store(&w->before);
    drop_store(&w->after);
}

/* An entry of an output that a load gave. */
static uint32_t given(const struct load *c, enum load_part part, size_t i)
{
    return part == LOAD_ROOTS ? (uint32_t)(int32_t)roots_of(c)[i] : numbers_of(c, part)[i];
}

static void hold_output(const struct load *c, enum load_part part, const struct output *stored)
{
    size_t i;

    if (!holds(stored->len <= c->lens[part], "an output has room for its entries"))
        return;
    for (i = 0; i < stored->len; i++)
        holds(given(c, part, i) == stored->at[i], "an entry of an output is the stored one");
    holds(zeros_from(&c->parts[part], stored->len), "an output is zeros after its stored entries");
}

/* Holds what a load gave, and the store that it left, to what is stored. */
static void hold_given(const struct whole_load *w, const struct load *c, const struct store *s)
{
    size_t i;

    holds(same_load_answers(&c->answer, &w->answer), "the answer is the stored one");
    holds(same_store(s, &w->after), "the store is the stored one");
    for (i = 0; i < OUTPUTS; i++)
        hold_output(c, (enum load_part)(LOAD_IDS + i), &w->outputs[i]);
}

/* What is done with each load after it was made, with what it gave and the store that it left. */
typedef void with_load(struct whole_load *w, const struct load *c, const struct store *s);

static size_t make_each(const char *name, with_load *each)
{
    struct table t = open_table(vectors, name);
    struct whole_load w;
    size_t cases = 0;

    for (; next_whole_load(&t, &w); cases++) {
        struct store s = copy_of(&w.before);
        struct load c = load_of(w.file.at, w.file.len, w.list, w.list_len, 0);

        memcpy(c.lens, w.lens, sizeof c.lens);
        call_load(&c, &s);
        each(&w, &c, &s);
        done_with(&c);
        drop_store(&s);
        drop_whole_load(&w);
    }
    close_table(&t);
    return cases;
}

static void only_hold(struct whole_load *w, const struct load *c, const struct store *s)
{
    hold_given(w, c, s);
}

void try_whole_loads(void)
{
    size_t i;

    for (i = 0; i < WHOLE_LOADS; i++)
        group_done(whole_loads[i], make_each(whole_loads[i], only_hold));
}

/* Changed loads */

static void try_changed(const struct whole_load *w, const struct load *c, const struct store *s, const char *change)
{
    expect_failures();
    hold_given(w, c, s);
    must_be_noticed(change);
}

static void change_answer(struct whole_load *w, const struct load *c, const struct store *s)
{
    struct zt_load_answer kept = w->answer;

    w->answer.refusal++;
    try_changed(w, c, s, "another refusal is noticed");
    w->answer = kept;
    w->answer.line++;
    try_changed(w, c, s, "another line is noticed");
    w->answer = kept;
    w->answer.nroots++;
    try_changed(w, c, s, "another number of roots is noticed");
    w->answer = kept;
    w->answer.next++;
    try_changed(w, c, s, "another position of the nodes is noticed");
    w->answer = kept;
}

static void change_outputs(struct whole_load *w, const struct load *c, const struct store *s)
{
    size_t i;

    for (i = 0; i < OUTPUTS; i++) {
        struct output *o = &w->outputs[i];

        if (o->len == 0)
            continue;
        o->at[o->len - 1]++;
        try_changed(w, c, s, "another entry of an output is noticed");
        o->at[o->len - 1]--;
        o->len--;
        try_changed(w, c, s, "an entry more of an output is noticed");
        o->len++;
    }
}

static void change_store(struct whole_load *w, const struct load *c, const struct store *s)
{
    struct store *after = &w->after;

    after->count++;
    try_changed(w, c, s, "another count is noticed");
    after->count--;
    after->els[after->els_len - 1]++;
    try_changed(w, c, s, "another else edge is noticed");
    after->els[after->els_len - 1]--;
    after->heads[255]++;
    try_changed(w, c, s, "another head is noticed");
    after->heads[255]--;
}

static void hold_changed(struct whole_load *w, const struct load *c, const struct store *s)
{
    change_answer(w, c, s);
    change_outputs(w, c, s);
    change_store(w, c, s);
}

void change_whole_loads(void)
{
    size_t i;

    for (i = 0; i < WHOLE_LOADS; i++)
        make_each(whole_loads[i], hold_changed);
}
