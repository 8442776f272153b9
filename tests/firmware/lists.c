/* Lists of calls on one store, `02/lists.tsv` and `02/06_lists.tsv`: each call is made on the store that those before it left. */
#include <stdlib.h>
#include <string.h>

#include "groups.h"
#include "report.h"

enum { CALL_COLUMNS = 7, END_COLUMNS = 9 };
enum kind { NEW, LOAD, JOIN, OPPOSITE, END };

static const char *const tables[] = {"02/lists.tsv", "02/06_lists.tsv"};

/* A line of the table. */
struct listed {
    enum kind kind;
    /* the store of a list that starts here, or the one that a list must leave */
    struct store store;
    /* the arguments of a load */
    struct bytes file;
    uint16_t *list;
    size_t list_len;
    /* those of a join, or, in `left`, of an opposite */
    enum operation op;
    zt_edge left, right;
    /* what a call must give */
    unsigned refusal;
    size_t line;
    zt_edge *roots;
    size_t roots_len;
    size_t count;
};

static void read_new(char *words, struct listed *c)
{
    uint16_t levels = (uint16_t)number_in(cut(&words, ' '));

    c->kind = NEW;
    c->store = empty_store(levels, (size_t)number_in(cut(&words, ' ')));
    if (number_in(words) != 0)
        stop("a list lends a list of counts");
}

static void read_load(char *words, struct listed *c)
{
    char *file = cut(&words, ' ');

    c->kind = LOAD;
    c->file = bytes_in(file, strlen(file));
    c->list = short_list(words, &c->list_len);
}

static void read_join(char *words, struct listed *c)
{
    c->kind = JOIN;
    c->op = operation_in(cut(&words, ' '));
    c->left = (zt_edge)number_in(cut(&words, ' '));
    c->right = (zt_edge)number_in(words);
}

static void read_opposite(char *words, struct listed *c)
{
    c->kind = OPPOSITE;
    c->left = (zt_edge)number_in(words);
}

static void read_call(char **column, struct listed *c)
{
    char *words = column[2], *call = cut(&words, ' ');

    if (strcmp(call, "new") == 0)
        read_new(words, c);
    else if (strcmp(call, "load") == 0)
        read_load(words, c);
    else if (strcmp(call, "join") == 0)
        read_join(words, c);
    else if (strcmp(call, "opposite") == 0)
        read_opposite(words, c);
    else
        stop("a call of a list isn't known");
    c->refusal = (unsigned)number_in(column[3]);
    c->line = (size_t)number_in(column[4]);
    c->roots = edge_list(column[5], &c->roots_len);
    c->count = (size_t)number_in(column[6]);
}

static void read_end(char **column, uint16_t levels, struct listed *c)
{
    if (strcmp(column[1], "end") != 0 || strcmp(column[8], "none") != 0)
        stop("a list's end isn't known");
    c->kind = END;
    c->store = store_after(column + 2, levels);
}

/* The next line, where the list's store is this one; 0 after the last one. */
static int next_listed(struct table *t, const struct store *s, struct listed *c)
{
    if (!next_line(t, CALL_COLUMNS, END_COLUMNS))
        return 0;
    memset(c, 0, sizeof *c);
    if (t->width == END_COLUMNS)
        read_end(t->columns, s->levels, c);
    else
        read_call(t->columns, c);
    return 1;
}

static void drop_listed(struct listed *c)
{
    if (c->kind == NEW || c->kind == END)
        drop_store(&c->store);
    free(c->file.at);
    free(c->list);
    free(c->roots);
}

static void hold_listed_load(const struct listed *c, struct store *s)
{
    struct load l = load_of(c->file.at, c->file.len, c->list, c->list_len, scratch_for(&c->file));

    call_load(&l, s);
    holds(l.answer.refusal == c->refusal, "the refusal is the stored one");
    holds(l.answer.line == c->line, "the line is the stored one");
    holds(s->count == c->count, "the count afterwards is the stored one");
    if (holds(l.answer.nroots == c->roots_len, "as many roots as stored"))
        holds(c->roots_len == 0 || memcmp(roots_of(&l), c->roots, c->roots_len * sizeof *c->roots) == 0, "the roots are the stored ones");
    done_with(&l);
}

/* A join or an opposite gives one root, or is refused. */
static void hold_listed_root(const struct listed *c, struct store *s)
{
    struct zt_join_answer a = c->kind == JOIN ? call_join(s, c->op, c->left, c->right) : call_opposite(s, c->left);

    holds(a.refusal == c->refusal, "the refusal is the stored one");
    holds(a.line == c->line, "the line is the stored one");
    holds(s->count == c->count, "the count afterwards is the stored one");
    if (holds(c->roots_len == (a.refusal == 0), "a root is stored where there is one") && c->roots_len == 1)
        holds(a.root == c->roots[0], "the root is the stored one");
}

/* Holds a line to what is stored; the store is as the call leaves it. */
static void hold_listed(const struct listed *c, struct store *s)
{
    if (c->kind == NEW) {
        drop_store(s);
        *s = copy_of(&c->store);
        holds(c->refusal == 0 && c->line == 0 && c->roots_len == 0 && c->count == s->count, "a list starts with an empty store");
    } else if (c->kind == LOAD) {
        hold_listed_load(c, s);
    } else if (c->kind == JOIN || c->kind == OPPOSITE) {
        hold_listed_root(c, s);
    } else {
        holds(same_store(s, &c->store), "the store at the end of a list is the stored one");
    }
}

/* What is done with each line; it leaves the store as the line's call does. */
typedef void with_line(struct listed *c, struct store *s);

static size_t go_through(const char *name, with_line *each)
{
    struct table t = open_table(vectors, name);
    struct store s = empty_store(0, 1);
    struct listed c;
    size_t cases = 0;

    for (; next_listed(&t, &s, &c); cases++) {
        each(&c, &s);
        drop_listed(&c);
    }
    close_table(&t);
    drop_store(&s);
    return cases;
}

static void only_hold(struct listed *c, struct store *s)
{
    hold_listed(c, s);
}

void try_lists(void)
{
    size_t i;

    for (i = 0; i < sizeof tables / sizeof *tables; i++)
        group_done(tables[i], go_through(tables[i], only_hold));
}

/* Changed lines are held on a copy of the store. */
static void try_changed(const struct listed *c, const struct store *s, const char *change)
{
    struct store copy = copy_of(s);

    expect_failures();
    hold_listed(c, &copy);
    must_be_noticed(change);
    drop_store(&copy);
}

static void change_call(struct listed *c, const struct store *s)
{
    c->refusal++;
    try_changed(c, s, "another refusal in a list is noticed");
    c->refusal--;
    c->line++;
    try_changed(c, s, "another line in a list is noticed");
    c->line--;
    c->count++;
    try_changed(c, s, "another count in a list is noticed");
    c->count--;
    if (c->roots_len > 0) {
        c->roots[c->roots_len - 1] = (zt_edge)-c->roots[c->roots_len - 1];
        try_changed(c, s, "another root in a list is noticed");
        c->roots[c->roots_len - 1] = (zt_edge)-c->roots[c->roots_len - 1];
        c->roots_len--;
        try_changed(c, s, "a root more in a list is noticed");
        c->roots_len++;
    }
}

static void change_end(struct listed *c, const struct store *s)
{
    struct store *end = &c->store;
    size_t last = end->level_len - 1;

    end->count++;
    try_changed(c, s, "another count at a list's end is noticed");
    end->count--;
    end->level[last]++;
    try_changed(c, s, "another level at a list's end is noticed");
    end->level[last]--;
    end->then[last]++;
    try_changed(c, s, "another then edge at a list's end is noticed");
    end->then[last]--;
    end->els[last]++;
    try_changed(c, s, "another else edge at a list's end is noticed");
    end->els[last]--;
    end->next[last]++;
    try_changed(c, s, "another link at a list's end is noticed");
    end->next[last]--;
    end->heads[255]++;
    try_changed(c, s, "another head at a list's end is noticed");
    end->heads[255]--;
}

static void hold_and_change(struct listed *c, struct store *s)
{
    if (c->kind == END)
        change_end(c, s);
    else
        change_call(c, s);
    hold_listed(c, s);
}

void change_lists(void)
{
    size_t i;

    for (i = 0; i < sizeof tables / sizeof *tables; i++)
        go_through(tables[i], hold_and_change);
}
