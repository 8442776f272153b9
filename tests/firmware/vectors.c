/* The stored cases of the tables, held to what the calls give; and changed cases, which must be noticed. */
#include <stdlib.h>
#include <string.h>

#include "groups.h"
#include "report.h"

const char *vectors = "tests/vectors";
const char *differences = "tests/differences";

/* The edge 1 answers yes in every store that keeps the rules; of another one an evaluation says 3. */
static void hold_store_of_evaluation(const struct store *s, unsigned refusal)
{
    uint8_t *setting = room(s->levels);
    struct zt_evaluate_answer a;

    memset(setting, 0, s->levels);
    a = call_evaluate(s, 1, setting, s->levels);
    holds(a.refusal == refusal && a.answer == (refusal == 0), "an evaluation says what is stored of a store");
    free(setting);
}

/* Loads */

static void hold_answers(const struct store *s, zt_edge root, const char *answers)
{
    size_t k, settings = (size_t)1 << s->levels;
    uint8_t setting[16];

    for (k = 0; k < settings; k++) {
        struct zt_evaluate_answer a;

        setting_of(k, s->levels, setting);
        a = call_evaluate(s, root, setting, s->levels);
        holds(a.refusal == 0 && a.answer == answers[k] - '0', "a root answers as stored");
    }
    holds(answers[settings] == 0 || answers[settings] == ',', "answers are stored for every setting");
}

static void hold_roots(const struct load_vector *v, const struct load *c, const struct store *s)
{
    const char *answers = v->answers;
    size_t i;

    if (!holds(c->answer.nroots == v->roots_len, "as many roots as stored"))
        return;
    for (i = 0; i < v->roots_len; i++)
        holds(roots_of(c)[i] == v->roots[i], "a root is the stored one");
    for (i = 0; has_answers(v) && i < v->roots_len; i++) {
        hold_answers(s, roots_of(c)[i], answers);
        answers = i + 1 < v->roots_len ? strchr(answers, ',') + 1 : answers;
    }
}

void hold_load(const struct load_vector *v)
{
    struct store s = copy_of(&v->before);
    struct load c = load_of(v->file.at, v->file.len, v->list, v->list_len, 0);

    memcpy(c.lens, v->lens, sizeof c.lens);
    call_load(&c, &s);
    holds(c.answer.refusal == v->refusal, "the refusal is the stored one");
    holds(c.answer.line == v->line, "the line is the stored one");
    holds(same_store(&s, &v->after), "the store is the stored one");
    if (c.answer.refusal == 0)
        hold_store_of_evaluation(&s, 0);
    if (c.answer.refusal == 0 && v->refusal == 0)
        hold_roots(v, &c, &s);
    done_with(&c);
    drop_store(&s);
}

static size_t try_load_table(const char *folder, const char *name)
{
    struct table t = open_table(folder, name);
    struct load_vector v;
    size_t cases = 0;

    for (; next_load(&t, &v); cases++) {
        hold_load(&v);
        drop_load(&v);
    }
    close_table(&t);
    return cases;
}

void try_loads(void)
{
    group_done("load.tsv", try_load_table(vectors, "load.tsv"));
    group_done("room.tsv", try_load_table(vectors, "room.tsv"));
}

void try_differences(void)
{
    group_done("inputs.tsv, the inputs of docs/DIFFERENCES.md", try_load_table(differences, "inputs.tsv"));
}

/* Stores: each call says 3 of a store that breaks its rules, and of no other */

enum { STORE_COLUMNS = 9 };

static uint16_t *levels_in_order(size_t levels)
{
    uint16_t *order = room(levels * sizeof *order);
    size_t l;

    for (l = 0; l < levels; l++)
        order[l] = (uint16_t)l;
    return order;
}

static void hold_store_of_export(const struct store *s, unsigned refusal)
{
    uint16_t *order = levels_in_order(s->levels);
    struct export c = export_of(s, NULL, 0, order, s->levels);

    call_export(&c, s);
    holds(c.answer.refusal == refusal, "an export says what is stored of a store");
    done_exporting(&c);
    free(order);
}

static void hold_store_of_load(const struct store *s, unsigned refusal)
{
    static const char file[] = ".nodes\n.end\n";
    struct store copy = copy_of(s);
    struct load c = load_of(file, sizeof file - 1, NULL, 0, 0);

    call_load(&c, &copy);
    holds(c.answer.refusal == refusal, "a load says what is stored of a store");
    holds(same_store(&copy, s), "a load of no nodes leaves the store as it was");
    done_with(&c);
    drop_store(&copy);
}

/* The operations take turns. */
static void hold_store_of_join(const struct store *s, unsigned refusal)
{
    static size_t stores;
    enum operation op = (enum operation)(stores++ % OPERATIONS);
    struct store copy = copy_of(s);

    holds(call_join(&copy, op, 1, 1).refusal == refusal, "a join says what is stored of a store");
    holds(same_store(&copy, s), "a join that takes no node leaves the store as it was");
    holds(call_opposite(s, 1).refusal == refusal, "an opposite says what is stored of a store");
    drop_store(&copy);
}

/* No flip turns the edge 1 over in a store that keeps the rules. */
static void hold_store_of_tip(const struct store *s, unsigned refusal)
{
    uint8_t *setting = room(s->levels);
    struct tip c = tip_of(s, 1, setting);

    memset(setting, 1, s->levels);
    call_tip(&c, s);
    holds(c.answer.refusal == (refusal == 0 ? 42 : refusal), "a tipping point says what is stored of a store");
    free(setting);
}

static void hold_store(const struct store *s, unsigned refusal)
{
    holds(keeps_rules(s) == (refusal == 0), "the tests' own reading of the rules says what is stored");
    hold_store_of_evaluation(s, refusal);
    hold_store_of_export(s, refusal);
    hold_store_of_load(s, refusal);
    hold_store_of_join(s, refusal);
    hold_store_of_tip(s, refusal);
}

void try_stores(void)
{
    struct table t = open_table(vectors, "stores.tsv");
    size_t cases = 0;

    for (; next_line(&t, STORE_COLUMNS, STORE_COLUMNS); cases++) {
        struct store s = store_in(t.columns);

        hold_store(&s, (unsigned)number_in(t.columns[8]));
        drop_store(&s);
    }
    close_table(&t);
    group_done("stores.tsv", cases);
}

/* Evaluations */

enum { EVALUATE_COLUMNS = 12 };

struct evaluate_vector {
    struct store store;
    zt_edge root;
    struct bytes setting;
    unsigned refusal;
    int answer;
};

static int next_evaluation(struct table *t, struct evaluate_vector *v)
{
    if (!next_line(t, EVALUATE_COLUMNS, EVALUATE_COLUMNS))
        return 0;
    v->store = store_in(t->columns);
    v->root = (zt_edge)number_in(t->columns[8]);
    v->setting = bytes_in(t->columns[9], strlen(t->columns[9]));
    v->refusal = (unsigned)number_in(t->columns[10]);
    v->answer = v->refusal == 0 ? (int)number_in(t->columns[11]) : 0;
    return 1;
}

static void drop_evaluation(struct evaluate_vector *v)
{
    drop_store(&v->store);
    free(v->setting.at);
}

static void hold_evaluation(const struct evaluate_vector *v)
{
    struct zt_evaluate_answer a = call_evaluate(&v->store, v->root, v->setting.at, v->setting.len);

    holds(a.refusal == v->refusal, "the refusal is the stored one");
    holds(a.answer == v->answer, "the answer is the stored one");
}

void try_evaluations(void)
{
    struct table t = open_table(vectors, "evaluate.tsv");
    struct evaluate_vector v;
    size_t cases = 0;

    for (; next_evaluation(&t, &v); cases++) {
        hold_evaluation(&v);
        drop_evaluation(&v);
    }
    close_table(&t);
    group_done("evaluate.tsv", cases);
}

/* Exports */

static const char *const export_tables[] = {"export.tsv", "02/01_export.tsv", "02/order.tsv"};
enum { EXPORT_TABLES = sizeof export_tables / sizeof *export_tables };

static size_t try_export_table(const char *name)
{
    struct table t = open_table(vectors, name);
    struct export_vector v;
    size_t cases = 0;

    for (; next_export(&t, &v); cases++) {
        hold_export(&v);
        drop_export(&v);
    }
    close_table(&t);
    return cases;
}

void try_exports(void)
{
    size_t i;

    for (i = 0; i < EXPORT_TABLES; i++)
        group_done(export_tables[i], try_export_table(export_tables[i]));
}

/* Changed cases: one stored value is another, and the comparison must say so */

static size_t changed_cases;

void must_be_noticed(const char *change)
{
    changed_cases++;
    holds(failures_met() > 0, change);
}

static void try_changed_load(const struct load_vector *v, const char *change)
{
    expect_failures();
    hold_load(v);
    must_be_noticed(change);
}

static void change_accepted(struct load_vector *v)
{
    if (v->roots_len > 0) {
        v->roots[0] = (zt_edge)-v->roots[0];
        try_changed_load(v, "another root is noticed");
        v->roots[0] = (zt_edge)-v->roots[0];
        v->roots_len--;
        try_changed_load(v, "a root more is noticed");
        v->roots_len++;
    }
    if (v->roots_len > 0 && has_answers(v)) {
        v->answers[0] ^= 1;
        try_changed_load(v, "another answer is noticed");
        v->answers[0] ^= 1;
    }
    v->after.els[v->after.count - 1]++;
    try_changed_load(v, "another node is noticed");
    v->after.els[v->after.count - 1]--;
}

static void change_loads(const char *folder, const char *name)
{
    struct table t = open_table(folder, name);
    struct load_vector v;

    while (next_load(&t, &v)) {
        v.refusal++;
        try_changed_load(&v, "another refusal is noticed");
        v.refusal--;
        v.line++;
        try_changed_load(&v, "another line is noticed");
        v.line--;
        if (v.refusal == 0)
            change_accepted(&v);
        drop_load(&v);
    }
    close_table(&t);
}

static void change_stores(void)
{
    struct table t = open_table(vectors, "stores.tsv");

    while (next_line(&t, STORE_COLUMNS, STORE_COLUMNS)) {
        struct store s = store_in(t.columns);

        expect_failures();
        hold_store(&s, (unsigned)(3 - number_in(t.columns[8])));
        must_be_noticed("another refusal of a store is noticed");
        drop_store(&s);
    }
    close_table(&t);
}

static void change_evaluations(void)
{
    struct table t = open_table(vectors, "evaluate.tsv");
    struct evaluate_vector v;

    while (next_evaluation(&t, &v)) {
        expect_failures();
        v.answer = !v.answer;
        hold_evaluation(&v);
        must_be_noticed("another answer of an evaluation is noticed");
        drop_evaluation(&v);
    }
    close_table(&t);
}

static void try_changed_export(struct export_vector *v, const char *change)
{
    expect_failures();
    hold_export(v);
    must_be_noticed(change);
}

/* The change is the file's order inside a level alone: what it says is the same, as loading it shows. */
static int change_order(struct export_vector *v)
{
    struct bytes stored = v->file, swapped = {NULL, 0};

    if (v->call.text)
        swapped = swapped_lines(&v->file);
    if (swapped.len > 0) {
        hold_back(&v->store, v->roots, v->call.roots_len, swapped.at, swapped.len);
        v->file = swapped;
        v->file_len = swapped.len;
        try_changed_export(v, "two lines of one level that are swapped are noticed");
        v->file = stored;
        v->file_len = stored.len;
    }
    free(swapped.at);
    return swapped.len > 0;
}

static void change_bytes(struct export_vector *v)
{
    v->file.at[v->file.len / 4] ^= 1;
    try_changed_export(v, "another header of a file is noticed");
    v->file.at[v->file.len / 4] ^= 1;
    v->file.at[v->file.len - 2] ^= 1;
    try_changed_export(v, "another end of a file is noticed");
    v->file.at[v->file.len - 2] ^= 1;
    v->file.len--;
    try_changed_export(v, "a file that is cut off is noticed");
    v->file.len++;
}

static void change_exports(const char *name)
{
    struct table t = open_table(vectors, name);
    struct export_vector v;
    size_t swapped = 0;

    while (next_export(&t, &v)) {
        v.refusal++;
        try_changed_export(&v, "another refusal of an export is noticed");
        v.refusal--;
        v.file_len++;
        try_changed_export(&v, "another length of a file is noticed");
        v.file_len--;
        if (v.refusal == 0) {
            change_bytes(&v);
            swapped += (size_t)change_order(&v);
        }
        drop_export(&v);
    }
    holds(swapped > 0, "there are files with two lines of one level");
    close_table(&t);
}

void try_changed_cases(void)
{
    size_t i;

    changed_cases = 0;
    change_loads(vectors, "load.tsv");
    change_loads(vectors, "room.tsv");
    change_loads(differences, "inputs.tsv");
    change_whole_loads();
    change_stores();
    change_evaluations();
    for (i = 0; i < EXPORT_TABLES; i++)
        change_exports(export_tables[i]);
    change_lists();
    change_joins();
    change_small_joins();
    change_examples();
    change_tips();
    change_widens();
    group_done("changed cases, which must be noticed", changed_cases);
}
