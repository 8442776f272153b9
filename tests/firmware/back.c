/* Exports read back, and many files in one store. */
#include <stdio.h>
#include <stdlib.h>
#include <string.h>

#include "groups.h"
#include "report.h"

void hold_back(const struct store *s, const zt_edge *roots, size_t roots_len, const void *file, size_t len)
{
    uint16_t *list = room(s->levels * sizeof *list);
    size_t list_len = reached_levels(s, roots, roots_len, list);
    struct store copy = copy_of(s);
    struct load c = load_of(file, len, list, list_len, s->count);

    call_load(&c, &copy);
    if (holds(c.answer.refusal == 0, "an exported file is accepted") && holds(c.answer.nroots == roots_len, "it has as many roots"))
        holds(roots_len == 0 || memcmp(roots_of(&c), roots, roots_len * sizeof *roots) == 0, "it gives the same roots");
    holds(same_store(&copy, s), "it needs no new node");
    done_with(&c);
    drop_store(&copy);
    free(list);
}

/* Names for all variables and roots, and one for the diagram with a space in it. */
static struct names all_names(size_t variables, size_t roots)
{
    struct names n = room_for_names(20 * (variables + roots + 1), variables, roots);
    char name[20];
    size_t i;

    for (i = 0; i < variables; i++)
        name_variable(&n, name, (size_t)snprintf(name, sizeof name, "v%zu\xc3\xa9", i));
    for (i = 0; i < roots; i++)
        name_root(&n, name, (size_t)snprintf(name, sizeof name, "r%zu", i));
    name_diagram(&n, "two words", 9);
    return n;
}

/* Is the name at a place of the loaded file the one at a place of the exported names? */
static int same_name(const struct load *c, uint32_t start, uint32_t len, const struct names *n, uint32_t name_start, uint32_t name_len)
{
    return len == name_len && (size_t)start + len <= c->file_len && memcmp(c->file + start, n->bytes + name_start, len) == 0;
}

static void hold_variable_name(const struct load *c, const struct names *n, size_t v)
{
    uint32_t start = numbers_of(c, LOAD_NAMES)[v], len = numbers_of(c, LOAD_LENS)[v];

    holds(same_name(c, start, len, n, n->starts[v], n->lens[v]), "a variable keeps its name");
}

/* The diagram keeps its name but for spaces at its ends. */
static void hold_diagram_name(const struct load *c, const struct names *n)
{
    uint32_t start = n->ddstart, end = start + n->ddlen;

    while (start < end && n->bytes[start] == ' ')
        start++;
    while (start < end && n->bytes[end - 1] == ' ')
        end--;
    holds(same_name(c, c->answer.ddstart, c->answer.ddlen, n, start, end - start), "the diagram keeps its name");
}

/*
 * The names of a file that was just loaded, as far as it was exported with them. Version 3.0 has the names of all variables. In version 2.0
 * only the support variables are known by their names: 'else `.orderedvarnames`, support variables by permid and the rest in order'.
 */
static void hold_names(const struct export *e, const struct load *c)
{
    const struct names *n = &e->names;
    const struct zt_load_answer *a = &c->answer;
    const uint32_t *rootnames = numbers_of(c, LOAD_ROOTNAMES), *rootlens = numbers_of(c, LOAD_ROOTLENS);
    size_t i;

    for (i = 0; n->lens_len != 0 && e->version != 0 && i < a->nvars; i++)
        hold_variable_name(c, n, i);
    for (i = 0; n->lens_len != 0 && i < a->nsuppvars; i++)
        hold_variable_name(c, n, numbers_of(c, LOAD_IDS)[i]);
    for (i = 0; n->rootlens_len != 0 && i < a->nroots; i++)
        holds(same_name(c, rootnames[i], rootlens[i], n, n->rootstarts[i], n->rootlens[i]), "a root keeps its name");
    hold_diagram_name(c, n);
}

/* The support variables of a file that was just loaded: permids are their levels, and the support order is that of the level list. */
static int has_support(const struct export *e, const struct load *c)
{
    size_t i;

    for (i = 0; i < c->answer.nsuppvars; i++) {
        uint32_t id = numbers_of(c, LOAD_IDS)[i], ordered = numbers_of(c, LOAD_ORDER)[i];

        if (id >= e->order_len || e->order[id] != numbers_of(c, LOAD_PERMIDS)[i])
            return 0;
        if (ordered >= e->order_len || e->order[ordered] != c->list[i])
            return 0;
    }
    return 1;
}

static int has_counts(const struct load *c, size_t variables, size_t support, size_t roots)
{
    return c->answer.nvars == variables && c->answer.nsuppvars == support && c->answer.nroots == roots;
}

void hold_header_back(const struct export *e, const struct store *s)
{
    uint16_t *list = room(s->levels * sizeof *list);
    size_t list_len = reached_levels(s, e->roots, e->roots_len, list);
    struct store copy = copy_of(s);
    struct load c = load_of(e->out.at, e->answer.len, list, list_len, s->count);

    call_load(&c, &copy);
    holds(c.answer.ascii == (e->text != 0) && c.answer.varinfo == 4, "the mode is the one that was asked for");
    if (holds(has_counts(&c, s->levels, list_len, e->roots_len), "there are as many variables, support variables and roots")
        && holds(has_support(e, &c), "the support variables are those of the levels that the roots lead to"))
        hold_names(e, &c);
    done_with(&c);
    drop_store(&copy);
    free(list);
}

/* Levels of the variables: their numbers, or, with names, the other way round. */
static uint16_t *order_for(size_t levels, int named)
{
    uint16_t *order = room(levels * sizeof *order);
    size_t v;

    for (v = 0; v < levels; v++)
        order[v] = (uint16_t)(named ? levels - 1 - v : v);
    return order;
}

static int has_version(const struct export *e)
{
    const char *first = e->version != 0 ? ".ver DDDMP-3.0\n" : ".ver DDDMP-2.0\n";

    return e->answer.len > strlen(first) && memcmp(e->out.at, first, strlen(first)) == 0;
}

/* One way of the eight: bit 0 for text, bit 1 for version 3.0, bit 2 for names. A byte that isn't 0 is as good as 1. */
static void try_way(const struct store *s, const zt_edge *roots, size_t roots_len, unsigned way)
{
    int named = (way & 4) != 0;
    uint16_t *order = order_for(s->levels, named);
    struct export e = export_of(s, roots, roots_len, order, s->levels);

    e.text = way & 1 ? (named ? 0xff : 1) : 0;
    e.version = way & 2 ? (named ? 0x80 : 1) : 0;
    if (named)
        e.names = all_names(s->levels, roots_len);
    fit_output(&e, s);
    call_export(&e, s);
    if (holds(e.answer.refusal == 0, "an export of a load's roots is accepted")) {
        holds(has_version(&e), "its version is the one that was asked for");
        hold_back(s, roots, roots_len, e.out.at, e.answer.len);
        hold_header_back(&e, s);
    }
    done_exporting(&e);
    if (named)
        drop_names(&e.names);
    free(order);
}

static size_t try_table(const char *name)
{
    struct table t = open_table(vectors, name);
    struct load_vector v;
    size_t cases = 0;
    unsigned way;

    while (next_load(&t, &v)) {
        for (way = 0; way < 8 && v.refusal == 0; way++, cases++)
            try_way(&v.after, v.roots, v.roots_len, way);
        drop_load(&v);
    }
    close_table(&t);
    return cases;
}

void try_reading_back(void)
{
    size_t cases = try_table("load.tsv") + try_table("room.tsv");

    group_done("exports read back", cases);
}

/* As many roots as there may be, spread over a full store with many nodes and as many levels as there may be. */
void try_full_store(void)
{
    struct store s = full_store(MANY_NODES, MANY_NODES);
    zt_edge roots[ZT_MOST_ROOTS];
    uint8_t setting[4096];
    size_t i;

    case_is("full store");
    for (i = 0; i < ZT_MOST_ROOTS; i++)
        roots[i] = (zt_edge)((i % 2 == 0 ? 1 : -1) * (long)(MANY_NODES - 31 * i));
    for (i = 0; i < s.levels; i++)
        setting[i] = (uint8_t)(i % 3 == 0);
    holds(keeps_rules(&s), "a full store keeps the rules");
    for (i = 0; i < ZT_MOST_ROOTS; i += 100)
        holds(call_evaluate(&s, roots[i], setting, s.levels).answer == answer_of(&s, roots[i], setting), "a root answers as it should");
    try_way(&s, roots, ZT_MOST_ROOTS, 0);
    try_way(&s, roots, ZT_MOST_ROOTS, 7);
    drop_store(&s);
    group_done("full store", 2);
}

/*
 * Many files in one store of so many levels. Document 01, demand 3: a root answers as its file says, however many files are loaded after
 * it, and two roots are one number just where they answer alike at every setting.
 */
struct seen {
    zt_edge root;
    char answers[257];
};

enum { MOST_SEEN = 1000 };

static void read_answers(const struct load_vector *v, size_t r, char *to)
{
    const char *from = v->answers;

    for (; r > 0; r--)
        from = strchr(from, ',') + 1;
    memcpy(to, from, strcspn(from, ","));
    to[strcspn(from, ",")] = 0;
}

static void load_another(const struct load_vector *v, struct store *s, struct seen *seen, size_t *count)
{
    struct load c = load_of(v->file.at, v->file.len, v->list, v->list_len, v->lens[LOAD_EDGES]);
    size_t r;

    call_load(&c, s);
    holds(c.answer.refusal == 0 && c.answer.nroots == v->roots_len, "a file is accepted beside others");
    for (r = 0; r < v->roots_len && *count < MOST_SEEN && c.answer.refusal == 0; r++) {
        seen[*count].root = roots_of(&c)[r];
        read_answers(v, r, seen[*count].answers);
        ++*count;
    }
    done_with(&c);
}

static void hold_seen(const struct store *s, const struct seen *seen, size_t count)
{
    uint8_t setting[8];
    size_t i, j, k;

    for (i = 0; i < count; i++) {
        for (k = 0; k < (size_t)1 << s->levels; k++) {
            setting_of(k, s->levels, setting);
            holds(answer_of(s, seen[i].root, setting) == seen[i].answers[k] - '0', "a root still answers as its file says");
        }
        holds(call_evaluate(s, seen[i].root, setting, s->levels).answer == seen[i].answers[k - 1] - '0', "and the call says so too");
        for (j = 0; j < i; j++)
            holds((seen[i].root == seen[j].root) == (strcmp(seen[i].answers, seen[j].answers) == 0), "one number just for one meaning");
    }
}

static size_t try_levels(uint16_t levels)
{
    struct table t = open_table(vectors, "load.tsv");
    struct store s = empty_store(levels, 4096);
    struct seen *seen = room(MOST_SEEN * sizeof *seen);
    struct load_vector v;
    size_t count = 0;

    while (next_load(&t, &v)) {
        if (has_answers(&v) && v.before.levels == levels)
            load_another(&v, &s, seen, &count);
        drop_load(&v);
    }
    case_is("one store of %u levels", (unsigned)levels);
    hold_seen(&s, seen, count);
    free(seen);
    drop_store(&s);
    close_table(&t);
    return count;
}

void try_one_store(void)
{
    size_t roots = 0;
    uint16_t levels;

    for (levels = 0; levels <= 8; levels++)
        roots += try_levels(levels);
    group_done("roots of many files in one store", roots);
}
