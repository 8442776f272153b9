#include "calls.h"

#include <stdlib.h>
#include <string.h>

#include "report.h"

/* Work */

size_t work_for(size_t nodes)
{
    static size_t calls;
    size_t numbers = nodes + 1, lengths[7];

    lengths[0] = ZT_WORK_ENTRIES(nodes);
    lengths[1] = 3 * numbers - 1;
    lengths[2] = 3 * numbers;
    lengths[3] = ZT_WORK_ENTRIES(nodes) - 1;
    lengths[4] = ZT_WORK_ENTRIES(nodes) + 1;
    lengths[5] = 1;
    lengths[6] = 5 * numbers;
    return lengths[calls++ % 7];
}

size_t most_nodes(const struct store *s)
{
    return s->level_len < ZT_MOST_NODES ? s->level_len : ZT_MOST_NODES;
}

size_t nodes_there(const struct store *s)
{
    return s->count < most_nodes(s) ? s->count : most_nodes(s);
}

/* Stores */

void lend_store(struct lent *p, const struct store *s)
{
    p[STORE_LEVEL] = lend(s->level, s->level_len, sizeof *s->level);
    p[STORE_THEN] = lend(s->then, s->then_len, sizeof *s->then);
    p[STORE_ELS] = lend(s->els, s->els_len, sizeof *s->els);
    p[STORE_NEXT] = lend(s->next, s->next_len, sizeof *s->next);
    p[STORE_HEADS] = lend(s->heads, s->heads_len, sizeof *s->heads);
}

void take_over(const struct lent *p, const struct lent *count, struct store *s)
{
    memcpy(&s->count, count->at, sizeof s->count);
    memcpy(s->level, p[STORE_LEVEL].at, s->level_len * sizeof *s->level);
    memcpy(s->then, p[STORE_THEN].at, s->then_len * sizeof *s->then);
    memcpy(s->els, p[STORE_ELS].at, s->els_len * sizeof *s->els);
    memcpy(s->next, p[STORE_NEXT].at, s->next_len * sizeof *s->next);
    memcpy(s->heads, p[STORE_HEADS].at, s->heads_len * sizeof *s->heads);
}

int keeps_old_nodes(const struct lent *p, zt_index old)
{
    size_t part;

    for (part = STORE_LEVEL; part <= STORE_NEXT; part++)
        if (memcmp(p[part].at, p[part].before, old * p[part].width) != 0)
            return 0;
    return 1;
}

/* Loads */

static size_t width_of(enum load_part part)
{
    switch (part) {
    case LOAD_ROOTS: case LOAD_EDGES: return sizeof(zt_edge);
    case LOAD_SEATS: return sizeof(uint16_t);
    case LOAD_WORK: return sizeof(zt_index);
    default: return sizeof(uint32_t);
    }
}

void fit_outputs(size_t *lens, size_t scratch)
{
    size_t p;

    memset(lens, 0, LOAD_PARTS * sizeof *lens);
    for (p = LOAD_IDS; p <= LOAD_LENS; p++)
        lens[p] = ZT_VARIABLE_ENTRIES;
    for (p = LOAD_ROOTS; p <= LOAD_ROOTLENS; p++)
        lens[p] = ZT_ROOT_ENTRIES;
    lens[LOAD_EDGES] = lens[LOAD_SEATS] = scratch;
}

struct load load_of(const void *file, size_t file_len, const uint16_t *list, size_t list_len, size_t scratch)
{
    struct load c;

    memset(&c, 0, sizeof c);
    c.file = file;
    c.file_len = file_len;
    c.list = list;
    c.list_len = list_len;
    fit_outputs(c.lens, scratch);
    return c;
}

static void lend_parts(struct load *c, const struct store *s)
{
    struct lent *p = c->parts;
    size_t part;

    p[LOAD_FILE] = lend(c->file, c->file_len, sizeof *c->file);
    p[LOAD_LIST] = lend(c->list, c->list_len, sizeof *c->list);
    p[LOAD_COUNT] = lend(&s->count, 1, sizeof s->count);
    lend_store(p + LOAD_LEVEL, s);
    for (part = LOAD_IDS; part < LOAD_PARTS; part++)
        p[part] = lend_room(c->lens[part], width_of((enum load_part)part));
}

static struct zt_load_answer load_with(const struct lent *p, uint16_t levels)
{
    return zt_load(p[LOAD_FILE].at, p[LOAD_FILE].entries, p[LOAD_LIST].at, p[LOAD_LIST].entries, levels, p[LOAD_COUNT].at,
        p[LOAD_LEVEL].at, p[LOAD_LEVEL].entries, p[LOAD_THEN].at, p[LOAD_THEN].entries, p[LOAD_ELS].at, p[LOAD_ELS].entries,
        p[LOAD_NEXT].at, p[LOAD_NEXT].entries, p[LOAD_HEADS].at, p[LOAD_HEADS].entries,
        p[LOAD_IDS].at, p[LOAD_IDS].entries, p[LOAD_ORDER].at, p[LOAD_ORDER].entries, p[LOAD_PERMIDS].at, p[LOAD_PERMIDS].entries,
        p[LOAD_AUXIDS].at, p[LOAD_AUXIDS].entries, p[LOAD_NAMES].at, p[LOAD_NAMES].entries, p[LOAD_LENS].at, p[LOAD_LENS].entries,
        p[LOAD_ROOTS].at, p[LOAD_ROOTS].entries, p[LOAD_ROOTNAMES].at, p[LOAD_ROOTNAMES].entries,
        p[LOAD_ROOTLENS].at, p[LOAD_ROOTLENS].entries, p[LOAD_EDGES].at, p[LOAD_EDGES].entries, p[LOAD_SEATS].at, p[LOAD_SEATS].entries,
        p[LOAD_WORK].at, p[LOAD_WORK].entries);
}

static int has_no_values(const struct zt_load_answer *a)
{
    return a->ascii == 0 && a->varinfo == 0 && a->ddstart == 0 && a->ddlen == 0 && a->nnodes == 0 && a->nvars == 0
        && a->nsuppvars == 0 && a->nroots == 0 && a->next == 0 && a->lines == 0;
}

static void check_refused(const struct load *c)
{
    holds(has_no_values(&c->answer), "the answer of a refused load has no values");
    holds(all_zeros(c->parts, LOAD_IDS, LOAD_ROOTLENS), "outputs of a refused load are zeros");
    holds(all_as_before(c->parts, LOAD_COUNT, LOAD_HEADS), "a refused load leaves the store as it was");
}

static void check_unused(const struct load *c)
{
    const struct zt_load_answer *a = &c->answer;
    size_t p;

    for (p = LOAD_IDS; p <= LOAD_AUXIDS; p++)
        holds(zeros_from(&c->parts[p], a->nsuppvars), "a list of support variables is zeros after its entries");
    for (p = LOAD_NAMES; p <= LOAD_LENS; p++)
        holds(zeros_from(&c->parts[p], a->nvars), "the list of names is zeros after its entries");
    for (p = LOAD_ROOTS; p <= LOAD_ROOTLENS; p++)
        holds(zeros_from(&c->parts[p], (size_t)a->nroots), "a root list is zeros after its entries");
}

static void check_accepted(struct load *c, struct store *s)
{
    zt_index old = s->count;
    size_t i;

    holds(c->answer.line == 0, "an accepted load has line 0");
    check_unused(c);
    take_over(c->parts + LOAD_LEVEL, &c->parts[LOAD_COUNT], s);
    holds(s->count >= old, "the count doesn't fall");
    holds(keeps_old_nodes(c->parts + LOAD_LEVEL, old), "old nodes stay as they were");
    holds(keeps_rules(s), "an accepted load leaves a store that keeps the rules");
    for (i = 0; i < c->answer.nroots; i++)
        holds(magnitude_of(roots_of(c)[i]) >= 1 && magnitude_of(roots_of(c)[i]) <= s->count, "a root is an edge of the store");
}

int same_load_answers(const struct zt_load_answer *a, const struct zt_load_answer *b)
{
    return a->refusal == b->refusal && a->line == b->line && a->ascii == b->ascii && a->varinfo == b->varinfo && a->ddstart == b->ddstart
        && a->ddlen == b->ddlen && a->nnodes == b->nnodes && a->nvars == b->nvars && a->nsuppvars == b->nsuppvars && a->nroots == b->nroots
        && a->next == b->next && a->lines == b->lines;
}

/* The same load without work gives the same. */
static void load_without_work(const struct load *c, const struct store *s)
{
    struct load other = *c;

    other.lens[LOAD_WORK] = 0;
    lend_parts(&other, s);
    other.answer = load_with(other.parts, s->levels);
    holds(all_guards_hold(other.parts, LOAD_PARTS), "a load without work writes nothing beside its parts");
    holds(same_load_answers(&c->answer, &other.answer), "a load without work answers the same");
    holds(all_alike(c->parts, other.parts, LOAD_FILE, LOAD_SEATS), "a load without work leaves the same");
    give_back(other.parts, LOAD_PARTS);
}

/* Very many nodes, each of which is sought along a long chain where there is no work, take too long. */
static int many_lines(const struct load *c, const struct store *s)
{
    return c->file_len > 2000000 && s->level_len > 100000;
}

void call_load(struct load *c, struct store *s)
{
    c->lens[LOAD_WORK] = many_lines(c, s) ? ZT_WORK_ENTRIES(most_nodes(s)) : work_for(most_nodes(s));
    lend_parts(c, s);
    c->answer = load_with(c->parts, s->levels);
    holds(all_guards_hold(c->parts, LOAD_PARTS), "a load writes nothing beside its parts");
    holds(all_as_before(c->parts, LOAD_FILE, LOAD_LIST), "a load leaves the file and the level list as they were");
    holds(all_zeros(c->parts, LOAD_EDGES, LOAD_WORK), "scratch and work end as zeros");
    if (!many_lines(c, s))
        load_without_work(c, s);
    if (c->answer.refusal != 0)
        check_refused(c);
    else
        check_accepted(c, s);
}

void done_with(struct load *c)
{
    give_back(c->parts, LOAD_PARTS);
}

const zt_edge *roots_of(const struct load *c)
{
    return c->parts[LOAD_ROOTS].at;
}

const uint32_t *numbers_of(const struct load *c, enum load_part part)
{
    return c->parts[part].at;
}

/* Evaluations */

enum evaluate_part { EVALUATE_SETTING = STORE_PARTS, EVALUATE_WORK, EVALUATE_PARTS };

static struct zt_evaluate_answer evaluate_with(const struct store *s, zt_edge root, const struct lent *p, const struct lent *work)
{
    return zt_evaluate(s->levels, s->count, p[STORE_LEVEL].at, p[STORE_LEVEL].entries, p[STORE_THEN].at, p[STORE_THEN].entries,
        p[STORE_ELS].at, p[STORE_ELS].entries, p[STORE_NEXT].at, p[STORE_NEXT].entries, p[STORE_HEADS].at, p[STORE_HEADS].entries,
        root, p[EVALUATE_SETTING].at, p[EVALUATE_SETTING].entries, work->at, work->entries);
}

struct zt_evaluate_answer call_evaluate(const struct store *s, zt_edge root, const uint8_t *setting, size_t setting_len)
{
    struct lent p[EVALUATE_PARTS], none = lend_room(0, sizeof(zt_index));
    struct zt_evaluate_answer a, other;

    lend_store(p, s);
    p[EVALUATE_SETTING] = lend(setting, setting_len, sizeof *setting);
    p[EVALUATE_WORK] = lend_room(work_for(nodes_there(s)), sizeof(zt_index));
    a = evaluate_with(s, root, p, &p[EVALUATE_WORK]);
    other = evaluate_with(s, root, p, &none);
    holds(all_guards_hold(p, EVALUATE_PARTS) && guards_hold(&none), "an evaluation writes nothing beside its parts");
    holds(all_as_before(p, 0, EVALUATE_SETTING), "an evaluation leaves the store and the setting as they were");
    holds(all_zeros(p, EVALUATE_WORK, EVALUATE_WORK), "work ends as zeros");
    holds(a.refusal == other.refusal && a.line == other.line && a.answer == other.answer, "an evaluation without work answers the same");
    holds(a.line == 0, "an evaluation has line 0");
    holds(a.answer <= 1, "an evaluation answers 1 or 0");
    holds(a.refusal == 0 || a.answer == 0, "a refused evaluation answers 0");
    give_back(p, EVALUATE_PARTS);
    give_back(&none, 1);
    return a;
}

/* Exports */

enum export_part {
    EXPORT_ROOTS = STORE_PARTS, EXPORT_ORDER, EXPORT_BYTES, EXPORT_STARTS, EXPORT_LENS, EXPORT_ROOTSTARTS, EXPORT_ROOTLENS,
    EXPORT_SLOTS, EXPORT_NUMBERS, EXPORT_WORK, EXPORT_OUT,
    EXPORT_PARTS
};

struct export export_of(const struct store *s, const zt_edge *roots, size_t roots_len, const uint16_t *order, size_t order_len)
{
    struct export c;

    memset(&c, 0, sizeof c);
    c.roots = roots;
    c.roots_len = roots_len;
    c.order = order;
    c.order_len = order_len;
    c.slots_len = c.numbers_len = s->count;
    fit_output(&c, s);
    return c;
}

static size_t sum_of(const uint32_t *numbers, size_t count)
{
    size_t i, sum = 0;

    for (i = 0; i < count; i++)
        sum += numbers[i];
    return sum;
}

void fit_output(struct export *c, const struct store *s)
{
    const struct names *n = &c->names;

    c->out_len = 256 + 32 * (size_t)s->count + 24 * (size_t)s->levels + 16 * c->roots_len + 3 * sum_of(n->lens, n->lens_len)
        + sum_of(n->rootlens, n->rootlens_len) + n->ddlen;
}

static void lend_export(const struct export *c, const struct store *s, size_t work, struct lent *p)
{
    const struct names *n = &c->names;

    lend_store(p, s);
    p[EXPORT_ROOTS] = lend(c->roots, c->roots_len, sizeof *c->roots);
    p[EXPORT_ORDER] = lend(c->order, c->order_len, sizeof *c->order);
    p[EXPORT_BYTES] = lend(n->bytes, n->bytes_len, sizeof *n->bytes);
    p[EXPORT_STARTS] = lend(n->starts, n->starts_len, sizeof *n->starts);
    p[EXPORT_LENS] = lend(n->lens, n->lens_len, sizeof *n->lens);
    p[EXPORT_ROOTSTARTS] = lend(n->rootstarts, n->rootstarts_len, sizeof *n->rootstarts);
    p[EXPORT_ROOTLENS] = lend(n->rootlens, n->rootlens_len, sizeof *n->rootlens);
    p[EXPORT_SLOTS] = lend_room(c->slots_len, sizeof(zt_index));
    p[EXPORT_NUMBERS] = lend_room(c->numbers_len, sizeof(zt_index));
    p[EXPORT_WORK] = lend_room(work, sizeof(zt_index));
    p[EXPORT_OUT] = lend_room(c->out_len, 1);
}

static struct zt_export_answer export_with(const struct export *c, const struct store *s, const struct lent *p)
{
    return zt_export(c->version, c->text, c->names.ddstart, c->names.ddlen, s->levels, s->count,
        p[STORE_LEVEL].at, p[STORE_LEVEL].entries, p[STORE_THEN].at, p[STORE_THEN].entries, p[STORE_ELS].at, p[STORE_ELS].entries,
        p[STORE_NEXT].at, p[STORE_NEXT].entries, p[STORE_HEADS].at, p[STORE_HEADS].entries,
        p[EXPORT_ROOTS].at, p[EXPORT_ROOTS].entries, p[EXPORT_ORDER].at, p[EXPORT_ORDER].entries,
        p[EXPORT_BYTES].at, p[EXPORT_BYTES].entries, p[EXPORT_STARTS].at, p[EXPORT_STARTS].entries,
        p[EXPORT_LENS].at, p[EXPORT_LENS].entries, p[EXPORT_ROOTSTARTS].at, p[EXPORT_ROOTSTARTS].entries,
        p[EXPORT_ROOTLENS].at, p[EXPORT_ROOTLENS].entries, p[EXPORT_SLOTS].at, p[EXPORT_SLOTS].entries,
        p[EXPORT_NUMBERS].at, p[EXPORT_NUMBERS].entries, p[EXPORT_OUT].at, p[EXPORT_OUT].entries,
        p[EXPORT_WORK].at, p[EXPORT_WORK].entries);
}

/* The same export without work gives the same. */
static void export_without_work(const struct export *c, const struct store *s, const struct lent *parts)
{
    struct lent p[EXPORT_PARTS];
    struct zt_export_answer a;

    lend_export(c, s, 0, p);
    a = export_with(c, s, p);
    holds(all_guards_hold(p, EXPORT_PARTS), "an export without work writes nothing beside its parts");
    holds(a.refusal == c->answer.refusal && a.line == c->answer.line && a.len == c->answer.len, "an export without work answers the same");
    holds(all_alike(p, parts, EXPORT_OUT, EXPORT_OUT), "an export without work writes the same");
    holds(all_zeros(p, EXPORT_SLOTS, EXPORT_NUMBERS), "marks of an export without work end as zeros");
    give_back(p, EXPORT_PARTS);
}

void call_export(struct export *c, const struct store *s)
{
    struct lent p[EXPORT_PARTS];

    lend_export(c, s, work_for(nodes_there(s)), p);
    c->answer = export_with(c, s, p);
    export_without_work(c, s, p);
    holds(all_guards_hold(p, EXPORT_PARTS), "an export writes nothing beside its parts");
    holds(all_as_before(p, 0, EXPORT_ROOTLENS), "an export leaves what it reads as it was");
    holds(all_zeros(p, EXPORT_SLOTS, EXPORT_WORK), "marks and work end as zeros");
    holds(c->answer.line == 0, "an export has line 0");
    holds(c->answer.refusal == 0 || c->answer.len == 0, "a refused export has length 0");
    if (holds(c->answer.len <= c->out_len, "a file lies inside its output"))
        holds(zeros_from(&p[EXPORT_OUT], c->answer.len), "output is zeros after the file");
    c->out = p[EXPORT_OUT];
    give_back(p, EXPORT_OUT);
}

void done_exporting(struct export *c)
{
    give_back(&c->out, 1);
}

/* Names */

struct names room_for_names(size_t bytes, size_t variables, size_t roots)
{
    struct names n;

    memset(&n, 0, sizeof n);
    n.bytes = room(bytes);
    n.starts = room(variables * sizeof *n.starts);
    n.lens = room(variables * sizeof *n.lens);
    n.rootstarts = room(roots * sizeof *n.rootstarts);
    n.rootlens = room(roots * sizeof *n.rootlens);
    return n;
}

/* Appends the bytes of a name; answers where they start. */
static uint32_t append(struct names *n, const void *name, size_t len)
{
    uint32_t start = (uint32_t)n->bytes_len;

    if (len != 0)
        memcpy(n->bytes + n->bytes_len, name, len);
    n->bytes_len += len;
    return start;
}

void name_variable(struct names *n, const void *name, size_t len)
{
    n->starts[n->starts_len++] = append(n, name, len);
    n->lens[n->lens_len++] = (uint32_t)len;
}

void name_root(struct names *n, const void *name, size_t len)
{
    n->rootstarts[n->rootstarts_len++] = append(n, name, len);
    n->rootlens[n->rootlens_len++] = (uint32_t)len;
}

void name_diagram(struct names *n, const void *name, size_t len)
{
    n->ddstart = append(n, name, len);
    n->ddlen = (uint32_t)len;
}

void drop_names(struct names *n)
{
    free(n->bytes);
    free(n->starts);
    free(n->lens);
    free(n->rootstarts);
    free(n->rootlens);
}
