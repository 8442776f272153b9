/* Parts that are an entry too short or too long, and empty parts with null pointers. */
#include <stdlib.h>
#include <string.h>

#include "groups.h"
#include "report.h"

static size_t cases;

/* A load of the example with one part shorter or longer by an entry. */
static void load_with_part(enum load_part part, int more, unsigned refusal)
{
    struct store s = plan_store();
    struct load c = load_of(plan, strlen(plan), plan_levels, 2, 3);
    size_t old = s.count;

    case_is("load with part %d by %d longer", (int)part, more);
    c.lens[part] += (size_t)more;
    call_load(&c, &s);
    holds(c.answer.refusal == refusal && c.answer.line == 0, "it is judged by its length");
    holds(s.count == old, "the nodes are there already");
    done_with(&c);
    drop_store(&s);
    cases++;
}

static void try_load_lengths(void)
{
    size_t part;

    for (part = LOAD_IDS; part <= LOAD_SEATS; part++) {
        load_with_part((enum load_part)part, -1, 1);
        load_with_part((enum load_part)part, 0, 0);
        load_with_part((enum load_part)part, 1, 0);
    }
}

static void load_with_list(size_t list_len, unsigned refusal)
{
    static const uint16_t levels[3] = {0, 1, 1};
    struct store s = plan_store();
    struct load c = load_of(plan, strlen(plan), levels, list_len, 3);

    case_is("load with a level list of %zu entries", list_len);
    call_load(&c, &s);
    holds(c.answer.refusal == refusal, "it is judged by its length");
    done_with(&c);
    drop_store(&s);
    cases++;
}

/* The lengths of a store's lists, by number. */
static size_t *length_of(struct store *s, size_t list)
{
    size_t *lengths[5];

    lengths[0] = &s->level_len;
    lengths[1] = &s->then_len;
    lengths[2] = &s->els_len;
    lengths[3] = &s->next_len;
    lengths[4] = &s->heads_len;
    return lengths[list];
}

/* All calls on a store, one of whose lists is an entry shorter than the others, or than 256. */
static void shorten_list(size_t list)
{
    static const zt_edge roots[1] = {3};
    static const uint8_t setting[2] = {1, 1};
    struct store s = plan_store();
    struct load c = load_of(plan, strlen(plan), plan_levels, 2, 3);
    struct export e = export_of(&s, roots, 1, plan_levels, 2);
    struct example x = example_of(&s, 3, 1);
    struct tip t = tip_of(&s, 3, setting);
    size_t op;

    case_is("store whose list %zu is too short", list);
    --*length_of(&s, list);
    call_load(&c, &s);
    holds(c.answer.refusal == 3, "a load is refused");
    holds(call_evaluate(&s, 3, setting, 2).refusal == 3, "an evaluation is refused");
    call_export(&e, &s);
    holds(e.answer.refusal == 3, "an export is refused");
    for (op = 0; op < OPERATIONS; op++)
        holds(call_join(&s, (enum operation)op, 3, 2).refusal == 3, "a join is refused");
    holds(call_opposite(&s, 3).refusal == 3, "an opposite is refused");
    call_example(&x, &s);
    holds(x.answer.refusal == 3, "an example is refused");
    done_with_example(&x);
    call_tip(&t, &s);
    holds(t.answer.refusal == 3, "a tipping point is refused");
    done_exporting(&e);
    done_with(&c);
    drop_store(&s);
    cases++;
}

static void example_with_length(int more, unsigned refusal)
{
    struct store s = plan_store();
    struct example x = example_of(&s, 3, 1);

    case_is("example with a setting by %d longer", more);
    x.setting_len += (size_t)more;
    call_example(&x, &s);
    holds(x.answer.refusal == refusal, "it is judged by its length");
    done_with_example(&x);
    drop_store(&s);
    cases++;
}

static void tip_with_length(size_t len, unsigned refusal)
{
    static const uint8_t setting[5] = {1, 1, 0, 0, 0};
    struct store s = plan_store();
    struct tip t = tip_of(&s, 2, setting);

    case_is("tipping point with a setting of %zu bytes", len);
    t.setting_len = len;
    call_tip(&t, &s);
    holds(t.answer.refusal == refusal && t.answer.level == (refusal == 0), "it is judged by its length");
    drop_store(&s);
    cases++;
}

static void export_with_lengths(int slots, int numbers, int out, unsigned refusal)
{
    static const zt_edge roots[2] = {3, -2};
    struct store s = plan_store();
    struct export e = export_of(&s, roots, 2, plan_levels, 2);

    case_is("export with marks by %d and %d longer, output by %d", slots, numbers, out);
    e.slots_len += (size_t)slots;
    e.numbers_len += (size_t)numbers;
    e.out_len += (size_t)out;
    call_export(&e, &s);
    holds(e.answer.refusal == refusal, "it is judged by its lengths");
    done_exporting(&e);
    drop_store(&s);
    cases++;
}

void try_lengths(void)
{
    size_t list;

    cases = 0;
    try_load_lengths();
    load_with_list(1, 2);
    load_with_list(2, 0);
    load_with_list(3, 2);
    for (list = 0; list < 5; list++)
        shorten_list(list);
    example_with_length(-2, 1);
    example_with_length(-1, 1);
    example_with_length(0, 0);
    example_with_length(1, 0);
    example_with_length(5000, 0);
    tip_with_length(0, 4);
    tip_with_length(1, 4);
    tip_with_length(2, 0);
    tip_with_length(3, 4);
    tip_with_length(5, 4);
    export_with_lengths(-1, 0, 0, 1);
    export_with_lengths(0, -1, 0, 1);
    export_with_lengths(0, 0, -1, 1);
    export_with_lengths(0, 0, 0, 0);
    export_with_lengths(1, 1, 1, 0);
    group_done("lengths", cases);
}

/* Empty parts */

static void load_empty(const char *file, size_t slots, int lists, unsigned refusal)
{
    struct store s = empty_store(0, slots);
    struct load c = load_of(file, strlen(file), NULL, 0, 0);

    case_is("load with empty parts, %s", lists ? "lists long enough" : "no lists");
    if (!lists)
        memset(c.lens, 0, sizeof c.lens);
    if (slots == 0)
        s.heads_len = 0;
    call_load(&c, &s);
    holds(c.answer.refusal == refusal && c.answer.line == 0, "it is judged as any other");
    done_with(&c);
    drop_store(&s);
    cases++;
}

static void evaluate_empty(size_t slots, size_t heads, uint16_t levels, unsigned refusal)
{
    struct store s = empty_store(levels, slots);
    struct zt_evaluate_answer a;

    case_is("evaluation with empty parts, %zu slots", slots);
    s.heads_len = heads;
    a = call_evaluate(&s, 1, NULL, 0);
    holds(a.refusal == refusal && a.answer == (refusal == 0), "it is judged as any other");
    drop_store(&s);
    cases++;
}

static void join_empty(size_t slots, size_t heads, unsigned refusal)
{
    struct store s = empty_store(0, slots);
    size_t op;

    case_is("joins with empty parts, %zu slots", slots);
    s.heads_len = heads;
    for (op = 0; op < OPERATIONS; op++) {
        struct zt_join_answer a = call_join(&s, (enum operation)op, 1, -1);

        holds(a.refusal == refusal && a.root == (refusal != 0 ? 0 : op == AND ? -1 : 1), "it is judged as any other");
    }
    holds(call_opposite(&s, 1).refusal == refusal, "so is an opposite");
    drop_store(&s);
    cases++;
}

static void example_empty(size_t slots, size_t heads, uint16_t levels, uint8_t wanted, unsigned refusal)
{
    struct store s = empty_store(levels, slots);
    struct example x = example_of(&s, 1, wanted);

    case_is("example with empty parts, %zu slots", slots);
    s.heads_len = heads;
    x.setting_len = 0;
    call_example(&x, &s);
    holds(x.answer.refusal == refusal, "it is judged as any other");
    done_with_example(&x);
    drop_store(&s);
    cases++;
}

static void tip_empty(size_t slots, size_t heads, uint16_t levels, unsigned refusal)
{
    struct store s = empty_store(levels, slots);
    struct tip t = tip_of(&s, -1, NULL);

    case_is("tipping point with empty parts, %zu slots", slots);
    s.heads_len = heads;
    t.setting_len = 0;
    call_tip(&t, &s);
    holds(t.answer.refusal == refusal, "it is judged as any other");
    drop_store(&s);
    cases++;
}

static void export_empty(size_t slots, int lent, unsigned refusal)
{
    static const char file[] = ".ver DDDMP-2.0\n.mode A\n.varinfo 4\n.nnodes 0\n.nvars 0\n.nsuppvars 0\n.suppvarnames\n"
        ".orderedvarnames\n.ids\n.permids\n.nroots 0\n.rootids\n.nodes\n.end\n";
    struct store s = empty_store(0, slots);
    struct export e = export_of(&s, NULL, 0, NULL, 0);

    case_is("export with empty parts, %zu slots", slots);
    e.text = 1;
    if (slots == 0)
        s.heads_len = 0;
    if (!lent)
        e.slots_len = e.numbers_len = e.out_len = 0;
    call_export(&e, &s);
    holds(e.answer.refusal == refusal, "it is judged as any other");
    if (refusal == 0) {
        holds(e.answer.len == strlen(file) && memcmp(e.out.at, file, strlen(file)) == 0, "the file has no nodes");
        hold_back(&s, NULL, 0, e.out.at, e.answer.len);
    }
    done_exporting(&e);
    drop_store(&s);
    cases++;
}

void try_empty_parts(void)
{
    int before = null_where_empty;

    cases = 0;
    null_where_empty = 1;
    load_empty("", 0, 0, 1);
    load_empty("", 0, 1, 3);
    load_empty("", 1, 1, 10);
    load_empty(".nodes\n.end", 1, 1, 0);
    load_empty(".nnodes 1\n.nodes\n1 T 0 0\n.end", 1, 1, 1);
    evaluate_empty(0, 0, 0, 3);
    evaluate_empty(1, 0, 0, 3);
    evaluate_empty(0, ZT_BUCKETS, 0, 3);
    evaluate_empty(1, ZT_BUCKETS, 0, 0);
    evaluate_empty(1, ZT_BUCKETS, 1, 4);
    join_empty(0, 0, 3);
    join_empty(1, 0, 3);
    join_empty(0, ZT_BUCKETS, 3);
    join_empty(1, ZT_BUCKETS, 0);
    example_empty(0, 0, 0, 1, 3);
    example_empty(0, 0, 1, 1, 1);
    example_empty(1, 0, 0, 1, 3);
    example_empty(0, ZT_BUCKETS, 0, 1, 3);
    example_empty(1, ZT_BUCKETS, 0, 1, 0);
    example_empty(1, ZT_BUCKETS, 0, 0, 41);
    example_empty(1, ZT_BUCKETS, 1, 1, 1);
    tip_empty(0, 0, 0, 3);
    tip_empty(0, 0, 1, 3);
    tip_empty(1, 0, 0, 3);
    tip_empty(0, ZT_BUCKETS, 0, 3);
    tip_empty(1, ZT_BUCKETS, 0, 42);
    tip_empty(1, ZT_BUCKETS, 1, 4);
    export_empty(0, 0, 1);
    export_empty(0, 1, 3);
    export_empty(1, 0, 1);
    export_empty(1, 1, 0);
    null_where_empty = before;
    group_done("empty parts with null pointers", cases);
}
