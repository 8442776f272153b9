/* Every refusal, by number and line, and the order in which they are judged. */
#include <stdlib.h>
#include <string.h>

#include "groups.h"
#include "report.h"

/* A file that is refused. Its level list is 0, 1, .. for so many support variables. */
struct refused_file {
    unsigned refusal;
    size_t line;
    const char *file;
    size_t len;
    size_t list_len;
};

#define FILE_OF(text) text, sizeof(text) - 1

/* Headers: no support variable; one; two. Each ends before `.nodes`. */
#define ONE ".nvars 1\n.nsuppvars 1\n.ids 0\n.permids 0\n"
#define TWO ".nvars 2\n.nsuppvars 2\n.ids 0 1\n.permids 0 1\n"

static const struct refused_file files[] = {
    {2, 0, FILE_OF(TWO ".nodes\n.end\n"), 1},
    {10, 0, FILE_OF(""), 0},
    {10, 0, FILE_OF(".ver DDDMP-2.0\n.mode A\n"), 0},
    {11, 2, FILE_OF(".mode A\n.what 1\n.nodes\n.end\n"), 0},
    {11, 1, FILE_OF("\n.nodes\n.end\n"), 0},
    {12, 1, FILE_OF(".ver DDDMP-1.0\n.nodes\n.end\n"), 0},
    {13, 1, FILE_OF(".mode C\n.nodes\n.end\n"), 0},
    {13, 2, FILE_OF(".mode A\n.varinfo 5\n.nodes\n.end\n"), 0},
    {14, 1, FILE_OF(".nnodes x\n.nodes\n.end\n"), 0},
    {14, 3, FILE_OF(".nnodes 1\n.nodes\n\n.end\n"), 0},
    {15, 2, FILE_OF(".mode A\n.nvars 4294967296\n.nodes\n.end\n"), 0},
    {15, 1, FILE_OF(".nnodes 18446744073709551616\n.nodes\n.end\n"), 0},
    {15, 1, FILE_OF(".rootids 9223372036854775808\n.nodes\n.end\n"), 0},
    {15, 3, FILE_OF(".nnodes 1\n.nodes\n18446744073709551616 T 0 0\n.end\n"), 0},
    {16, 1, FILE_OF(".ids 0 x\n.nodes\n.end\n"), 0},
    {16, 3, FILE_OF(".nnodes 1\n.nodes\n1 T 0 x\n.end\n"), 0},
    {17, 1, FILE_OF(".rootids 3-\n.nodes\n.end\n"), 0},
    {17, 3, FILE_OF(".nnodes 1\n.nodes\n1 T 0 --1\n.end\n"), 0},
    /* a minus that a blank, a tab or the end follows; the words of a list are judged from left to right, and before they are counted */
    {17, 1, FILE_OF(".rootids - 1\n.nodes\n.end\n"), 0},
    {17, 1, FILE_OF(".rootids -\t1\n.nodes\n.end\n"), 0},
    {17, 1, FILE_OF(".rootids -\n.nroots 0\n.nodes\n.end\n"), 0},
    {17, 1, FILE_OF(".rootids -\r\n.nodes\n.end\n"), 0},
    {17, 2, FILE_OF(".mode A\n.rootids 1 -\n.rootids\n.nodes\n.end\n"), 0},
    {17, 3, FILE_OF(".nnodes 1\n.nodes\n1 T 0 - 0\n.end\n"), 0},
    {17, 3, FILE_OF(".nnodes 1\n.nodes\n1 T 0 -\t0\n.end\n"), 0},
    {17, 3, FILE_OF(".nnodes 1\n.nodes\n1 T 0 0 -\n.end\n"), 0},
    {17, 3, FILE_OF(".nnodes 1\n.nodes\n1 T 0 -\n.end\n"), 0},
    {17, 1, FILE_OF(".rootids - x\n.nodes\n.end\n"), 0},
    {16, 1, FILE_OF(".rootids -x -\n.nodes\n.end\n"), 0},
    {16, 1, FILE_OF(".rootids -\r1\n.nodes\n.end\n"), 0},
    {15, 1, FILE_OF(".rootids -9223372036854775808 -\n.nodes\n.end\n"), 0},
    {18, 1, FILE_OF(".dd \xff\n.nodes\n.end\n"), 0},
    {18, 2, FILE_OF(".mode A\n.rootnames \xc3\n.nodes\n.end\n"), 0},
    {19, 0, FILE_OF(".nvars 4097\n.nodes\n.end\n"), 0},
    {19, 0, FILE_OF(".nnodes 1000001\n.nodes\n.end\n"), 0},
    {1, 0, FILE_OF(".nnodes 1000000\n.nodes\n.end\n"), 0},
    {1, 0, FILE_OF(".nnodes 32768\n.nodes\n.end\n"), 0},
    {20, 0, FILE_OF(".nsuppvars 1\n.nodes\n.end\n"), 0},
    {21, 0, FILE_OF(".nvars 1\n.nsuppvars 1\n.nodes\n.end\n"), 1},
    {21, 0, FILE_OF(ONE ".rootnames a\n.nodes\n.end\n"), 1},
    {22, 0, FILE_OF(".nvars 2\n.nsuppvars 2\n.ids 0 2\n.permids 0 1\n.nodes\n.end\n"), 2},
    {22, 0, FILE_OF(".nvars 2\n.nsuppvars 2\n.ids 1 0\n.permids 0 1\n.nodes\n.end\n"), 2},
    {23, 0, FILE_OF(".nvars 2\n.nsuppvars 2\n.ids 0 1\n.permids 0 0\n.nodes\n.end\n"), 2},
    {24, 0, FILE_OF(TWO ".varnames a b\n.orderedvarnames a c\n.nodes\n.end\n"), 2},
    {25, 0, FILE_OF(".nroots 1\n.rootids 0\n.nodes\n.end\n"), 0},
    {26, 0, FILE_OF(".nroots 1\n.rootids -1\n.nodes\n.end\n"), 0},
    {30, 0, FILE_OF(".nnodes 1\n.nodes\n"), 0},
    {30, 0, FILE_OF(".mode B\n.nnodes 1\n.nodes\n"), 0},
    {31, 3, FILE_OF(".nnodes 1\n.nodes\n2 T 0 0\n.end\n"), 0},
    {32, 3, FILE_OF(".nnodes 1\n.nodes\n1 T 0\n.end\n"), 0},
    {33, 3, FILE_OF(".nnodes 1\n.nodes\n1 X 0 0\n.end\n"), 0},
    {34, 9, FILE_OF(".mode A\n" ONE ".nnodes 2\n.nodes\n1 T 0 0\n2 1 1 -1\n.end\n"), 1},
    {35, 7, FILE_OF(ONE ".nnodes 1\n.nodes\n1 0 1 -1\n.end\n"), 1},
    {35, 8, FILE_OF(ONE ".nnodes 2\n.nodes\n1 T 0 0\n2 0 2 1\n.end\n"), 1},
    {35, 0, FILE_OF(".mode B\n" ONE ".nnodes 1\n.nodes\n\x60.end\n"), 1},
    {36, 9, FILE_OF(TWO ".nnodes 3\n.nodes\n1 T 0 0\n2 0 1 -1\n3 1 2 1\n.end\n"), 2},
    {37, 0, FILE_OF(".mode B\n.nnodes 1\n.nodes\n\0\x04.end\n"), 0},
    {38, 0, FILE_OF(".mode B\n" ONE ".nnodes 2\n.nodes\n\0\0\x20\x03\1\1\1\1\1\1\1\1\1\2.end\n"), 1},
    {39, 0, FILE_OF(".nodes\n.en"), 0},
    {39, 0, FILE_OF(".nodes\n.end\n."), 0},
};

enum { REFUSAL_NUMBERS = 43 };

static size_t met[REFUSAL_NUMBERS];
static size_t cases;

static void hold_refusal(unsigned given, size_t given_line, unsigned refusal, size_t line)
{
    cases++;
    if (holds(given == refusal, "the refusal is the right one") && holds(given_line == line, "its line is the right one"))
        met[refusal]++;
}

static void refuse_load(unsigned refusal, size_t line, struct load *c, struct store *s)
{
    case_is("load that is refused with %u", refusal);
    call_load(c, s);
    hold_refusal(c->answer.refusal, c->answer.line, refusal, line);
    done_with(c);
}

static void refuse_files(void)
{
    size_t i;

    for (i = 0; i < sizeof files / sizeof *files; i++) {
        const struct refused_file *f = &files[i];
        struct store s = plan_store();
        struct load c = load_of(f->file, f->len, plan_levels, f->list_len, 3);

        refuse_load(f->refusal, f->line, &c, &s);
        drop_store(&s);
    }
}

/* A level list that isn't strictly ascending, or not below the level count. */
static void refuse_list(uint16_t first, uint16_t second)
{
    struct store s = plan_store();
    uint16_t list[2];
    struct load c = load_of(plan, strlen(plan), list, 2, 3);

    list[0] = first;
    list[1] = second;
    refuse_load(2, 0, &c, &s);
    drop_store(&s);
}

/* A list in the second line. With one entry more than the limit it is refused there; at the limit it is judged by its count. */
static void refuse_long_list(const char *start, size_t entries, unsigned refusal, size_t line)
{
    size_t len = strlen(start), i;
    char *file = room(len + 2 * entries + 20);
    struct store s = plan_store();
    struct load c;

    memcpy(file, start, len);
    for (i = 0; i < entries; i++, len += 2)
        memcpy(file + len, " 1", 2);
    strcpy(file + len, "\n.nodes\n.end\n");
    c = load_of(file, strlen(file), NULL, 0, 0);
    refuse_load(refusal, line, &c, &s);
    drop_store(&s);
    free(file);
}

/* An input that is a byte too long, and one that isn't: spaces after `.end`. */
static void refuse_long_input(void)
{
    static const char start[] = ".nodes\n.end\n";
    uint8_t *file = room(ZT_MOST_INPUT + 1);
    struct store s = plan_store();
    struct load c = load_of(file, ZT_MOST_INPUT + 1, NULL, 0, 0);

    memset(file, ' ', ZT_MOST_INPUT + 1);
    memcpy(file, start, sizeof start - 1);
    refuse_load(19, 0, &c, &s);
    if (!exact) { /* a tool that watches memory takes minutes over so many bytes */
        c = load_of(file, ZT_MOST_INPUT, NULL, 0, 0);
        call_load(&c, &s);
        case_is("load of an input at the limit");
        holds(c.answer.refusal == 0, "it is accepted");
        done_with(&c);
    }
    drop_store(&s);
    free(file);
}

static void refuse_for_store(void)
{
    struct store s = plan_store(), small = empty_store(2, 2);
    struct load c = load_of(plan, strlen(plan), plan_levels, 2, 3);

    refuse_load(40, 0, &c, &small);
    s.heads[7] = 2;
    c = load_of(plan, strlen(plan), plan_levels, 2, 3);
    refuse_load(3, 0, &c, &s);
    drop_store(&s);
    drop_store(&small);
}

/* 'every slot lent .. is used': the example's two nodes need two slots. Their numbers are around those that an edge of 16 bits has. */
static void refuse_full_store(size_t slots)
{
    struct store s = full_store(slots - 1, slots), all_but_two = full_store(slots - 2, slots);
    struct load c = load_of(plan, strlen(plan), plan_levels, 2, 3);

    refuse_load(40, 0, &c, &s);
    c = load_of(plan, strlen(plan), plan_levels, 2, 3);
    case_is("load that fills a store of %zu slots", slots);
    call_load(&c, &all_but_two);
    holds(c.answer.refusal == 0 && all_but_two.count == slots, "the example's two nodes just fit");
    holds(roots_of(&c)[0] == (zt_edge)slots && roots_of(&c)[1] == -(zt_edge)slots, "and the last number is its root");
    done_with(&c);
    drop_store(&s);
    drop_store(&all_but_two);
}

static void refuse_evaluation(unsigned refusal, const struct store *s, zt_edge root, const uint8_t *setting, size_t len)
{
    struct zt_evaluate_answer a;

    case_is("evaluation that is refused with %u", refusal);
    a = call_evaluate(s, root, setting, len);
    hold_refusal(a.refusal, a.line, refusal, 0);
}

static void refuse_evaluations(void)
{
    static const uint8_t good[3] = {0, 1, 0}, bad[2] = {0, 2};
    struct store s = plan_store();

    refuse_evaluation(4, &s, 0, good, 2);
    refuse_evaluation(4, &s, 4, good, 2);
    refuse_evaluation(4, &s, -4, good, 2);
    refuse_evaluation(4, &s, -32768, good, 2);
    refuse_evaluation(4, &s, INT32_MIN, good, 2);
    refuse_evaluation(4, &s, 65539, good, 2);
    refuse_evaluation(4, &s, 3, bad, 2);
    refuse_evaluation(4, &s, 3, good, 3);
    refuse_evaluation(4, &s, 3, good, 1);
    s.next[1] = 3;
    refuse_evaluation(3, &s, 3, good, 2);
    drop_store(&s);
}

static void refuse_example(unsigned refusal, const struct store *s, zt_edge root, uint8_t wanted, size_t len)
{
    struct example c = example_of(s, root, wanted);

    case_is("example that is refused with %u", refusal);
    c.setting_len = len;
    call_example(&c, s);
    hold_refusal(c.answer.refusal, c.answer.line, refusal, 0);
    done_with_example(&c);
}

static void refuse_examples(void)
{
    struct store s = plan_store();

    refuse_example(1, &s, 3, 1, 1);
    refuse_example(4, &s, 0, 1, 2);
    refuse_example(4, &s, 4, 1, 2);
    refuse_example(4, &s, -4, 0, 2);
    refuse_example(4, &s, -32768, 0, 2);
    refuse_example(4, &s, INT32_MIN, 0, 2);
    refuse_example(41, &s, 1, 0, 2);
    refuse_example(41, &s, -1, 1, 2);
    refuse_example(41, &s, -1, 255, 3);
    s.next[1] = 3;
    refuse_example(3, &s, 3, 1, 2);
    drop_store(&s);
}

static void refuse_tip(unsigned refusal, const struct store *s, zt_edge root, const uint8_t *setting, size_t len)
{
    struct tip c = tip_of(s, root, setting);

    case_is("tipping point that is refused with %u", refusal);
    c.setting_len = len;
    call_tip(&c, s);
    hold_refusal(c.answer.refusal, c.answer.line, refusal, 0);
}

static void refuse_tips(void)
{
    static const uint8_t good[3] = {0, 0, 0}, bad[2] = {0, 2};
    struct store s = plan_store();

    refuse_tip(4, &s, 0, good, 2);
    refuse_tip(4, &s, 4, good, 2);
    refuse_tip(4, &s, -4, good, 2);
    refuse_tip(4, &s, -32768, good, 2);
    refuse_tip(4, &s, INT32_MIN, good, 2);
    refuse_tip(4, &s, 65539, good, 2);
    refuse_tip(4, &s, 3, bad, 2);
    refuse_tip(4, &s, 3, good, 3);
    refuse_tip(4, &s, 3, good, 1);
    refuse_tip(42, &s, 1, good, 2);
    refuse_tip(42, &s, -1, good, 2);
    refuse_tip(42, &s, 3, good, 2);
    s.next[1] = 3;
    refuse_tip(3, &s, 3, good, 2);
    drop_store(&s);
}

static void refuse_export(unsigned refusal, struct export *e, const struct store *s)
{
    case_is("export that is refused with %u", refusal);
    call_export(e, s);
    hold_refusal(e->answer.refusal, e->answer.line, refusal, 0);
    done_exporting(e);
}

/* An export of the example's two roots, with names for all, and so many bytes more for names. */
static struct export plan_export(const struct store *s, size_t more)
{
    static const zt_edge roots[2] = {3, -3};
    struct export e = export_of(s, roots, 2, plan_levels, 2);

    e.names = room_for_names(20 + more, 3, 3);
    name_variable(&e.names, "gate", 4);
    name_variable(&e.names, "dock", 4);
    name_root(&e.names, "full", 4);
    name_root(&e.names, "short", 5);
    fit_output(&e, s);
    return e;
}

/* The last root's name, or the diagram's, is another one; with `refusal` 0 it must be accepted. */
static void name_otherwise(unsigned refusal, int diagram, const char *name, size_t len)
{
    struct store s = plan_store();
    struct export e = plan_export(&s, len);

    case_is("export with another name of %zu bytes", len);
    if (diagram) {
        name_diagram(&e.names, name, len);
    } else {
        e.names.rootlens_len = e.names.rootstarts_len = 1;
        name_root(&e.names, name, len);
    }
    fit_output(&e, &s);
    if (refusal != 0) {
        refuse_export(refusal, &e, &s);
    } else {
        call_export(&e, &s);
        holds(e.answer.refusal == 0, "the name is fit");
        done_exporting(&e);
    }
    drop_names(&e.names);
    drop_store(&s);
}

static void refuse_names(void)
{
    char longest[256];
    int diagram;

    memset(longest, 'a', sizeof longest);
    for (diagram = 0; diagram <= 1; diagram++) {
        name_otherwise(0, diagram, longest, 255);
        name_otherwise(5, diagram, longest, 256);
        name_otherwise(diagram ? 0 : 5, diagram, "", 0);
        name_otherwise(diagram ? 0 : 5, diagram, "a b", 3);
        name_otherwise(0, diagram, "\xf0\x9f\x9a\xa6", 4);
        name_otherwise(5, diagram, "a\xff", 2);
        name_otherwise(5, diagram, "\xc3", 1);
        name_otherwise(5, diagram, "\xed\xa0\x80", 3);
        name_otherwise(5, diagram, "a\0", 2);
        name_otherwise(5, diagram, "a\x1f", 2);
        name_otherwise(5, diagram, "\x7f", 1);
    }
}

/* Places outside the bytes, and name lists of other lengths. */
static void refuse_places(void)
{
    struct store s = plan_store();
    struct export e = plan_export(&s, 0);

    e.names.rootstarts[1]++;
    refuse_export(5, &e, &s);
    e.names.rootstarts[1] = 0xffffffff;
    refuse_export(5, &e, &s);
    e.names.rootstarts[1] = 0;
    e.names.ddstart = (uint32_t)e.names.bytes_len + 1;
    refuse_export(5, &e, &s);
    e.names.ddstart = 0;
    e.names.starts_len = 1;
    refuse_export(5, &e, &s);
    e.names.lens_len = 1;
    refuse_export(5, &e, &s);
    e.names.starts_len = e.names.lens_len = 0;
    e.names.rootstarts_len = 0;
    refuse_export(5, &e, &s);
    drop_names(&e.names);
    drop_store(&s);
}

/* The longest lengths that there are: the export size grows with them, and the output is too short. */
static void refuse_sizes(void)
{
    struct store s = plan_store();
    struct export e = plan_export(&s, 0);

    e.out_len--;
    refuse_export(1, &e, &s);
    e.out_len++;
    e.names.lens[0] = 0xffffffff;
    refuse_export(1, &e, &s);
    e.names.lens[0] = 4;
    e.names.ddlen = 0xffffffff;
    refuse_export(1, &e, &s);
    e.names.ddlen = 0;
    e.slots_len--;
    refuse_export(1, &e, &s);
    e.slots_len++;
    e.numbers_len--;
    refuse_export(1, &e, &s);
    drop_names(&e.names);
    drop_store(&s);
}

static void refuse_roots(const zt_edge *roots, size_t count)
{
    struct store s = plan_store();
    struct export e = export_of(&s, roots, count, plan_levels, 2);

    refuse_export(4, &e, &s);
    drop_store(&s);
}

static void refuse_order(uint16_t first, uint16_t second, size_t len)
{
    static const zt_edge root = 3;
    struct store s = plan_store();
    uint16_t order[3];
    struct export e = export_of(&s, &root, 1, order, len);

    order[0] = first;
    order[1] = second;
    order[2] = 2;
    refuse_export(6, &e, &s);
    drop_store(&s);
}

static void refuse_exports(void)
{
    static const zt_edge zero = 0, beyond[2] = {3, -4};
    zt_edge many[ZT_MOST_ROOTS + 1];
    struct store s = plan_store();
    struct export e = export_of(&s, NULL, 0, plan_levels, 2);
    size_t i;

    for (i = 0; i <= ZT_MOST_ROOTS; i++)
        many[i] = i % 2 ? 3 : -2;
    s.level[2] = 1;
    refuse_export(3, &e, &s);
    refuse_roots(&zero, 1);
    refuse_roots(beyond, 2);
    refuse_roots(many, ZT_MOST_ROOTS + 1);
    refuse_order(0, 0, 2);
    refuse_order(0, 2, 2);
    refuse_order(0, 1, 3);
    refuse_order(0, 1, 1);
    refuse_names();
    refuse_places();
    refuse_sizes();
    drop_store(&s);
}

static int is_refusal(size_t n)
{
    return (n >= 1 && n <= 6) || (n >= 10 && n <= 26) || (n >= 30 && n <= 42);
}

void try_refusals(void)
{
    size_t n, numbers = 0;

    cases = 0;
    refuse_files();
    refuse_list(1, 1);
    refuse_list(1, 0);
    refuse_list(0, 2);
    refuse_list(0, 65535);
    refuse_long_list(".mode A\n.rootids", ZT_ROOT_ENTRIES + 1, 19, 2);
    refuse_long_list(".mode A\n.rootids", ZT_ROOT_ENTRIES, 21, 0);
    refuse_long_list(".mode A\n.ids", ZT_VARIABLE_ENTRIES + 1, 19, 2);
    refuse_long_list(".mode A\n.ids", ZT_VARIABLE_ENTRIES, 21, 0);
    refuse_long_input();
    refuse_for_store();
    refuse_full_store(32767);
    refuse_full_store(32768);
    refuse_full_store(MANY_NODES);
    refuse_evaluations();
    refuse_examples();
    refuse_tips();
    refuse_exports();
    case_is("refusals");
    for (n = 0; n < REFUSAL_NUMBERS; n++) {
        holds((met[n] > 0) == is_refusal(n), "each number of documents 01 and 02 was met, and no other");
        numbers += met[n] > 0;
    }
    holds(numbers == 36, "documents 01 and 02 have 36 refusals");
    group_done("refusals, each of 36 numbers", cases);
}

/* The order: a call with every fault is refused for the first; that one is mended, and it is refused for the next. */

static void mend_load(void)
{
    static const char bad_key[] = TWO ".what\n.nnodes 1\n.nodes\n2 T 0 0\n.en";
    static const char bad_ids[] = ".nvars 2\n.nsuppvars 2\n.ids 0 2\n.permids 0 1\n.nnodes 1\n.nodes\n2 T 0 0\n.en";
    static const char bad_node[] = TWO ".nnodes 3\n.nodes\n1 T 0 0\n2 1 1 -1\n4 0 2 -1\n.en";
    static const char no_end[] = TWO ".nnodes 3\n.nodes\n1 T 0 0\n2 1 1 -1\n3 0 2 -1\n.en";
    static const struct { const char *file; unsigned mended, refusal; size_t line; } steps[] = {
        {NULL, 0, 1, 0}, {NULL, 1, 3, 0}, {NULL, 2, 19, 0},
        {bad_key, 2, 11, 5}, {bad_ids, 2, 22, 0}, {bad_node, 2, 1, 0}, {bad_node, 3, 2, 0}, {bad_node, 4, 40, 0}, {bad_node, 5, 31, 9},
        {no_end, 4, 40, 0}, {no_end, 5, 39, 0},
    };
    uint8_t *endless = room(ZT_MOST_INPUT + 1);
    size_t i;

    memset(endless, 'x', ZT_MOST_INPUT + 1);
    for (i = 0; i < sizeof steps / sizeof *steps; i++) {
        const void *file = steps[i].file == NULL ? (const void *)endless : steps[i].file;
        size_t len = steps[i].file == NULL ? ZT_MOST_INPUT + 1 : strlen(steps[i].file);
        unsigned mended = steps[i].mended;
        struct store s = empty_store(2, mended >= 5 ? 3 : 1);
        struct load c = load_of(file, len, plan_levels, mended >= 4 ? 2 : 1, mended >= 3 ? 3 : 0);

        c.lens[LOAD_ROOTLENS] -= mended < 1;
        s.heads[0] = mended < 2;
        refuse_load(steps[i].refusal, steps[i].line, &c, &s);
        drop_store(&s);
    }
    free(endless);
}

static void mend_evaluation(void)
{
    static const uint8_t setting[2] = {0, 2};
    struct store s = plan_store();

    s.heads[0] ^= 1;
    refuse_evaluation(3, &s, 9, setting, 2);
    s.heads[0] ^= 1;
    refuse_evaluation(4, &s, 9, setting, 2);
    drop_store(&s);
}

static void mend_example(void)
{
    struct store s = plan_store();
    struct example c = example_of(&s, 1, 1);

    s.heads[0] ^= 1;
    refuse_example(1, &s, 9, 0, 1);
    refuse_example(3, &s, 9, 0, 2);
    s.heads[0] ^= 1;
    refuse_example(4, &s, 9, 0, 2);
    refuse_example(41, &s, 1, 0, 2);
    call_example(&c, &s);
    holds(c.answer.refusal == 0, "with all faults mended it is accepted");
    done_with_example(&c);
    drop_store(&s);
}

static void mend_tip(void)
{
    static const uint8_t bad[2] = {0, 2}, none[2] = {0, 0}, gate[2] = {1, 0};
    struct store s = plan_store();
    struct tip c = tip_of(&s, 3, gate);

    s.heads[0] ^= 1;
    refuse_tip(3, &s, 9, bad, 2);
    s.heads[0] ^= 1;
    refuse_tip(4, &s, 9, bad, 2);
    refuse_tip(4, &s, 3, bad, 2);
    refuse_tip(42, &s, 3, none, 2);
    call_tip(&c, &s);
    holds(c.answer.refusal == 0 && c.answer.level == 1, "with all faults mended it is accepted");
    drop_store(&s);
}

static void mend_export(void)
{
    static const uint16_t bad_order[2] = {1, 1};
    static const zt_edge bad_roots[2] = {3, 4};
    struct store s = plan_store();
    struct export e = plan_export(&s, 0);
    const zt_edge *roots = e.roots;

    e.roots = bad_roots;
    e.order = bad_order;
    e.names.bytes[0] = ' ';
    e.out_len--;
    s.heads[0] ^= 1;
    refuse_export(1, &e, &s);
    e.out_len++;
    refuse_export(3, &e, &s);
    s.heads[0] ^= 1;
    refuse_export(4, &e, &s);
    e.roots = roots;
    refuse_export(6, &e, &s);
    e.order = plan_levels;
    refuse_export(5, &e, &s);
    e.names.bytes[0] = 'g';
    call_export(&e, &s);
    holds(e.answer.refusal == 0, "with all faults mended it is accepted");
    done_exporting(&e);
    drop_names(&e.names);
    drop_store(&s);
}

void try_order_of_refusals(void)
{
    cases = 0;
    mend_load();
    mend_evaluation();
    mend_example();
    mend_tip();
    mend_export();
    group_done("the order of refusals", cases);
}
