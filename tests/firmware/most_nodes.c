/*
 * Stores and files of as many nodes as there may be, and of one more. A call takes a good part of a second there, so there are few; they are left out
 * under a tool that watches memory.
 */
#include <stdio.h>
#include <stdlib.h>
#include <string.h>

#include "groups.h"
#include "report.h"

static size_t cases;

static const uint16_t *all_levels(void)
{
    static uint16_t levels[ZT_MOST_LEVELS];
    size_t l;

    for (l = 0; l < ZT_MOST_LEVELS; l++)
        levels[l] = (uint16_t)l;
    return levels;
}

static void join_gives(struct store *s, enum operation op, zt_edge a, zt_edge b, unsigned refusal, zt_edge root)
{
    zt_index count = s->count;
    struct zt_join_answer answer = call_join(s, op, a, b);

    holds(answer.refusal == refusal && answer.root == root, "a join has the right refusal and root");
    holds(s->count == (magnitude_of(root) > count ? count + 1 : count), "a join adds the node that it needs, and no other");
    cases++;
}

static void load_gives(struct store *s, const char *file, const uint16_t *list, unsigned refusal, zt_edge root)
{
    struct load c = load_of(file, strlen(file), list, 2, 3);
    zt_index count = s->count;

    call_load(&c, s);
    holds(c.answer.refusal == refusal && c.answer.line == 0, "a load has the right refusal");
    holds(roots_of(&c)[0] == root, "a load gives the right root");
    holds(s->count == count, "a load of nodes that are there, or that is refused, adds none");
    done_with(&c);
    cases++;
}

static void evaluate_gives(const struct store *s, zt_edge root, unsigned refusal)
{
    uint8_t setting[ZT_MOST_LEVELS];
    struct zt_evaluate_answer a;
    size_t l;

    for (l = 0; l < s->levels; l++)
        setting[l] = (uint8_t)(l % 5 != 3);
    a = call_evaluate(s, root, setting, s->levels);
    holds(a.refusal == refusal, "an evaluation has the right refusal");
    if (refusal == 0 && a.refusal == 0)
        holds(a.answer == answer_of(s, root, setting), "a root answers as it should");
    cases++;
}

static void example_gives(const struct store *s, zt_edge root, unsigned refusal)
{
    struct example c = example_of(s, root, 1);

    call_example(&c, s);
    holds(c.answer.refusal == refusal, "an example has the right refusal");
    done_with_example(&c);
    cases++;
}

static void tip_gives(const struct store *s, zt_edge root, unsigned refusal, uint16_t level)
{
    uint8_t setting[ZT_MOST_LEVELS];
    struct tip c;

    memset(setting, 1, s->levels);
    c = tip_of(s, root, setting);
    call_tip(&c, s);
    holds(c.answer.refusal == refusal && c.answer.level == level, "a tipping point has the right refusal and level");
    cases++;
}

/*
 * 'every slot lent, or 1,000,000, is used': the last number is given, and then no more, though there are slots. What is there is still found. The
 * store has no node at the levels 0 and 1.
 */
static void fill_store(void)
{
    struct store s = wide_store(ZT_MOST_NODES - 3, ZT_MOST_NODES + 10);
    zt_edge x0, x1;

    case_is("joins and loads that fill a store");
    holds(keeps_rules(&s), "the store keeps the rules");
    add_node(&s, 0, 1, -1);
    x0 = (zt_edge)s.count;
    add_node(&s, 1, 1, -1);
    x1 = (zt_edge)s.count;
    join_gives(&s, AND, x0, x1, 0, ZT_MOST_NODES);
    join_gives(&s, OR, x0, x1, 40, 0);
    join_gives(&s, OR, -x0, -x1, 0, -ZT_MOST_NODES);
    load_gives(&s, plan, plan_levels, 0, ZT_MOST_NODES);
    load_gives(&s, plan, all_levels() + 2, 40, 0);
    evaluate_gives(&s, ZT_MOST_NODES, 0);
    evaluate_gives(&s, -ZT_MOST_NODES, 0);
    evaluate_gives(&s, ZT_MOST_NODES - 12345, 0);
    evaluate_gives(&s, ZT_MOST_NODES + 1, 4);
    evaluate_gives(&s, -ZT_MOST_NODES - 1, 4);
    example_gives(&s, -ZT_MOST_NODES, 0);
    example_gives(&s, ZT_MOST_NODES + 1, 4);
    tip_gives(&s, -ZT_MOST_NODES, 0, 0);
    tip_gives(&s, x1, 0, 1);
    tip_gives(&s, -1, 42, 0);
    tip_gives(&s, -ZT_MOST_NODES - 1, 4, 0);
    holds(call_opposite(&s, -ZT_MOST_NODES).root == ZT_MOST_NODES, "the last root has an opposite");
    drop_store(&s);
}

/* As many slots as nodes; and a node more than there may be, in a store that keeps the rules but for that. */
static void pass_limit(void)
{
    struct store s = wide_store(ZT_MOST_NODES, ZT_MOST_NODES), over = wide_store(ZT_MOST_NODES + 1, ZT_MOST_NODES + 1);
    struct load c = load_of(plan, strlen(plan), plan_levels, 2, 3);

    case_is("stores of as many nodes as there may be, and of one more");
    evaluate_gives(&s, ZT_MOST_NODES, 0);
    join_gives(&s, XOR, ZT_MOST_NODES, 2, 40, 0);
    evaluate_gives(&over, 1, 3);
    example_gives(&over, 1, 3);
    tip_gives(&over, 1, 3, 0);
    join_gives(&over, AND, 1, 1, 3, 0);
    holds(call_opposite(&over, 1).refusal == 3, "an opposite sees that the store is broken");
    call_load(&c, &over);
    holds(c.answer.refusal == 3, "a load sees that the store is broken");
    done_with(&c);
    drop_store(&s);
    drop_store(&over);
}

/* Files */

/* A file of text whose lines are the nodes of a store, node 1 included, with its last node as the root. All levels are support variables. */
static struct bytes file_of(const struct store *s)
{
    size_t most = 100000 + 40 * (size_t)s->count, n, l;
    char *at = room(most), *end = at;
    struct bytes file;

    end += sprintf(end, ".mode A\n.nnodes %u\n.nvars %u\n.nsuppvars %u\n.ids", (unsigned)s->count, (unsigned)s->levels, (unsigned)s->levels);
    for (l = 0; l < s->levels; l++)
        end += sprintf(end, " %zu", l);
    end += sprintf(end, "\n.permids");
    for (l = 0; l < s->levels; l++)
        end += sprintf(end, " %zu", l);
    end += sprintf(end, "\n.nroots 1\n.rootids -%u\n.nodes\n1 T 0 0\n", (unsigned)s->count);
    for (n = 2; n <= s->count; n++)
        end += sprintf(end, "%zu %u %d %d\n", n, (unsigned)s->level[n - 1], (int)s->then[n - 1], (int)s->els[n - 1]);
    end += sprintf(end, ".end\n");
    file.at = (uint8_t *)at;
    file.len = (size_t)(end - at);
    return file;
}

/* Loads the file of a store's nodes into an empty store of so many slots. Where it is accepted, its nodes come to be those of the store. */
static void load_whole(const struct store *s, size_t slots, size_t scratch, unsigned refusal)
{
    struct bytes file = file_of(s);
    struct store to = empty_store(s->levels, slots), none = empty_store(s->levels, slots);
    struct load c = load_of(file.at, file.len, all_levels(), s->levels, scratch);

    case_is("load of a file of %u nodes into %zu slots", (unsigned)s->count, slots);
    call_load(&c, &to);
    holds(c.answer.refusal == refusal && c.answer.line == 0, "it has the right refusal");
    holds(same_store(&to, refusal == 0 ? s : &none), "its nodes are those of the store, or it leaves none");
    holds(roots_of(&c)[0] == (refusal == 0 ? -(zt_edge)s->count : 0), "its root is the last one");
    done_with(&c);
    drop_store(&to);
    drop_store(&none);
    free(file.at);
    cases++;
}

static void load_files(void)
{
    struct store s = wide_store(ZT_MOST_NODES, ZT_MOST_NODES), over = wide_store(ZT_MOST_NODES + 1, ZT_MOST_NODES + 1);

    load_whole(&s, ZT_MOST_NODES, ZT_MOST_NODES, 0);
    load_whole(&s, ZT_MOST_NODES - 1, ZT_MOST_NODES, 40);
    load_whole(&s, 1, ZT_MOST_NODES - 1, 1);
    load_whole(&over, ZT_MOST_NODES + 1, ZT_MOST_NODES + 1, 19);
    drop_store(&s);
    drop_store(&over);
}

/* Exports */

/*
 * A store whose nodes are all reached from few: over the first level that wide_store fills, each node has two of the level below, one with a minus,
 * and each of those is under two.
 */
enum { FILLED = 13 + 276, WIDTH = 276 };

static struct store woven_store(size_t nodes)
{
    struct store first = wide_store(FILLED, FILLED), s = with_slots(&first, nodes);
    uint16_t l = first.level[FILLED - 1];
    zt_edge below = FILLED - WIDTH + 1, i;

    for (; s.count < nodes; below += WIDTH) {
        l--;
        for (i = 0; i < WIDTH && s.count < nodes; i++)
            add_node(&s, l, below + i, -(below + (i + 1) % WIDTH));
    }
    drop_store(&first);
    return s;
}

/* The nodes of the last level, and those of the one below that they leave out, are the roots: at most two levels' nodes are. */
static size_t top_roots(const struct store *s, zt_edge *roots)
{
    zt_edge i;

    for (i = 0; i < 2 * WIDTH; i++)
        roots[i] = (zt_edge)s->count - i;
    return 2 * WIDTH;
}

/* Every node is written, at the largest numbers that there are, as text and in binary, and read back. */
static void export_whole(uint8_t text)
{
    static const char nnodes[] = "\n.nnodes 1000000\n";
    struct store s = woven_store(ZT_MOST_NODES);
    zt_edge roots[2 * WIDTH];
    size_t count = top_roots(&s, roots);
    struct export e = export_of(&s, roots, count, all_levels(), s.levels);
    size_t i = 0;

    case_is("export of as many nodes as there may be, text %u", (unsigned)text);
    holds(keeps_rules(&s), "the store keeps the rules");
    e.text = text;
    call_export(&e, &s);
    if (holds(e.answer.refusal == 0, "it is accepted")) {
        while (i < 200 && memcmp((char *)e.out.at + i, nnodes, strlen(nnodes)) != 0)
            i++;
        holds(i < 200, "every node has a line");
        hold_back(&s, roots, count, e.out.at, e.answer.len);
    }
    done_exporting(&e);
    drop_store(&s);
    cases++;
}

void try_most_nodes(void)
{
    cases = 0;
    if (exact)
        return;
    fill_store();
    pass_limit();
    load_files();
    export_whole(1);
    export_whole(0);
    group_done("as many nodes as there may be", cases);
}
