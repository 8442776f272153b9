/*
 * What holds between several calls, tried on the small stores: a joined root answers as the operation says, at every setting; opposites, ands, ors
 * and exclusive ors agree with each other; equal numbers stand just for equal answers, whichever calls gave them; an exported root that was joined
 * is read back as it is; and loads go on as ever in a store that grew by joins, and so do examples and tipping points.
 */
#include <stdlib.h>

#include "groups.h"
#include "report.h"
#include "stored.h"

enum { MOST_LEVELS = 6, MOST_ROOTS = 200, SLOTS = 400 };

static size_t cases;

/* All answers of an edge: bit k is for setting k. The call is asked for one of them. */
static uint64_t answers_of(const struct store *s, zt_edge edge)
{
    uint8_t setting[MOST_LEVELS];
    uint64_t answers = 0;
    size_t k;

    for (k = 0; k < (size_t)1 << s->levels; k++) {
        setting_of(k, s->levels, setting);
        answers |= (uint64_t)answer_of(s, edge, setting) << k;
    }
    k = cases % ((size_t)1 << s->levels);
    setting_of(k, s->levels, setting);
    holds(call_evaluate(s, edge, setting, s->levels).answer == (answers >> k & 1), "an evaluation says what the store does");
    return answers;
}

static uint64_t all_answers(const struct store *s)
{
    return s->levels == MOST_LEVELS ? ~(uint64_t)0 : ((uint64_t)1 << ((size_t)1 << s->levels)) - 1;
}

static uint64_t operation_on_all(enum operation op, uint64_t a, uint64_t b)
{
    switch (op) {
    case AND: return a & b;
    case OR: return a | b;
    default: return a ^ b;
    }
}

static zt_edge joined(struct store *s, enum operation op, zt_edge a, zt_edge b)
{
    struct zt_join_answer answer = call_join(s, op, a, b);
    uint64_t expected = operation_on_all(op, answers_of(s, a), answers_of(s, b));

    cases++;
    if (holds(answer.refusal == 0, "a join in a store with room is accepted"))
        holds(answers_of(s, answer.root) == expected, "a joined root answers as the operation says, at every setting");
    return answer.refusal == 0 ? answer.root : 1;
}

static zt_edge opposite(const struct store *s, zt_edge root)
{
    struct zt_join_answer answer = call_opposite(s, root);

    cases++;
    holds(answer.refusal == 0, "an opposite is accepted");
    holds(answers_of(s, answer.root) == (answers_of(s, root) ^ all_answers(s)), "an opposite answers the other, at every setting");
    return answer.root;
}

/* Roots that calls gave, with their answers. */
struct given {
    zt_edge roots[MOST_ROOTS];
    uint64_t answers[MOST_ROOTS];
    size_t len;
};

static void note(struct given *g, const struct store *s, zt_edge root)
{
    if (g->len == MOST_ROOTS)
        stop("a store gives too many roots");
    g->roots[g->len] = root;
    g->answers[g->len++] = answers_of(s, root);
}

/* 'Equal numbers exactly when equal answers', and no root's answers changed while nodes were added. */
static void hold_given(const struct given *g, const struct store *s)
{
    size_t i, j;

    for (i = 0; i < g->len; i++) {
        holds(answers_of(s, g->roots[i]) == g->answers[i], "a root answers as it did when it was given");
        for (j = 0; j < i; j++)
            holds((g->roots[i] == g->roots[j]) == (g->answers[i] == g->answers[j]), "one number just for one meaning");
    }
}

/* Examples of some of the roots, and at every setting what tips them. */
static void find_examples(const struct given *g, const struct store *s)
{
    size_t i;

    for (i = 0; i < g->len; i += 8) {
        hold_examples_of(s, g->roots[i]);
        hold_tips_of(s, g->roots[i]);
    }
}

static void try_pair(struct store *s, zt_edge a, zt_edge b, struct given *g)
{
    zt_edge both = joined(s, AND, a, b), either = joined(s, OR, a, b), one = joined(s, XOR, a, b);
    zt_edge no_a = opposite(s, a), no_b = opposite(s, b);

    note(g, s, both);
    note(g, s, either);
    note(g, s, one);
    holds(both == opposite(s, joined(s, OR, no_a, no_b)), "an and is the opposite of the or of the opposites");
    holds(one == joined(s, OR, joined(s, AND, a, no_b), joined(s, AND, no_a, b)), "an exclusive or is an or of two ands");
    holds(one == joined(s, AND, either, opposite(s, both)), "and the or without the and");
    holds(joined(s, XOR, no_a, b) == opposite(s, one), "an operand's opposite turns an exclusive or over");
    holds(joined(s, XOR, one, b) == a, "a second exclusive or undoes the first");
    holds(joined(s, AND, both, either) == both && joined(s, OR, both, either) == either, "what is there is found again");
}

/* A file of one variable, and its root, which answers as that level is set. */
static void load_level(struct store *s, uint16_t level, struct given *g)
{
    static const char file[] = ".nvars 1\n.nsuppvars 1\n.ids 0\n.permids 0\n.nnodes 2\n.nroots 1\n.rootids 2\n.nodes\n1 T 0 0\n2 0 1 -1\n.end\n";
    struct load c = load_of(file, sizeof file - 1, &level, 1, 2);

    call_load(&c, s);
    if (holds(c.answer.refusal == 0 && c.answer.nroots == 1, "a load after joins is accepted"))
        note(g, s, roots_of(&c)[0]);
    done_with(&c);
    cases++;
}

/* A file that was exported, loaded into an empty store: its roots answer as those that were exported. */
static void read_elsewhere(const struct store *s, const struct export *e)
{
    struct store other = empty_store(s->levels, SLOTS);
    uint16_t list[MOST_LEVELS];
    size_t len = reached_levels(s, e->roots, e->roots_len, list), r;
    struct load c = load_of(e->out.at, e->answer.len, list, len, SLOTS);

    call_load(&c, &other);
    if (holds(c.answer.refusal == 0 && c.answer.nroots == e->roots_len, "an exported file is accepted in an empty store"))
        for (r = 0; r < e->roots_len; r++)
            holds(answers_of(&other, roots_of(&c)[r]) == answers_of(s, e->roots[r]), "its roots answer as those that were exported");
    done_with(&c);
    drop_store(&other);
}

/* The last roots that were given, as text or as binary, read back. */
static void export_joined(const struct store *s, const struct given *g, uint8_t text)
{
    size_t len = g->len < 20 ? g->len : 20;
    const zt_edge *roots = g->roots + g->len - len;
    uint16_t order[MOST_LEVELS];
    struct export e;
    size_t l;

    for (l = 0; l < s->levels; l++)
        order[l] = (uint16_t)l;
    e = export_of(s, roots, len, order, s->levels);
    e.text = text;
    call_export(&e, s);
    if (holds(e.answer.refusal == 0, "an export of joined roots is accepted")) {
        hold_back(s, roots, len, e.out.at, e.answer.len);
        hold_header_back(&e, s);
        read_elsewhere(s, &e);
    }
    done_exporting(&e);
    cases++;
}

/* Pairs of a store's edges, a few of many, one after the other in one store that grows. */
static void try_store(const struct store *small)
{
    static struct given g;
    struct store s = with_slots(small, SLOTS);
    size_t edges = edges_of(small), pairs = edges * edges, apart = 1 + pairs / 12, i;
    uint16_t level;

    g.len = 0;
    for (i = cases % apart; i < pairs; i += apart)
        try_pair(&s, edge_at(i / edges), edge_at(i % edges), &g);
    for (level = 0; level < s.levels; level++)
        load_level(&s, level, &g);
    hold_given(&g, &s);
    export_joined(&s, &g, 0);
    export_joined(&s, &g, 1);
    find_examples(&g, &s);
    drop_store(&s);
}

void try_join_laws(void)
{
    cases = 0;
    with_small_stores(try_store, exact ? 12 * step : 3);
    group_done("laws of joins, opposites, loads and exports", cases);
}
