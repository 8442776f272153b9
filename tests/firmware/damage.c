/* Stores that are damaged at random. Each call must say 3 of a store that breaks its rules, and go on as ever with one that doesn't. */
#include <stdlib.h>
#include <string.h>

#include "groups.h"
#include "report.h"

enum { MOST_WHOLE = 1000, DAMAGED_COLUMNS = 9, MOST_MARKS = 70000 };

/* xorshift, from a fixed seed: every run has the same cases. */
static uint64_t state = 88172645463325252u;

static uint64_t chance(uint64_t below)
{
    state ^= state << 13;
    state ^= state >> 7;
    state ^= state << 17;
    return state % below;
}

/* Another value: a near one, any of 16 bits, the same but for its upper 16 bits, or any of 32. */
static uint32_t other_value(uint32_t value)
{
    uint32_t other;

    do
        switch (chance(6)) {
        case 0: other = (uint32_t)chance(65536); break;
        case 1: other = value + 65536 * (uint32_t)chance(65536); break;
        case 2: other = (uint32_t)chance(4294967296u); break;
        default: other = value + (uint32_t)chance(7) - 3; break;
        }
    while (other == value);
    return other;
}

/* Another one of 16 bits. */
static uint16_t other_short(uint16_t value)
{
    uint16_t other;

    do
        other = (uint16_t)other_value(value);
    while (other == value);
    return other;
}

/* Any edge, of a broken store. */
static zt_edge any_edge(void)
{
    return (zt_edge)(chance(2) ? chance(65536) : chance(4294967296u));
}

/* An entry of a list: one of a slot that is used, of the first one that isn't, or any. */
static size_t some_entry(const struct store *s, size_t len)
{
    size_t near = (size_t)s->count + 1 < len ? (size_t)s->count + 1 : len;

    return (size_t)(chance(4) ? chance(near) : chance(len));
}

static void damage_edges(const struct store *s, zt_edge *list, size_t len)
{
    size_t i = some_entry(s, len);

    list[i] = (zt_edge)other_value((uint32_t)list[i]);
}

static void damage_numbers(const struct store *s, zt_index *list, size_t len)
{
    size_t i = some_entry(s, len);

    list[i] = other_value(list[i]);
}

static void damage_levels(const struct store *s, uint16_t *list, size_t len)
{
    size_t i = some_entry(s, len);

    list[i] = other_short(list[i]);
}

static void damage(struct store *s)
{
    switch (chance(7)) {
    case 0: damage_levels(s, s->level, s->level_len); break;
    case 1: damage_edges(s, s->then, s->then_len); break;
    case 2: damage_edges(s, s->els, s->els_len); break;
    case 3: damage_numbers(s, s->next, s->next_len); break;
    case 4: s->heads[chance(s->heads_len)] = chance(4) ? (zt_index)chance(s->count + 2u) : other_value(s->count); break;
    case 5: s->levels = other_short(s->levels); break;
    default: s->count = other_value(s->count); break;
    }
}

static void evaluate_damaged(const struct store *s, int whole)
{
    uint8_t *setting = room(s->levels);
    size_t l;
    zt_edge root = whole ? (zt_edge)(1 + chance(s->count)) : any_edge();
    struct zt_evaluate_answer a;

    for (l = 0; l < s->levels; l++)
        setting[l] = (uint8_t)chance(2);
    a = call_evaluate(s, root, setting, s->levels);
    holds(a.refusal == (whole ? 0 : 3), "an evaluation sees whether a store is broken");
    if (whole && a.refusal == 0)
        holds(a.answer == answer_of(s, root, setting), "and answers as the store says where it isn't");
    free(setting);
}

/* One byte less than the levels is refused for that, also where the store is broken. */
static void example_damaged(const struct store *s, int whole)
{
    struct example c = example_of(s, whole ? (zt_edge)(1 + chance(s->count)) : any_edge(), (uint8_t)chance(3));
    unsigned none = c.root == 1 && c.wanted == 0 ? 41 : 0;

    c.setting_len += chance(2);
    call_example(&c, s);
    holds(c.answer.refusal == (whole ? none : 3), "an example sees whether a store is broken");
    done_with_example(&c);
    c.setting_len = s->levels - 1u;
    if (s->levels > 0) {
        call_example(&c, s);
        holds(c.answer.refusal == 1, "and before that whether the setting is too short");
        done_with_example(&c);
    }
}

/* Each level is flipped in turn where the store isn't broken; a byte more than the levels is refused for that then, and for the store else. */
static void tip_damaged(const struct store *s, int whole)
{
    uint8_t *setting = room(s->levels + 1u);
    struct tip c = tip_of(s, whole ? (zt_edge)(1 + chance(s->count)) : any_edge(), setting);
    size_t l;

    for (l = 0; l <= s->levels; l++)
        setting[l] = (uint8_t)chance(2);
    call_tip(&c, s);
    for (l = 0; whole && l < s->levels && !turns_over(&c, s, l);)
        l++;
    holds(c.answer.refusal == (!whole ? 3 : l == s->levels ? 42 : 0), "a tipping point sees whether a store is broken");
    if (c.answer.refusal == 0)
        holds(c.answer.level == l, "and is the lowest level that tips the answer where it isn't");
    c.setting_len++;
    call_tip(&c, s);
    holds(c.answer.refusal == (whole ? 4 : 3), "and does so before it judges the setting");
    free(setting);
}

/* Marks for as many nodes as are said may be more than there is memory for: fewer are refused for that, whether the store is broken or not. */
static void export_damaged(const struct store *s, int whole)
{
    unsigned refusal = s->count > MOST_MARKS ? 1 : whole ? 0 : 3;
    uint16_t *order = room(s->levels * sizeof *order);
    zt_edge root = (zt_edge)(whole ? 1 + chance(s->count) : 1);
    struct export e;
    size_t l;

    for (l = 0; l < s->levels; l++)
        order[l] = (uint16_t)l;
    e = export_of(s, &root, 1, order, s->levels);
    e.text = (uint8_t)chance(2);
    if (refusal == 1) {
        e.slots_len = e.numbers_len = MOST_MARKS;
        e.out_len = 32 * MOST_MARKS;
    }
    call_export(&e, s);
    holds(e.answer.refusal == refusal, "an export sees whether a store is broken");
    if (whole && e.answer.refusal == 0)
        hold_back(s, &root, 1, e.out.at, e.answer.len);
    done_exporting(&e);
    free(order);
}

static void load_damaged(const struct store *s, int whole)
{
    static const char file[] = ".nvars 1\n.nsuppvars 1\n.ids 0\n.permids 0\n.nnodes 2\n.nroots 1\n.rootids 2\n.nodes\n"
        "1 T 0 0\n2 0 1 -1\n.end\n";
    uint16_t list[1];
    struct store copy = copy_of(s);
    struct load c = load_of(file, sizeof file - 1, list, 1, 2);

    list[0] = (uint16_t)(s->levels == 0 ? 0 : chance(s->levels));
    call_load(&c, &copy);
    if (!whole)
        holds(c.answer.refusal == 3, "a load sees that a store is broken");
    else if (s->levels == 0)
        holds(c.answer.refusal == 2, "a store of no levels has none for a variable");
    else
        holds(c.answer.refusal == 0 || (c.answer.refusal == 40 && s->count == s->level_len), "a load finds room where there is some");
    done_with(&c);
    drop_store(&copy);
}

static int answers_as(const struct store *s, enum operation op, zt_edge a, zt_edge b, zt_edge root)
{
    uint8_t *setting = room(s->levels);
    size_t l;
    int same;

    for (l = 0; l < s->levels; l++)
        setting[l] = (uint8_t)chance(2);
    same = answer_of(s, root, setting) == operation_on(op, answer_of(s, a, setting), answer_of(s, b, setting));
    free(setting);
    return same;
}

static void join_damaged(const struct store *s, int whole)
{
    enum operation op = (enum operation)chance(OPERATIONS);
    zt_edge a = whole ? (zt_edge)(1 + chance(s->count)) : any_edge(), b = whole ? (zt_edge)(-1 - (long)chance(s->count)) : any_edge();
    struct store copy = copy_of(s);
    struct zt_join_answer answer = call_join(&copy, op, a, b);

    if (!whole)
        holds(answer.refusal == 3, "a join sees that a store is broken");
    else if (holds(answer.refusal == 0 || answer.refusal == 40, "a join goes on where it isn't") && answer.refusal == 0)
        holds(answers_as(&copy, op, a, b, answer.root), "and answers as the operation says");
    holds(call_opposite(s, a).refusal == (whole ? 0 : 3), "an opposite sees whether a store is broken");
    drop_store(&copy);
}

/* The stored stores that keep the rules. */
static size_t read_whole(struct store *whole)
{
    struct table t = open_table(vectors, "stores.tsv");
    size_t count = 0;

    while (next_line(&t, DAMAGED_COLUMNS, DAMAGED_COLUMNS) && count < MOST_WHOLE)
        if (number_in(t.columns[8]) == 0)
            whole[count++] = store_in(t.columns);
    close_table(&t);
    return count;
}

void try_damaged_stores(size_t cases)
{
    struct store *whole = room(MOST_WHOLE * sizeof *whole);
    size_t count = read_whole(whole), i, broken = 0;

    for (i = 0; i < cases && count > 0; i++) {
        struct store s = copy_of(&whole[chance(count)]);
        int keeps;

        case_is("damaged store %zu", i);
        damage(&s);
        keeps = keeps_rules(&s);
        broken += !keeps;
        evaluate_damaged(&s, keeps);
        example_damaged(&s, keeps);
        tip_damaged(&s, keeps);
        export_damaged(&s, keeps);
        load_damaged(&s, keeps);
        join_damaged(&s, keeps);
        drop_store(&s);
    }
    holds(broken > cases / 2 && broken < cases, "most damaged stores are broken, and not all");
    for (i = 0; i < count; i++)
        drop_store(&whole[i]);
    free(whole);
    group_done("stores damaged at random", cases);
}
