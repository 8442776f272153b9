/*
 * Tipping points held to flips of each level in turn, at every setting of the small stores; lengths of settings and of work; refusals and their
 * order; stores of no levels and of many; long chains, thresholds and full stores.
 */
#include <stdlib.h>
#include <string.h>
#include <time.h>

#include "chains.h"
#include "groups.h"
#include "report.h"
#include "stored.h"

/* The small stores have at most so many levels. A tipping point may take so many seconds of processor time, also under a tool that watches memory. */
enum { MOST_LEVELS = 6, MOST_SECONDS = 10 };

static size_t cases;

/* Makes a call with a setting of such a length, and holds it to its refusal and its level. */
static void tip_gives(const struct store *s, zt_edge root, const uint8_t *setting, size_t len, unsigned refusal, size_t level)
{
    struct tip c = tip_of(s, root, setting);

    c.setting_len = len;
    call_tip(&c, s);
    holds(c.answer.refusal == refusal, "a tipping point has the right refusal");
    holds(c.answer.level == level, "a tipping point has the right level");
    cases++;
}

static void tip_refused(const struct store *s, zt_edge root, const uint8_t *setting, size_t len, unsigned refusal)
{
    case_is("tipping point of %d with %zu bytes in a store of %u nodes, refused with %u", root, len, (unsigned)s->count, refusal);
    tip_gives(s, root, setting, len, refusal, 0);
}

/* The lowest level whose flip alone turns the answer over: each level in turn, from 0 on. Where none does, as many as there are. */
static size_t first_flip(const struct store *s, zt_edge root, const uint8_t *setting)
{
    struct tip c = tip_of(s, root, setting);
    size_t l;

    for (l = 0; l < s->levels && !turns_over(&c, s, l); l++)
        ;
    return l;
}

/* Holds a call to these flips. Answers what they found. */
static size_t hold_flips(const struct store *s, zt_edge root, const uint8_t *setting)
{
    size_t level = first_flip(s, root, setting);
    int there = level < s->levels;

    tip_gives(s, root, setting, s->levels, there ? 0 : 42, there ? level : 0);
    return level;
}

/* Small stores */

static uint16_t level_of(const struct store *s, zt_edge edge)
{
    size_t n = magnitude_of(edge);

    return n == 1 ? s->levels : s->level[n - 1];
}

/* Does the way of an edge at a setting pass a level? */
static int passes(const struct store *s, zt_edge edge, const uint8_t *setting, size_t level)
{
    while (level_of(s, edge) < level) {
        size_t slot = magnitude_of(edge) - 1;

        edge = setting[s->level[slot]] == 1 ? s->then[slot] : s->els[slot];
    }
    return level_of(s, edge) == level;
}

/* A setting that is too short, too long, or has a byte that is neither no nor yes, is refused, whatever the root is. */
static void refuse_settings(const struct store *s, zt_edge root, const uint8_t *good, unsigned refusal)
{
    static const uint8_t others[] = {2, 3, 128, 255};
    uint8_t setting[MOST_LEVELS + 1] = {0};
    size_t l;

    memcpy(setting, good, s->levels);
    for (l = 0; l < s->levels; l++) {
        tip_refused(s, root, setting, l, refusal);
        setting[l] = others[cases % 4];
        tip_refused(s, root, setting, s->levels, refusal);
        setting[l] = good[l];
    }
    tip_refused(s, root, setting, s->levels + 1u, refusal);
}

void hold_tips_of(const struct store *s, zt_edge root)
{
    uint8_t setting[MOST_LEVELS + 1] = {0};
    size_t k, level, tipped = 0;

    for (k = 0; k < (size_t)1 << s->levels; k++) {
        setting_of(k, s->levels, setting);
        case_is("tipping point of %d at setting %zu in a small store of %u levels and %u nodes", root, k, (unsigned)s->levels, (unsigned)s->count);
        level = hold_flips(s, root, setting);
        holds(first_flip(s, opposite_of(root), setting) == level, "the same level tips the opposite");
        if (level == s->levels)
            continue;
        tipped++;
        holds(level >= level_of(s, root), "no level above the root tips it");
        holds(passes(s, root, setting, level), "the level is one that the way passes");
        setting[level] ^= 1;
        holds(hold_flips(s, root, setting) <= level, "the same level tips it back, or a lower one");
    }
    holds((tipped == 0) == (magnitude_of(root) == 1), "just a constant is never tipped");
    refuse_settings(s, root, setting, 4);
}

static void try_small_store(const struct store *s)
{
    static const uint8_t zeros[MOST_LEVELS + 1];
    struct store broken = copy_of(s);
    size_t i;

    for (i = 0; i < edges_of(s); i++)
        hold_tips_of(s, edge_at(i));
    broken.heads[9]++;
    for (i = 0; i < edges_of(s); i++) {
        tip_refused(&broken, edge_at(i), zeros, s->levels, 3);
        refuse_settings(&broken, edge_at(i), zeros, 3);
    }
    drop_store(&broken);
}

/* Refusals */

/* Roots that are none of the store, refused with 4, or for what comes before. */
static void refuse_bad_roots(const struct store *s, unsigned refusal)
{
    uint8_t *setting = room(s->levels + 1u);
    zt_edge beyond = (zt_edge)(s->count + 1), bad[BAD_ROOTS];
    size_t i;

    memset(setting, 1, s->levels + 1u);
    bad_roots(beyond, bad);
    for (i = 0; i < BAD_ROOTS; i++) {
        tip_refused(s, bad[i], setting, s->levels, refusal);
        tip_refused(s, bad[i], setting, s->levels + 1u, refusal);
        if (s->levels > 0)
            tip_refused(s, bad[i], setting, s->levels - 1u, refusal);
    }
    free(setting);
}

static void try_bad_roots(void)
{
    struct store s = plan_store(), full = with_slots(&s, s.count), none = empty_store(0, 1);

    refuse_bad_roots(&s, 4);
    refuse_bad_roots(&full, 4);
    refuse_bad_roots(&none, 4);
    s.heads[9]++;
    refuse_bad_roots(&s, 3);
    drop_store(&s);
    drop_store(&full);
    drop_store(&none);
}

/* The order is 3, 4, 42. At neither of the plan's points alone a round counts that has none of them; with one of them the other tips it. */
static void try_order(void)
{
    static const uint8_t none[3] = {0, 0, 0}, bad[2] = {0, 2}, gate[2] = {1, 0}, dock[2] = {0, 1}, both[2] = {1, 1};
    struct store s = plan_store();

    s.heads[9]++;
    tip_refused(&s, 9, bad, 2, 3);
    tip_refused(&s, 9, none, 1, 3);
    tip_refused(&s, 3, bad, 2, 3);
    tip_refused(&s, 1, none, 3, 3);
    tip_refused(&s, 3, none, 2, 3);
    tip_refused(&s, 3, both, 2, 3);
    s.heads[9]--;
    tip_refused(&s, 9, none, 2, 4);
    tip_refused(&s, 9, bad, 2, 4);
    tip_refused(&s, 3, bad, 2, 4);
    tip_refused(&s, 1, none, 1, 4);
    tip_refused(&s, -1, none, 3, 4);
    tip_refused(&s, 1, none, 2, 42);
    tip_refused(&s, -1, both, 2, 42);
    tip_refused(&s, 3, none, 2, 42);
    tip_refused(&s, -3, none, 2, 42);
    case_is("tipping point of the plan");
    tip_gives(&s, 3, gate, 2, 0, 1);
    tip_gives(&s, -3, gate, 2, 0, 1);
    tip_gives(&s, 3, dock, 2, 0, 0);
    tip_gives(&s, 3, both, 2, 0, 0);
    tip_gives(&s, 2, both, 2, 0, 1);
    drop_store(&s);
}

/* A constant is never tipped, however many levels there are. Over 4,096 of them no store is. */
static void try_constants(uint16_t levels)
{
    struct store s = empty_store(levels, 1);
    uint8_t *setting = room(levels + 1u);
    unsigned refusal = levels > ZT_MOST_LEVELS ? 3 : 42;

    memset(setting, 0, levels + 1u);
    tip_refused(&s, 1, setting, levels, refusal);
    tip_refused(&s, -1, setting, levels, refusal);
    memset(setting, 1, levels + 1u);
    tip_refused(&s, 1, setting, levels, refusal);
    tip_refused(&s, -1, setting, levels, refusal);
    tip_refused(&s, 1, setting, levels + 1u, refusal == 42 ? 4 : 3);
    if (levels > 0)
        tip_refused(&s, 1, setting, levels - 1u, refusal == 42 ? 4 : 3);
    free(setting);
    drop_store(&s);
}

/* Work of every length, up to more than is asked for: with too few entries for an answer of each node, with just enough, and with more. */
static void try_work(struct store s)
{
    uint8_t setting[MOST_LEVELS];
    size_t k, entries, i;

    for (k = 0; k < (size_t)1 << s.levels; k++) {
        setting_of(k, s.levels, setting);
        for (i = 0; i < edges_of(&s); i++) {
            size_t level = first_flip(&s, edge_at(i), setting);
            struct tip c = tip_of(&s, edge_at(i), setting);

            case_is("tipping point of %d at setting %zu with work of every length", edge_at(i), k);
            for (entries = 0; entries < ZT_WORK_ENTRIES(s.count) + 3; entries++) {
                tip_with_work(&c, &s, entries);
                holds(c.answer.refusal == (level < s.levels ? 0 : 42) && c.answer.level == level % s.levels, "work of every length gives the same");
                cases++;
            }
        }
    }
    drop_store(&s);
}

/* Chains, thresholds and full stores */

static void hold_in_time(const struct store *s, zt_edge root, const uint8_t *setting, unsigned refusal, size_t level)
{
    clock_t start = clock();

    case_is("tipping point of %d in a store of %u levels and %u nodes", root, (unsigned)s->levels, (unsigned)s->count);
    tip_gives(s, root, setting, s->levels, refusal, level);
    holds((clock() - start) / CLOCKS_PER_SEC < MOST_SECONDS, "it ends soon");
}

static zt_edge last_of(const struct store *s, int minus)
{
    return (zt_edge)(minus ? -(long)s->count : (long)s->count);
}

/* The setting in which all levels are this but so many, from one on; both signs of the root. */
static void chain_tips(const struct store *s, uint8_t all, size_t from, size_t others, unsigned refusal, size_t level)
{
    uint8_t *setting = room(s->levels);
    int minus;

    memset(setting, all, s->levels);
    memset(setting + from, !all, others);
    for (minus = 0; minus <= 1; minus++)
        hold_in_time(s, last_of(s, minus), setting, refusal, level);
    free(setting);
}

/* An edge at a setting of no order. */
static void hold_some(const struct store *s, zt_edge root, size_t seed)
{
    uint8_t *setting = room(s->levels);
    size_t l, level;

    for (l = 0; l < s->levels; l++)
        setting[l] = (uint8_t)((l * (2 * seed + 1) + l / 7 * seed + seed) % 13 < 6);
    level = first_flip(s, root, setting);
    hold_in_time(s, root, setting, level < s->levels ? 0 : 42, level % s->levels);
    free(setting);
}

/*
 * An and of all levels is tipped by the lowest one where all are yes, by the only one that is no, and by none where two are. An or has it the other
 * way round. A parity is tipped by every level.
 */
static void try_chains(uint16_t levels)
{
    struct store all = chain_of(levels, link_and), any = chain_of(levels, link_or);
    struct store even = chain_of(levels, link_parity), mixed = chain_of(levels, link_in_turn);
    size_t last = levels - 1u, i;

    chain_tips(&all, 1, 0, 0, 0, 0);
    chain_tips(&all, 1, last, 1, 0, last);
    chain_tips(&all, 1, last / 2, 1, 0, last / 2);
    chain_tips(&all, 1, last - 1, 2, 42, 0);
    chain_tips(&any, 0, 0, 0, 0, 0);
    chain_tips(&any, 0, last, 1, 0, last);
    chain_tips(&any, 0, 0, 2, 42, 0);
    chain_tips(&even, 0, 0, 0, 0, 0);
    chain_tips(&even, 1, last, 1, 0, 0);
    for (i = 1; i <= mixed.count; i += 1 + mixed.count / 20) {
        hold_some(&mixed, (zt_edge)i, i);
        hold_some(&mixed, (zt_edge)-(long)i, i + 1);
    }
    drop_store(&all);
    drop_store(&any);
    drop_store(&even);
    drop_store(&mixed);
}

/*
 * With one yes less than is asked for the lowest level that is no tips it, with just as many the lowest one that is yes, and else none does. Where
 * all are no the way passes all levels, and so do the ways beside it. At least two levels are asked for, and fewer than half of them.
 */
static void try_threshold(uint16_t levels, size_t asked)
{
    struct store s = threshold_of(levels, asked);
    size_t last = levels - 1u;

    case_is("threshold of %zu in %u levels", asked, (unsigned)levels);
    holds(keeps_rules(&s), "the store keeps the rules");
    chain_tips(&s, 0, 0, 0, 42, 0);
    chain_tips(&s, 0, 0, asked - 2, 42, 0);
    chain_tips(&s, 0, levels - asked + 2, asked - 2, 42, 0);
    chain_tips(&s, 0, 0, asked - 1, 0, asked - 1);
    chain_tips(&s, 0, levels - asked + 1, asked - 1, 0, 0);
    chain_tips(&s, 0, levels - asked, asked, 0, levels - asked);
    chain_tips(&s, 0, last / 2, asked, 0, last / 2);
    chain_tips(&s, 0, last / 2, asked + 1, 42, 0);
    chain_tips(&s, 1, 0, 0, 42, 0);
    drop_store(&s);
}

static void try_full(size_t slots)
{
    struct store s = full_store(MANY_NODES, slots);
    size_t n;

    for (n = 1; n <= s.count; n += s.count / (exact ? 2 : 7)) {
        hold_some(&s, (zt_edge)n, n);
        hold_some(&s, (zt_edge)-(long)n, n + 1);
    }
    hold_some(&s, MANY_NODES, 3);
    refuse_bad_roots(&s, 4);
    s.next[MANY_NODES - 1]++;
    refuse_bad_roots(&s, 3);
    drop_store(&s);
}

void try_tip_laws(void)
{
    cases = 0;
    with_small_stores(try_small_store, exact ? 6 * step : 1);
    group_done("tipping points of every edge of small stores, at every setting", cases);
    cases = 0;
    try_bad_roots();
    try_order();
    try_constants(0);
    try_constants(1);
    try_constants(ZT_MOST_LEVELS);
    try_constants(ZT_MOST_LEVELS + 1);
    try_constants(65535);
    try_work(plan_store());
    try_work(chain_of(4, link_in_turn));
    try_work(threshold_of(5, 3));
    try_chains(2);
    try_chains(40);
    try_chains(ZT_MOST_LEVELS);
    try_threshold(8, 3);
    try_threshold(40, 7);
    try_threshold(ZT_MOST_LEVELS, 3);
    try_full(MANY_NODES);
    try_full(40000);
    group_done("refusals of tipping points, long chains, thresholds, full stores", cases);
}
