/*
 * Examples held to a plain search through all settings, on the small stores; lengths of the lent setting; refusals and their order; stores of no
 * levels; long chains and full stores, which no search gets through.
 */
#include <stdlib.h>
#include <string.h>
#include <time.h>

#include "chains.h"
#include "groups.h"
#include "report.h"
#include "stored.h"

/* The small stores have at most so many levels. An example may take so many seconds of processor time, also under a tool that watches memory. */
enum { MOST_LEVELS = 6, MOST_SECONDS = 5 };

/* The bytes that are wanted: no is 0, and all others are yes. */
static const uint8_t wanted_bytes[] = {0, 1, 2, 128, 255};
enum { WANTED_BYTES = sizeof wanted_bytes / sizeof *wanted_bytes };

static size_t cases;

/* Makes an example with a setting of such a length, and holds it to its refusal and to a setting of so many levels. */
static void example_gives(const struct store *s, zt_edge root, uint8_t wanted, size_t len, unsigned refusal, const uint8_t *setting, size_t levels)
{
    struct example c = example_of(s, root, wanted);

    c.setting_len = len;
    call_example(&c, s);
    holds(c.answer.refusal == refusal, "an example has the right refusal");
    holds(gives_setting(&c, setting, levels), "an example gives the right setting");
    done_with_example(&c);
    cases++;
}

static void example_refused(const struct store *s, zt_edge root, uint8_t wanted, size_t len, unsigned refusal)
{
    case_is("example of %d for %u with %zu bytes in a store of %u nodes, refused with %u", root, (unsigned)wanted, len, (unsigned)s->count, refusal);
    example_gives(s, root, wanted, len, refusal, NULL, 0);
}

/* The first setting */

/* Setting number k in the order of document 02: level 0 is compared first, so it is the highest bit. */
static void setting_in_order(size_t k, size_t levels, uint8_t *setting)
{
    size_t l;

    for (l = 0; l < levels; l++)
        setting[l] = (uint8_t)(k >> (levels - 1 - l) & 1);
}

/* 'The first setting with that answer', by a search through all of them. Answers whether there is one. */
static int search_setting(const struct store *s, zt_edge root, int yes, uint8_t *setting)
{
    size_t k;

    for (k = 0; k < (size_t)1 << s->levels; k++) {
        setting_in_order(k, s->levels, setting);
        if (answer_of(s, root, setting) == yes)
            return 1;
    }
    return 0;
}

/*
 * The same for stores of many levels: which answers each node has at some setting is worked out from the lowest number up, and then each level
 * that the root leads through is no, unless what is under no never answers so. Nothing is taken for granted of which nodes those are.
 */
static int settle_setting(const struct store *s, zt_edge root, int yes, uint8_t *setting)
{
    uint8_t *says[2];
    size_t n;
    int found;

    says[0] = room(s->count + 1u);
    says[1] = room(s->count + 1u);
    says[0][1] = 0;
    says[1][1] = 1;
    for (n = 2; n <= s->count; n++) {
        zt_edge then = s->then[n - 1], els = s->els[n - 1];
        int a;

        for (a = 0; a < 2; a++)
            says[a][n] = says[a != (then < 0)][magnitude_of(then)] || says[a != (els < 0)][magnitude_of(els)];
    }
    memset(setting, 0, s->levels);
    found = says[yes != (root < 0)][magnitude_of(root)];
    while (found && magnitude_of(root) != 1) {
        zt_edge els;

        n = magnitude_of(root);
        yes = yes != (root < 0);
        els = s->els[n - 1];
        setting[s->level[n - 1]] = !says[yes != (els < 0)][magnitude_of(els)];
        root = setting[s->level[n - 1]] ? s->then[n - 1] : els;
    }
    free(says[0]);
    free(says[1]);
    return found;
}

/* 'Levels the root doesn't look at are no.' */
static void hold_unread_levels(const struct store *s, zt_edge root, const uint8_t *setting)
{
    uint16_t list[MOST_LEVELS];
    size_t read = reached_levels(s, &root, 1, list), l, i = 0;

    for (l = 0; l < s->levels; l++) {
        if (i < read && list[i] == l)
            i++;
        else
            holds(setting[l] == 0, "a level that the root doesn't look at is no");
    }
}

/* Small stores */

/* A wanted byte, with settings of several lengths. One that is too short is refused, whatever the root is. */
static void try_wanted(const struct store *s, zt_edge root, uint8_t wanted)
{
    static const size_t more[] = {0, 1, 7};
    uint8_t first[MOST_LEVELS], settled[MOST_LEVELS];
    int there = search_setting(s, root, wanted != 0, first);
    unsigned refusal = there ? 0 : 41;
    size_t i, len;

    case_is("example of %d for %u in a small store of %u levels and %u nodes", root, (unsigned)wanted, (unsigned)s->levels, (unsigned)s->count);
    holds(settle_setting(s, root, wanted != 0, settled) == there, "both searches find a setting, or none");
    holds(there != (root == (wanted ? -1 : 1)), "only a constant has one answer");
    if (there) {
        holds(memcmp(settled, first, s->levels) == 0, "both searches find the same setting");
        hold_unread_levels(s, root, first);
    }
    for (i = 0; i < sizeof more / sizeof *more; i++)
        example_gives(s, root, wanted, s->levels + more[i], refusal, first, there ? s->levels : 0);
    for (len = 0; len < s->levels; len++)
        example_gives(s, root, wanted, len, 1, NULL, 0);
}

static void evaluates_as_wanted(const struct store *s, zt_edge root, uint8_t wanted)
{
    struct example c = example_of(s, root, wanted);
    struct zt_evaluate_answer a;

    call_example(&c, s);
    if (c.answer.refusal == 0) {
        a = call_evaluate(s, root, c.setting.at, s->levels);
        holds(a.refusal == 0 && a.answer == (wanted != 0), "an evaluation at the setting answers as wanted");
    }
    done_with_example(&c);
    cases++;
}

void hold_examples_of(const struct store *s, zt_edge root)
{
    size_t i;

    for (i = 0; i < WANTED_BYTES; i++)
        try_wanted(s, root, wanted_bytes[i]);
    evaluates_as_wanted(s, root, 0);
    evaluates_as_wanted(s, root, 1);
}

static void try_small_store(const struct store *s)
{
    struct store broken = copy_of(s);
    size_t i;

    for (i = 0; i < edges_of(s); i++)
        hold_examples_of(s, edge_at(i));
    broken.heads[9]++;
    for (i = 0; i < edges_of(s); i++) {
        example_refused(&broken, edge_at(i), (uint8_t)(i % 3), s->levels, 3);
        if (s->levels > 0)
            example_refused(&broken, edge_at(i), (uint8_t)(i % 3), s->levels - 1u, 1);
    }
    drop_store(&broken);
}

/* Refusals */

/* Roots that are none of the store, for both answers, refused with 4, or for what comes before. */
static void refuse_bad_roots(const struct store *s, unsigned refusal)
{
    zt_edge beyond = (zt_edge)(s->count + 1), bad[BAD_ROOTS];
    size_t i;

    bad_roots(beyond, bad);
    for (i = 0; i < BAD_ROOTS; i++) {
        example_refused(s, bad[i], 0, s->levels, refusal);
        example_refused(s, bad[i], 1, s->levels + 3u, refusal);
        if (s->levels > 0)
            example_refused(s, bad[i], 1, s->levels - 1u, 1);
    }
}

static void try_bad_roots(void)
{
    struct store s = plan_store(), full = with_slots(&s, s.count), none = empty_store(0, 1);

    refuse_bad_roots(&s, 4);
    refuse_bad_roots(&full, 4);
    refuse_bad_roots(&none, 4);
    s.heads[9]++;
    refuse_bad_roots(&s, 3);
    drop_store(&s);
    drop_store(&full);
    drop_store(&none);
}

/* The order is 1, 3, 4, 41. All faults are there that can be; then the setting is mended, then the store, then the root. */
static void try_order(void)
{
    static const uint8_t both[2] = {1, 1};
    struct store s = plan_store();

    s.heads[9]++;
    example_refused(&s, 9, 1, 1, 1);
    example_refused(&s, 1, 0, 1, 1);
    example_refused(&s, 9, 1, 2, 3);
    example_refused(&s, 1, 0, 2, 3);
    s.heads[9]--;
    example_refused(&s, 9, 1, 1, 1);
    example_refused(&s, 1, 0, 1, 1);
    example_refused(&s, 9, 1, 2, 4);
    example_refused(&s, 1, 0, 2, 41);
    example_refused(&s, -1, 7, 2, 41);
    case_is("example of the plan");
    example_gives(&s, 3, 1, 2, 0, both, 2);
    drop_store(&s);
}

/* 1 is judged by the level count as it is handed in, also where a store may not have so many levels. */
static void try_many_levels(uint16_t levels)
{
    struct store s = empty_store(levels, 1);

    example_refused(&s, 1, 1, levels - 1u, 1);
    example_refused(&s, 1, 1, 0, 1);
    if (levels > ZT_MOST_LEVELS) {
        example_refused(&s, 1, 1, levels, 3);
    } else {
        case_is("example of 1 in a store of %u levels", (unsigned)levels);
        example_gives(&s, 1, 1, levels, 0, NULL, 0);
        example_gives(&s, -1, 0, levels + 1u, 0, NULL, 0);
    }
    drop_store(&s);
}

/* With no level there is one setting, the empty one, and node 1 alone. */
static void try_no_levels(void)
{
    struct store s = empty_store(0, 2);
    size_t len;

    for (len = 0; len < 3; len++) {
        example_refused(&s, 1, 0, len, 41);
        example_refused(&s, -1, 1, len, 41);
        case_is("example of a constant in a store of no levels");
        example_gives(&s, 1, 1, len, 0, NULL, 0);
        example_gives(&s, -1, 0, len, 0, NULL, 0);
    }
    drop_store(&s);
}

/* Chains and full stores */

static void hold_settled(const struct store *s, zt_edge root, uint8_t wanted)
{
    uint8_t *setting = room(s->levels);
    int there = settle_setting(s, root, wanted != 0, setting);
    clock_t start;

    case_is("example of %d for %u in a store of %u levels and %u nodes", root, (unsigned)wanted, (unsigned)s->levels, (unsigned)s->count);
    start = clock();
    example_gives(s, root, wanted, s->levels, there ? 0 : 41, setting, there ? s->levels : 0);
    holds((clock() - start) / CLOCKS_PER_SEC < MOST_SECONDS, "it ends soon");
    free(setting);
}

/* The setting in which all levels are no, or yes, and the last one is this. */
static void chain_gives(const struct store *s, int minus, uint8_t wanted, uint8_t all, uint8_t last)
{
    uint8_t *setting = room(s->levels);
    zt_edge root = (zt_edge)(minus ? -(long)s->count : (long)s->count);

    memset(setting, all, s->levels);
    setting[s->levels - 1] = last;
    case_is("example of a chain, %d for %u, over %u levels", root, (unsigned)wanted, (unsigned)s->levels);
    example_gives(s, root, wanted, s->levels, 0, setting, s->levels);
    example_gives(s, root, wanted, s->levels + 5u, 0, setting, s->levels);
    example_refused(s, root, wanted, s->levels - 1u, 1);
    hold_settled(s, root, wanted);
    free(setting);
}

/*
 * The first setting of an and has yes at all levels, that of an or at the last one alone. A parity says whether an even number of levels is no;
 * where they are an even number, it says yes if all of them are, and no if the last one isn't.
 */
static void try_chains(uint16_t levels)
{
    struct store all = chain_of(levels, link_and), any = chain_of(levels, link_or);
    struct store even = chain_of(levels, link_parity), mixed = chain_of(levels, link_in_turn);
    size_t i;

    chain_gives(&all, 0, 1, 1, 1);
    chain_gives(&all, 1, 0, 1, 1);
    chain_gives(&all, 0, 0, 0, 0);
    chain_gives(&any, 0, 1, 0, 1);
    chain_gives(&any, 1, 255, 0, 0);
    chain_gives(&any, 0, 0, 0, 0);
    chain_gives(&even, 0, 1, 0, 0);
    chain_gives(&even, 1, 1, 0, 1);
    chain_gives(&even, 0, 0, 0, 1);
    for (i = 1; i <= mixed.count; i += 1 + mixed.count / 40) {
        hold_settled(&mixed, (zt_edge)i, 0);
        hold_settled(&mixed, (zt_edge)i, 1);
        hold_settled(&mixed, (zt_edge)-(long)i, 2);
    }
    drop_store(&all);
    drop_store(&any);
    drop_store(&even);
    drop_store(&mixed);
}

static void try_full(size_t slots)
{
    struct store s = full_store(MANY_NODES, slots);
    size_t n;

    for (n = 1; n <= s.count; n += s.count / 7) {
        hold_settled(&s, (zt_edge)n, 0);
        hold_settled(&s, (zt_edge)-(long)n, 1);
    }
    hold_settled(&s, MANY_NODES, 1);
    refuse_bad_roots(&s, 4);
    s.next[MANY_NODES - 1]++;
    example_refused(&s, 1, 1, s.levels, 3);
    example_refused(&s, 0, 1, s.levels - 1u, 1);
    drop_store(&s);
}

void try_example_laws(void)
{
    cases = 0;
    with_small_stores(try_small_store, exact ? 4 * step : 1);
    group_done("examples of every edge of small stores", cases);
    cases = 0;
    try_bad_roots();
    try_order();
    try_no_levels();
    try_many_levels(1);
    try_many_levels(ZT_MOST_LEVELS);
    try_many_levels(ZT_MOST_LEVELS + 1);
    try_many_levels(5000);
    try_many_levels(65535);
    try_chains(2);
    try_chains(40);
    try_chains(ZT_MOST_LEVELS);
    try_full(MANY_NODES);
    try_full(40000);
    group_done("refusals of examples, long chains, full stores", cases);
}
