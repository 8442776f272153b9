/* Document 01's example; and the tests' own tools, which must notice what they are there for. */
#include <stdlib.h>
#include <string.h>

#include "groups.h"
#include "report.h"

const char plan[] =
    ".ver DDDMP-2.0\n.mode A\n.varinfo 4\n.nnodes 3\n.nvars 2\n.nsuppvars 2\n.suppvarnames gate dock\n.orderedvarnames gate dock\n"
    ".ids 0 1\n.permids 0 1\n.nroots 2\n.rootids 3 -3\n.rootnames full short\n.nodes\n1 T 0 0\n2 1 1 -1\n3 0 2 -1\n.end\n";

const uint16_t plan_levels[2] = {0, 1};

/* A store with the nodes of the example, and two slots more. */
struct store plan_store(void)
{
    struct store s = empty_store(2, 5);

    add_node(&s, 1, 1, -1);
    add_node(&s, 0, 2, -1);
    return s;
}

/* Is this the text at a place of the loaded file? */
static int says(const struct load *c, uint32_t start, uint32_t len, const char *text)
{
    return len == strlen(text) && memcmp(c->file + start, text, len) == 0;
}

/* Do the places at an entry of two lists say this? */
static int named(const struct load *c, enum load_part starts, enum load_part lens, size_t entry, const char *text)
{
    return says(c, numbers_of(c, starts)[entry], numbers_of(c, lens)[entry], text);
}

static int has_entries(const struct load *c, enum load_part part, uint32_t first, uint32_t second, uint32_t third)
{
    const uint32_t *list = numbers_of(c, part);

    return list[0] == first && list[1] == second && list[2] == third;
}

static void try_plan_header(const struct load *c)
{
    const struct zt_load_answer *a = &c->answer;

    holds(a->refusal == 0 && a->line == 0, "the example is accepted");
    holds(a->ascii == 1 && a->varinfo == 4 && a->ddstart == 0 && a->ddlen == 0, "the example's mode, varinfo and name");
    holds(a->nnodes == 3 && a->nvars == 2 && a->nsuppvars == 2 && a->nroots == 2, "the example's numbers");
    holds(a->lines == 14 && a->next == (size_t)(strstr(plan, "1 T") - plan), "where the example's nodes start");
    holds(has_entries(c, LOAD_IDS, 0, 1, 0) && has_entries(c, LOAD_PERMIDS, 0, 1, 0), "the example's lists");
    holds(named(c, LOAD_NAMES, LOAD_LENS, 0, "gate") && named(c, LOAD_NAMES, LOAD_LENS, 1, "dock"), "the variables' names");
    holds(named(c, LOAD_ROOTNAMES, LOAD_ROOTLENS, 0, "full") && named(c, LOAD_ROOTNAMES, LOAD_ROOTLENS, 1, "short"), "the roots' names");
}

/* A header in which no two numbers and no two lists are the same: each must come out where it belongs. */
static void try_header(void)
{
    static const char file[] = ".ver DDDMP-3.0\n.mode A\n.varinfo 3\n.dd a plan\n.nnodes 2\n.nvars 4\n.nsuppvars 3\n"
        ".varnames ab c def g\n.ids 0 2 3\n.permids 3 0 1\n.auxids 7 8 9\n.nroots 1\n.rootids -2\n.rootnames only\n.nodes\n"
        "1 x T 0 0\n2 y 1 1 -1\n.end\n";
    static const uint16_t levels[3] = {1, 4, 5};
    struct store s = empty_store(6, 3);
    struct load c = load_of(file, sizeof file - 1, levels, 3, 2);
    const struct zt_load_answer *a = &c.answer;

    case_is("a header of many values");
    call_load(&c, &s);
    holds(a->refusal == 0 && a->line == 0 && a->ascii == 1 && a->varinfo == 3, "it is accepted, with its mode and varinfo");
    holds(a->nnodes == 2 && a->nvars == 4 && a->nsuppvars == 3 && a->nroots == 1, "its numbers");
    holds(a->lines == 15 && a->next == (size_t)(strstr(file, "1 x") - file), "where its nodes start");
    holds(says(&c, a->ddstart, a->ddlen, "a plan"), "the diagram's name");
    holds(has_entries(&c, LOAD_IDS, 0, 2, 3) && has_entries(&c, LOAD_ORDER, 2, 3, 0), "ids, and the support order");
    holds(has_entries(&c, LOAD_PERMIDS, 3, 0, 1) && has_entries(&c, LOAD_AUXIDS, 7, 8, 9), "permids and auxids");
    holds(named(&c, LOAD_NAMES, LOAD_LENS, 0, "ab") && named(&c, LOAD_NAMES, LOAD_LENS, 1, "c"), "names");
    holds(named(&c, LOAD_NAMES, LOAD_LENS, 2, "def") && named(&c, LOAD_NAMES, LOAD_LENS, 3, "g"), "more names");
    holds(named(&c, LOAD_ROOTNAMES, LOAD_ROOTLENS, 0, "only") && roots_of(&c)[0] == -2, "the root and its name");
    holds(s.count == 2 && s.level[1] == 4 && s.then[1] == 1 && s.els[1] == -1, "the node, at the level that its position names");
    done_with(&c);
    drop_store(&s);
}

/* Loaded, evaluated at every setting, exported as text with its names: the file is the example again, byte for byte. */
static void try_plan(void)
{
    struct store s = empty_store(2, 3), whole = plan_store();
    struct load c = load_of(plan, strlen(plan), plan_levels, 2, 3);
    struct export e;
    uint8_t setting[2];
    size_t k;

    case_is("document 01's example");
    call_load(&c, &s);
    try_plan_header(&c);
    holds(s.count == 3 && memcmp(s.els, whole.els, 3 * sizeof *s.els) == 0, "the example's nodes");
    holds(roots_of(&c)[0] == 3 && roots_of(&c)[1] == -3, "the example's roots");
    for (k = 0; k < 4; k++) {
        setting_of(k, 2, setting);
        holds(call_evaluate(&s, 3, setting, 2).answer == (k == 3), "full counts where gate and dock are yes");
        holds(call_evaluate(&s, -3, setting, 2).answer == (k != 3), "short counts elsewhere");
    }
    e = export_of(&s, roots_of(&c), 2, plan_levels, 2);
    e.text = 1;
    e.names = room_for_names(20, 2, 2);
    name_variable(&e.names, "gate", 4);
    name_variable(&e.names, "dock", 4);
    name_root(&e.names, "full", 4);
    name_root(&e.names, "short", 5);
    fit_output(&e, &s);
    call_export(&e, &s);
    holds(e.answer.refusal == 0 && e.answer.len == strlen(plan) && memcmp(e.out.at, plan, strlen(plan)) == 0, "its export is the example");
    done_exporting(&e);
    drop_names(&e.names);
    done_with(&c);
    drop_store(&s);
    drop_store(&whole);
}

/* Guards and comparisons of parts. */
static void try_parts(void)
{
    static const uint16_t content[3] = {1, 2, 3};
    struct lent part = lend(content, 3, sizeof *content);
    uint8_t *bytes = part.at;

    case_is("parts");
    holds(guards_hold(&part) && as_before(&part), "a new part is as it was handed in");
    holds(!zeros_from(&part, 0) && !zeros_from(&part, 2) && zeros_from(&part, 3), "zeros are told from other entries");
    bytes[4] ^= 1;
    holds(!as_before(&part), "a changed entry is noticed");
    bytes[4] ^= 1;
    if (!exact) {
        bytes[6] ^= 1;
        holds(!guards_hold(&part), "a byte written after a part is noticed");
        bytes[6] ^= 1;
        bytes[-1] ^= 1;
        holds(!guards_hold(&part), "a byte written before a part is noticed");
        bytes[-1] ^= 1;
    }
    holds(guards_hold(&part) && as_before(&part), "the part is as it was handed in");
    give_back(&part, 1);
}

/* One rule after the other is broken in a store that keeps them all. */
static void try_rules(void)
{
    struct store s = plan_store(), broken;
    size_t i;

    case_is("the tests' own reading of the rules");
    holds(keeps_rules(&s), "the example's store keeps the rules");
    for (i = 0; i < 11; i++) {
        broken = copy_of(&s);
        switch (i) {
        case 0: broken.level_len--; break;
        case 1: broken.heads_len--; break;
        case 2: broken.count = 0; break;
        case 3: broken.levels = 1; break;
        case 4: broken.level[0] = 1; break;
        case 5: broken.next[4] = 1; break;
        case 6: broken.then[2] = -2; break;
        case 7: broken.els[2] = 2; break;
        case 8: broken.els[1] = 0; break;
        case 9: broken.heads[3] = 2; break;
        default: add_node(&broken, 1, 1, -1); break;
        }
        holds(!keeps_rules(&broken), "a broken rule is noticed");
        drop_store(&broken);
    }
    drop_store(&s);
}

/* The lines 9 and 10 share a level. They change places, and with them their numbers, which aren't equally long. */
static void try_swapping(void)
{
    static const char text[] = ".mode A\n.rootids 11 -9 10\n.nodes\n1 T 0 0\n2 9 1 -1\n3 8 2 1\n4 7 3 1\n5 6 4 1\n6 5 5 1\n7 4 6 1\n8 3 7 1\n"
        "9 2 8 1\n10 2 8 -1\n11 1 10 -9\n.end\n";
    static const char swapped[] = ".mode A\n.rootids 11 -10 9\n.nodes\n1 T 0 0\n2 9 1 -1\n3 8 2 1\n4 7 3 1\n5 6 4 1\n6 5 5 1\n7 4 6 1\n"
        "8 3 7 1\n9 2 8 -1\n10 2 8 1\n11 1 9 -10\n.end\n";
    struct bytes file, other, none;

    case_is("two lines of one level that are swapped");
    file.at = (uint8_t *)text;
    file.len = sizeof text - 1;
    other = swapped_lines(&file);
    holds(other.len == sizeof swapped - 1 && memcmp(other.at, swapped, other.len) == 0, "the file is the one that is expected");
    free(other.at);
    file.at = (uint8_t *)plan;
    file.len = strlen(plan);
    none = swapped_lines(&file);
    holds(none.len == 0, "the example has no two lines of one level");
}

void try_own_tools(void)
{
    try_parts();
    try_rules();
    try_swapping();
    try_plan();
    try_header();
    group_done("own tools, document 01's example, a header", 5);
}
