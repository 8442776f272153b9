#include "buddy.h"

#ifdef WITH_BUDDY

#include <bdd.h>
#include <stdlib.h>

static BDD left_function, right_function, joined;
static int cleared;

static const int operations[OPS] = {bddop_and, bddop_or, bddop_xor};

int buddy_there(void)
{
    return 1;
}

int buddy_collections(void)
{
    bddStat about;

    bdd_stats(&about);
    return about.gbcnum - cleared;
}

void buddy_start(uint16_t levels)
{
    if (bdd_init(BUDDY_NODES, BUDDY_RESULTS) < 0)
        give_up("BuDDy doesn't start");
    bdd_gbc_hook(NULL);
    bdd_setvarnum(levels);
    cleared = 0;
}

/* The function of a root, with a reference. Each node's is made with its opposite, since its edges here have no minus. */
static BDD taken(const struct ours *s, zt_edge root)
{
    BDD *functions = room_for(2 * (size_t)s->count + 1, sizeof *functions), *of = functions + s->count, f;
    zt_edge n, count = (zt_edge)s->count;

    of[1] = bddtrue;
    of[-1] = bddfalse;
    for (n = 2; n <= count; n++) {
        BDD level = bdd_ithvar(s->level[n - 1]);
        zt_edge then = s->then[n - 1], els = s->els[n - 1];

        of[n] = bdd_addref(bdd_ite(level, of[then], of[els]));
        of[-n] = bdd_addref(bdd_ite(level, of[-then], of[-els]));
    }
    f = bdd_addref(of[root]);
    for (n = 2; n <= count; n++) {
        bdd_delref(of[n]);
        bdd_delref(of[-n]);
    }
    free(functions);
    return f;
}

void buddy_open(const struct ours *s, zt_edge left, zt_edge right)
{
    buddy_start(s->levels);
    left_function = taken(s, left);
    right_function = taken(s, right);
    buddy_clear();
}

void buddy_close(void)
{
    bdd_done();
}

void buddy_clear(void)
{
    int before = buddy_collections();

    bdd_gbc();
    cleared += buddy_collections() - before;
}

void buddy_join(enum op op)
{
    joined = bdd_apply(left_function, right_function, operations[op]);
}

int buddy_agrees(const struct ours *s, zt_edge root)
{
    BDD ours, theirs = bdd_addref(joined);

    ours = taken(s, root);
    bdd_delref(ours);
    bdd_delref(theirs);
    return ours == theirs;
}

void buddy_run(const struct script *script)
{
    BDD *functions = room_for(script->levels + script->count + 1, sizeof *functions);
    size_t i;

    for (i = 1; i <= script->levels; i++)
        functions[i] = bdd_ithvar((int)i - 1);
    for (i = 0; i < script->count; i++) {
        const struct step *step = &script->steps[i];
        BDD left = step->left < 0 ? bdd_not(functions[-step->left]) : functions[step->left];
        BDD right = step->right < 0 ? bdd_not(functions[-step->right]) : functions[step->right];

        functions[script->levels + 1 + i] = bdd_addref(bdd_apply(left, right, operations[step->op]));
    }
    joined = functions[script->levels + script->count];
    free(functions);
}

#else

int buddy_there(void)
{
    return 0;
}

void buddy_open(const struct ours *s, zt_edge left, zt_edge right)
{
    (void)s, (void)left, (void)right;
}

void buddy_close(void)
{
}

void buddy_clear(void)
{
}

void buddy_join(enum op op)
{
    (void)op;
}

int buddy_agrees(const struct ours *s, zt_edge root)
{
    (void)s, (void)root;
    return 1;
}

void buddy_start(uint16_t levels)
{
    (void)levels;
}

void buddy_run(const struct script *script)
{
    (void)script;
}

int buddy_collections(void)
{
    return 0;
}

#endif
