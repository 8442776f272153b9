#include "pairs.h"

#include <stdlib.h>
#include <string.h>

static int32_t join(struct script *s, enum op op, int32_t left, int32_t right)
{
    struct step step;

    step.op = op;
    step.left = left;
    step.right = right;
    if (s->count == s->room) {
        s->room = s->room == 0 ? 256 : 2 * s->room;
        s->steps = realloc(s->steps, s->room * sizeof *s->steps);
        if (s->steps == NULL)
            give_up("no memory");
    }
    s->steps[s->count++] = step;
    return (int32_t)(s->levels + s->count);
}

/* Joined to what there is so far, or the first: 0 stands for nothing yet. */
static int32_t onto(struct script *s, enum op op, int32_t so_far, int32_t more)
{
    return so_far == 0 ? more : join(s, op, so_far, more);
}

static struct script script_of(int levels)
{
    struct script s = {0, 0, 0, NULL, 0, 0};

    s.levels = (uint16_t)levels;
    return s;
}

void drop_script(struct script *s)
{
    free(s->steps);
}

void join_pair(struct script *s)
{
    join(s, AND, s->left, s->right);
}

static int attack(int n, int a, int b)
{
    int rows = b / n - a / n, columns = b % n - a % n;

    return rows == 0 || columns == 0 || rows == columns || rows == -columns;
}

struct script queens(int n)
{
    struct script s = script_of(n * n);
    int32_t parts[2] = {0, 0};
    int a, b;

    for (a = n * n - 1; a >= 0; a--) {
        int32_t *part = &parts[a / n >= n / 2], others = 0, some = 0;

        for (b = n * n - 1; b > a; b--)
            if (attack(n, a, b))
                others = onto(&s, AND, others, -(b + 1));
        if (others != 0)
            *part = onto(&s, AND, *part, join(&s, OR, others, -(a + 1)));
        for (b = a + n - 1; a % n == 0 && b >= a; b--)
            some = onto(&s, OR, some, b + 1);
        if (some != 0)
            *part = onto(&s, AND, *part, some);
    }
    s.left = parts[0];
    s.right = parts[1];
    return s;
}

struct script adder(int bits, int by_turns)
{
    struct script s = script_of(2 * bits);
    int32_t carry = 0, parity = 0;
    int i;

    /* the highest bit stands first */
    for (i = bits - 1; i >= 0; i--) {
        int32_t a = by_turns ? 2 * i + 1 : i + 1, b = by_turns ? 2 * i + 2 : bits + i + 1;
        int32_t either = join(&s, XOR, a, b), two = join(&s, AND, a, b);

        parity = onto(&s, XOR, parity, carry == 0 ? either : join(&s, XOR, either, carry));
        carry = carry == 0 ? two : join(&s, OR, two, join(&s, AND, either, carry));
    }
    s.left = carry;
    s.right = parity;
    return s;
}

struct ours levels_only(uint16_t levels)
{
    struct plan p = room_for_plan(levels, (size_t)levels + 1, 1);
    struct ours s;
    int32_t i;

    for (i = 1; i <= levels; i++) {
        p.nodes[i].level = (uint16_t)(levels - i);
        p.nodes[i].then = 1;
        p.nodes[i].els = -1;
    }
    p.roots[0] = 1;
    s = ours_with(&p);
    drop_plan(&p);
    return s;
}

static zt_edge edge_of(const zt_edge *edges, int32_t operand)
{
    return (zt_edge)(operand < 0 ? -edges[-operand] : edges[operand]);
}

void run_script(struct ours *s, const struct script *script, zt_edge *edges)
{
    size_t i;

    /* the deepest level's node was read first */
    for (i = 1; i <= script->levels; i++)
        edges[i] = (zt_edge)(script->levels + 2 - i);
    for (i = 0; i < script->count; i++) {
        const struct step *step = &script->steps[i];

        edges[script->levels + 1 + i] = ours_join(s, step->op, edge_of(edges, step->left), edge_of(edges, step->right));
    }
}

struct plan built(const struct script *script)
{
    struct ours s = levels_only(script->levels);
    zt_edge *edges = room_for(script->levels + script->count + 1, sizeof *edges);
    struct plan p;

    run_script(&s, script, edges);
    p = ours_plan(&s, edge_of(edges, script->left), edge_of(edges, script->right));
    free(edges);
    ours_close(&s);
    return p;
}

/* Two diagrams as one, with the first root of each. */
static struct plan both(struct plan left, struct plan right)
{
    struct plan p = room_for_plan(left.levels, left.count + right.count - 1, 2);
    int32_t more = (int32_t)left.count - 1;
    size_t i;

    memcpy(p.nodes, left.nodes, left.count * sizeof *p.nodes);
    for (i = 1; i < right.count; i++) {
        struct node n = right.nodes[i];

        if (n.then != 1)
            n.then += more;
        if (n.els != 1 && n.els != -1)
            n.els += n.els < 0 ? -more : more;
        p.nodes[left.count - 1 + i] = n;
    }
    p.roots[0] = left.roots[0];
    p.roots[1] = right.roots[0] < 0 ? right.roots[0] - more : right.roots[0] + more;
    drop_plan(&left);
    drop_plan(&right);
    return p;
}

/* Whether the weights of the levels that are yes come to at least `asked`. A line for each level and sum that can still go either way. */
static struct plan threshold(uint16_t levels, const unsigned *weights, unsigned asked)
{
    struct plan p = room_for_plan(levels, (size_t)levels * (asked + 1) + 1, 1);
    /* lines by what is still asked: of the level below, and of this one */
    int32_t *below = room_for(asked + 1, sizeof *below), *here = room_for(asked + 1, sizeof *here);
    unsigned l, still;

    p.count = 1;
    for (still = 0; still <= asked; still++)
        below[still] = still == 0 ? 1 : -1;
    for (l = levels; l-- > 0;) {
        for (still = 0; still <= asked; still++) {
            struct node n;

            n.level = (uint16_t)l;
            n.then = below[still < weights[l] ? 0 : still - weights[l]];
            n.els = below[still];
            here[still] = n.els;
            if (n.then != n.els) {
                p.nodes[p.count++] = n;
                here[still] = (int32_t)p.count;
            }
        }
        memcpy(below, here, (asked + 1) * sizeof *below);
    }
    p.roots[0] = below[asked];
    free(below);
    free(here);
    return p;
}

static struct plan drawn_threshold(uint16_t levels, unsigned most, uint64_t *state)
{
    unsigned *weights = room_for(levels, sizeof *weights), sum = 0;
    struct plan p;
    size_t i;

    for (i = 0; i < levels; i++) {
        weights[i] = draw(state) % 2 == 0 ? 0 : 1 + draw(state) % most;
        sum += weights[i];
    }
    p = threshold(levels, weights, (sum + 1) / 2);
    free(weights);
    return p;
}

struct plan threshold_pair(uint16_t levels, unsigned most, uint64_t seed)
{
    uint64_t state = 0x7e57 + 977 * (uint64_t)levels + 104729 * seed;
    struct plan left = drawn_threshold(levels, most, &state);

    return both(left, drawn_threshold(levels, most, &state));
}

struct plan random_pair(uint16_t levels, size_t count, uint64_t seed)
{
    return both(random_plan(levels, count, 2 * seed), random_plan(levels, count, 2 * seed + 1));
}

struct plan parity_pair(uint16_t levels)
{
    struct plan right = room_for_plan(levels, (size_t)levels / 2 + 1, 1);
    int32_t i;

    for (i = 1; 2 * i <= levels; i++) {
        right.nodes[i].level = (uint16_t)(levels - 2 * i);
        right.nodes[i].then = i;
        right.nodes[i].els = -i;
    }
    right.roots[0] = (int32_t)right.count;
    return both(parity_plan(levels), right);
}
