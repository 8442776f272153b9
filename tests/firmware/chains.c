#include "chains.h"

#include <stdlib.h>

#include "report.h"

void link_and(struct store *s, uint16_t level, zt_edge last)
{
    add_node(s, level, last, -1);
}

void link_or(struct store *s, uint16_t level, zt_edge last)
{
    add_node(s, level, 1, last);
}

void link_parity(struct store *s, uint16_t level, zt_edge last)
{
    add_node(s, level, last, (zt_edge)-last);
}

void link_in_turn(struct store *s, uint16_t level, zt_edge last)
{
    switch (level % 5) {
    case 0: link_and(s, level, last); break;
    case 1: link_or(s, level, (zt_edge)-last); break;
    case 2: link_parity(s, level, last); break;
    case 3: add_node(s, level, last, 1); break;
    default: link_or(s, level, last); break;
    }
}

struct store chain_of(uint16_t levels, link_of *each)
{
    struct store s = empty_store(levels, levels + 1u);
    uint16_t level = (uint16_t)(levels - 1);

    add_node(&s, level, 1, -1);
    while (level-- > 0)
        each(&s, level, (zt_edge)s.count);
    return s;
}

/* What is asked of the levels from one on: nothing is yes, and more than there are is no. What can go either way is a node. */
struct store threshold_of(uint16_t levels, size_t asked)
{
    struct store s = empty_store(levels, 1 + asked * (levels - asked + 1));
    zt_edge *edges = room((asked + 1) * sizeof *edges);
    size_t still;
    uint16_t level = levels;

    for (still = 0; still <= asked; still++)
        edges[still] = still == 0 ? 1 : -1;
    while (level-- > 0)
        for (still = asked; still > 0 && still + level >= asked; still--)
            if (edges[still - 1] != edges[still]) {
                add_node(&s, level, edges[still - 1], edges[still]);
                edges[still] = (zt_edge)s.count;
            }
    free(edges);
    return s;
}
