/* Stores whose nodes lead down all levels. */
#ifndef CHAINS_H
#define CHAINS_H

#include "stores.h"

/* How the node of a level hangs on the last one, in a chain of all levels. */
typedef void link_of(struct store *s, uint16_t level, zt_edge last);

void link_and(struct store *s, uint16_t level, zt_edge last);
void link_or(struct store *s, uint16_t level, zt_edge last);
void link_parity(struct store *s, uint16_t level, zt_edge last);

/* Each level in turn one of the others, or one with a minus below. */
void link_in_turn(struct store *s, uint16_t level, zt_edge last);

/* A chain of one node for each level; the deepest level is first, and the last node is its root. There is at least one level. */
struct store chain_of(uint16_t levels, link_of *each);

/* Whether at least so many levels are yes, one or more and at most all of them: the last node is its root. */
struct store threshold_of(uint16_t levels, size_t asked);

#endif
