/*
 * BuDDy's side: the package of decision diagrams that joins are compared with. Where it isn't there (`bench/run` finds that out), the functions
 * but for buddy_there do nothing.
 */
#ifndef BUDDY_H
#define BUDDY_H

#include <stddef.h>

#include "ours.h"
#include "pairs.h"

/* Room for so many nodes, and for so many results of joins. */
enum { BUDDY_NODES = 100000, BUDDY_RESULTS = 10000 };

int buddy_there(void);

/* Starts it, with the levels of a store in its order; it has two functions, which are those of two roots of the store. */
void buddy_open(const struct ours *s, zt_edge left, zt_edge right);
void buddy_close(void);

/* Forgets results and all nodes but those of the two functions. */
void buddy_clear(void);

/* Joins the two functions. */
void buddy_join(enum op op);

/* Is what was joined last the function of a root of the store? */
int buddy_agrees(const struct ours *s, zt_edge root);

/* Starts it with so many levels alone, and runs the joins of a script. */
void buddy_start(uint16_t levels);
void buddy_run(const struct script *script);

/* How often nodes were collected, other than by buddy_clear. */
int buddy_collections(void);

#endif
