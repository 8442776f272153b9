/* Stores of the tests, and a reading of document 01's 'Store and meaning' of their own, against which the calls are held. */
#ifndef STORES_H
#define STORES_H

#include <stddef.h>
#include <stdint.h>

#include "zonetweed.h"

/* The lists are as long as their lengths say; a store that breaks the rules may have lists of unequal length. */
struct store {
    uint16_t levels;
    zt_index count;
    uint16_t *level;
    zt_edge *then;
    zt_edge *els;
    zt_index *next;
    zt_index *heads;
    size_t level_len, then_len, els_len, next_len, heads_len;
};

struct store empty_store(uint16_t levels, size_t slots);
struct store copy_of(const struct store *s);
void drop_store(struct store *s);
int same_store(const struct store *a, const struct store *b);

/* Adds a node at the next number, with its link and its bucket's head. There must be a slot. */
void add_node(struct store *s, uint16_t level, zt_edge then, zt_edge els);

/* More nodes than an edge of 16 bits can name, and not so many that every test has to do with them. */
enum { MANY_NODES = 34567 };

/* A store of 4,096 levels with so many nodes, at least 4 and at most 36,000. */
struct store full_store(size_t nodes, size_t slots);

/* A store of 4,096 levels with so many nodes, at least 14 and at most 1,100,000. */
struct store wide_store(size_t nodes, size_t slots);

/* Does a store keep document 01's rules? */
int keeps_rules(const struct store *s);

/* What an edge of a store that keeps the rules answers: 1 or 0. */
int answer_of(const struct store *s, zt_edge edge, const uint8_t *setting);

/* The levels of the nodes that roots of such a store lead to, ascending. Answers how many; `list` has room for all levels. */
size_t reached_levels(const struct store *s, const zt_edge *roots, size_t count, uint16_t *list);

size_t magnitude_of(zt_edge edge);

/* Numbers that are no edges of a store, where the first number beyond its count is this. */
enum { BAD_ROOTS = 8 };
void bad_roots(zt_edge beyond, zt_edge *bad);

/* The edge with the other sign. The least number there is, which is no edge, stays as it is. */
zt_edge opposite_of(zt_edge edge);

/* 'level + 3 x then + 5 x else', where the sum wraps at 4,294,967,296, remainder by 256 */
size_t bucket_of(uint16_t level, zt_edge then, zt_edge els);

#endif
