/* Old stores, of 16 bits, of which the turn makes new ones; and a reading of document 01's rules for them. */
#ifndef OLD_STORES_H
#define OLD_STORES_H

#include <stddef.h>
#include <stdint.h>

#include "stores.h"
#include "zonetweed.h"

/* As a struct store, with edges and node numbers of 16 bits. */
struct old_store {
    uint16_t levels;
    zt_old_index count;
    uint16_t *level;
    zt_old_edge *then;
    zt_old_edge *els;
    zt_old_index *next;
    zt_old_index *heads;
    size_t level_len, then_len, els_len, next_len, heads_len;
};

/* An old store in eight columns of a table, from this one on. */
struct old_store old_store_in(char **columns);

/* The old store with the same numbers. They must have 16 bits. */
struct old_store narrowed(const struct store *s);

struct old_store old_copy_of(const struct old_store *o);
void drop_old_store(struct old_store *o);

/* The store with the same numbers: the lists are as long, whether they are fit or not. */
struct store same_numbers(const struct old_store *o);

/* Does an old store keep the rules of document 01, as they were before edges had 32 bits? */
int keeps_old_rules(const struct old_store *o);

#endif
