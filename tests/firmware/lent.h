/* Parts as the calls are lent them. */
#ifndef LENT_H
#define LENT_H

#include <stddef.h>
#include <stdint.h>

/*
 * A part stands between guard bytes, or, where `exact` is set, alone in memory of its own size, so that a tool that watches memory sees
 * each access beside it. `before` is its content as it was handed in; a part that is only to be written has none.
 */
struct lent {
    uint8_t *block;
    uint8_t *before;
    void *at;
    size_t entries;
    size_t width;
};

/* Set once, at the start. */
extern int exact;

/* Where this is set, an empty part has a null pointer. With `exact` it always has. */
extern int null_where_empty;

/* A part with a content. */
struct lent lend(const void *content, size_t entries, size_t width);

/* A part whose content doesn't matter: it holds no zeros, or, where `exact` is set, nothing that was ever written. */
struct lent lend_room(size_t entries, size_t width);

int guards_hold(const struct lent *part);
int as_before(const struct lent *part);
int zeros_from(const struct lent *part, size_t entry);

/* Of each part from one number to another. */
int all_as_before(const struct lent *parts, size_t from, size_t to);
int all_zeros(const struct lent *parts, size_t from, size_t to);

/* Do two calls' parts, of the same lengths, hold the same, from one number to another? */
int all_alike(const struct lent *a, const struct lent *b, size_t from, size_t to);

int all_guards_hold(const struct lent *parts, size_t count);

void give_back(struct lent *parts, size_t count);

#endif
