/* Zonetweed's side: a store with all that its calls are lent. */
#ifndef OURS_H
#define OURS_H

#include <stddef.h>
#include <stdint.h>

#include "plans.h"
#include "zonetweed.h"

struct ours {
    uint16_t levels;
    size_t slots, lines;
    zt_index count;
    uint16_t *level;
    zt_edge *then, *els;
    zt_index *next, *heads;
    /* the level list, and the variable order of exports: all levels in their order */
    uint16_t *list;
    /* what a load fills, and its scratch */
    uint32_t *ids, *order, *permids, *auxids, *names, *lens, *rootnames, *rootlens;
    zt_edge *roots, *edges;
    uint16_t *seats;
    size_t nroots;
    /* the names that exports write */
    const uint8_t *bytes;
    size_t bytes_len;
    /* what an export fills, and its marks */
    zt_index *marks, *numbers;
    uint8_t *out;
    size_t out_len;
    /* the work that the calls are lent: enough, unless `work_len` is set to less */
    zt_index *work;
    size_t work_len;
    /* the cache that joins are lent: none, unless ours_lend_cache was called */
    zt_edge *cache;
    size_t cache_len;
};

enum op { AND, OR, XOR, OPS };

/* The slots of stores in which roots are joined: each join looks through all of them. */
enum { JOIN_SLOTS = 32767 };

/* An empty store. Its calls read files of at most so many lines. */
struct ours ours_open(uint16_t levels, size_t slots, size_t lines);
void ours_close(struct ours *s);

/* Makes the store empty again. */
void ours_clear(struct ours *s);

/* Loads a file, whose variables are all of the store's. Answers the refusal. */
int ours_load(struct ours *s, const uint8_t *file, size_t len);

/* Exports are to write the names of the file that was loaded last, which has to stay where it is. */
void ours_take_names(struct ours *s, const uint8_t *file, size_t len);

/* What an edge answers at a setting; a refusal ends the program. */
int ours_evaluate(const struct ours *s, zt_edge root, const uint8_t *setting);

/* The first setting at which an edge answers as wanted goes to `setting`, which has a byte for each level; a refusal ends the program. */
void ours_example(const struct ours *s, zt_edge root, uint8_t wanted, uint8_t *setting);

/* The lowest level whose flip alone turns an edge's answer at a setting over, -1 where there is none; another refusal ends the program. */
int ours_tip(const struct ours *s, zt_edge root, const uint8_t *setting);

/* Exports all roots that were loaded last. Answers the length. */
size_t ours_export(struct ours *s, uint8_t text);

/* Joins are lent a cache for so many results. */
void ours_lend_cache(struct ours *s, size_t results);

/* The root of an operation on two roots; a refusal ends the program. */
zt_edge ours_join(struct ours *s, enum op op, zt_edge left, zt_edge right);

/* A store of JOIN_SLOTS slots into which a diagram was loaded. */
struct ours ours_with(const struct plan *plan);

/* The diagram of two roots. */
struct plan ours_plan(const struct ours *s, zt_edge left, zt_edge right);

/* How many nodes a root leads to, the terminal counted. */
size_t ours_size(const struct ours *s, zt_edge root);

#endif
