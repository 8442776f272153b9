/*
 * Stored cases in binary files, and their replay. A case is a head and three parts. The head is numbers of 16 bits, lowest byte first; its
 * last six are the lengths of the parts, two numbers each, the lower first. tests/nodes/make_cases.py says what the parts of a load hold,
 * tests/export/make_cases.py those of an export, tests/export/large_cases.py those of an export of a large store.
 */
#ifndef STORED_H
#define STORED_H

#include <stddef.h>
#include <stdint.h>

#include "stores.h"
#include "table.h"

enum { MOST_HEAD = 32, STORED_PARTS = 3 };

struct stored {
    uint16_t head[MOST_HEAD];
    struct bytes parts[STORED_PARTS];
};

/*
 * Each of these takes what it answers from the front of a part, in memory of its own. A part that ends before that stops the tests: there is
 * no such case, so nothing could be compared.
 */
uint16_t take_number(struct bytes *part);
struct bytes take_bytes(struct bytes *part, size_t len);

/* So many numbers, as a list of another length: what is too much is cut off, what is missing is zeros. */
uint16_t *take_list(struct bytes *part, size_t count, size_t len);

/* Likewise edges and node numbers, which are stored as numbers of 16 bits. */
zt_edge *take_edges(struct bytes *part, size_t count, size_t len);
zt_index *take_indices(struct bytes *part, size_t count, size_t len);

/* Numbers of 32 bits. */
uint32_t *take_wide_list(struct bytes *part, size_t count);

/* The store of a case: level count, count and the lengths of the five lists start the head. So many slots and heads are given. */
struct store take_store(struct bytes *part, const uint16_t *head, size_t slots, size_t heads);

/* Stops the tests where something is left of a part. */
void take_no_more(const struct bytes *part);

/* A number of 32 bits in a head: two numbers, the lower first. */
uint32_t wide_in(const uint16_t *head);

/* A folder of stored cases under `vectors`, how many numbers a head has, and what holds a case. */
struct replay {
    const char *folder;
    size_t numbers;
    void (*hold)(const struct stored *c);
};

/* Only each so-many-th case of a file is held. Set once, at the start. */
extern size_t step;

/*
 * Replays `cases.bin`, of which no case may differ; `falsified.bin`, of which every case must; `cut.bin`, which ends inside a case; and
 * `missing.bin`, which isn't there. Writes a line for each.
 */
void try_replay(const struct replay *r);

#endif
