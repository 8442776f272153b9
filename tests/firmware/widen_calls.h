/*
 * Turns of old stores, with all that holds of every turn: guards stay, the old store stays, work ends as zeros, the refusal is the one that lengths
 * and rules ask for, a refusal leaves zeros and count 0, and else the new store has the old one's numbers, and zeros after them. Each turn is made
 * three times, with work of other lengths and with other things in the new lists: all give the same.
 */
#ifndef WIDEN_CALLS_H
#define WIDEN_CALLS_H

#include "calls.h"
#include "old_stores.h"

/* The parts of a turn: the old store's, which are only read, the new one's, and the work. */
enum widen_part { WIDEN_OLD, WIDEN_NEW = STORE_PARTS, WIDEN_COUNT = 2 * STORE_PARTS, WIDEN_WORK, WIDEN_PARTS };

struct widening {
    /* the lengths of the new lists, by `enum store_part` */
    size_t lens[STORE_PARTS];
    /* what the call gives: its answer, and the new store in its parts, which `done_widening` gives back */
    struct zt_widen_answer answer;
    struct lent parts[WIDEN_PARTS];
};

/* A turn into so many slots. */
struct widening widening_into(size_t slots);

void call_widen(struct widening *c, const struct old_store *o);
void done_widening(struct widening *c);

/* The new store of a turn that wasn't refused, as a store of its own. */
struct store new_store(const struct widening *c, uint16_t levels);

/* Turns an old store that keeps the rules into so many slots. */
struct store turned(const struct old_store *o, size_t slots);

#endif
