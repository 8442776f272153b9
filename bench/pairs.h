/* Pairs of diagrams that are joined, and the joins that build them. The same arguments give the same diagrams on every machine. */
#ifndef PAIRS_H
#define PAIRS_H

#include <stddef.h>
#include <stdint.h>

#include "ours.h"
#include "plans.h"

/* Joins one after another. An operand is a level's number, counted from 1, or above the levels an earlier step's; a minus stands for the opposite. */
struct step {
    enum op op;
    int32_t left, right;
};

struct script {
    uint16_t levels;
    size_t count, room;
    struct step *steps;
    int32_t left, right; /* the pair that was to be built */
};

/*
 * Queens on a board of n times n squares, a level for each, row by row: no two attack each other, and there is one in each row. On the left what
 * is asked of the upper rows, on the right what is asked of the others; their and are the solutions.
 */
struct script queens(int n);

/*
 * Two numbers of so many bits, the highest first: on the left whether their sum has a carry, on the right the exclusive or of its bits.
 * By turns the bits of both stand beside each other; else all of one number stand above all of the other, which takes many nodes.
 */
struct script adder(int bits, int by_turns);

/* The and of the pair as a last step. */
void join_pair(struct script *s);

void drop_script(struct script *s);

/* Runs a script on a store that is made for it, and answers the diagram of its pair. */
struct plan built(const struct script *s);

/* A store with a node for each level, as scripts start with, and the edges of all steps. */
struct ours levels_only(uint16_t levels);
void run_script(struct ours *s, const struct script *script, zt_edge *edges);

/* Rules of a round: of some points with weights from 1 to `most`, each side asks for half of the weight of those that it looks at. */
struct plan threshold_pair(uint16_t levels, unsigned most, uint64_t seed);

/* Two ordinary diagrams with so many nodes each. */
struct plan random_pair(uint16_t levels, size_t count, uint64_t seed);

/* Exclusive ors of all levels, and of every second one. */
struct plan parity_pair(uint16_t levels);

#endif
