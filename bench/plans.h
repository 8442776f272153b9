/* Diagrams that the benchmark makes, and the files that hold them. The same arguments give the same bytes on every machine. */
#ifndef PLANS_H
#define PLANS_H

#include <stddef.h>
#include <stdint.h>

struct node {
    uint16_t level;
    int32_t then, els;
};

/*
 * A diagram as its node lines: line n is nodes[n - 1], line 1 is the terminal. Every level counts as a support variable, variable v stands
 * at level v, and has the name `xv`, or where a zone has `points` points the name `zonez.pointp`; root r has the name `fr`.
 */
struct plan {
    uint16_t levels, points;
    size_t count;
    struct node *nodes;
    size_t nroots;
    int32_t *roots;
};

struct file {
    uint8_t *bytes;
    size_t len, room;
};

/*
 * An ordinary diagram: so many different nodes, most of them at the middle levels, each reached from a root. Children are deeper, many are
 * near, and about half of the else edges have a minus. Each seed gives another one.
 */
struct plan random_plan(uint16_t levels, size_t count, uint64_t seed);

/*
 * A plan as a site can have one: zones, with a level for each of their points. A zone counts where at least `asked` of its points are yes, and a
 * round counts where at least `asked_zones` zones do. There is a root for each zone: of the first one that of a round, and of each other one what is
 * least asked from there on.
 */
struct site {
    size_t zones, points, asked_zones, asked;
};

size_t site_nodes(const struct site *s);
struct plan site_plan(const struct site *s);

/* Room for a diagram of so many lines and roots. */
struct plan room_for_plan(uint16_t levels, size_t count, size_t nroots);

/* Whether an odd number of levels is yes: one node for each level, and every setting leads down all levels. */
struct plan parity_plan(uint16_t levels);

/*
 * At each level its and or its or with all that is deeper, in no order: the first setting that is answered yes leads down all levels, with yes at
 * the ands and no at the ors.
 */
struct plan and_or_plan(uint16_t levels);

/*
 * Whether at least so many levels are yes, one or more of them. Where all are no, no flip turns that over if more than one is asked for, and what is
 * beside the way at each level leads down all levels below.
 */
struct plan threshold_plan(uint16_t levels, size_t asked);

/*
 * A diagram against the store's search: all nodes but a few fall into one bucket, and their children are those few, so that a search has to pass
 * the whole chain. There are forty of them, and some 190 where there are a million nodes. The last `again` lines are like the oldest ones of that
 * bucket: a search finds them at the chain's end.
 */
struct plan hostile_plan(size_t count, size_t again);

void drop_plan(struct plan *p);

struct file text_file(const struct plan *p);
struct file binary_file(const struct plan *p);
struct file file_of(const uint8_t *bytes, size_t len);
void drop_file(struct file *f);

/* The next of a row of numbers that depends only on `state`. */
uint32_t draw(uint64_t *state);

/* Memory of zeros; the program ends where there is none. */
void *room_for(size_t entries, size_t width);

/* Ends the program. */
void give_up(const char *why);

#endif
