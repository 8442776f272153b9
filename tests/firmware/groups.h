/* The groups of tests. Each counts its cases and writes its summary. */
#ifndef GROUPS_H
#define GROUPS_H

#include "calls.h"
#include "table.h"

/* Where the stored cases are. */
extern const char *vectors;

/* Where the inputs of docs/DIFFERENCES.md are. */
extern const char *differences;

/* vectors.c: the stored cases in tables, and changed ones, which must be noticed */
void try_loads(void);
void try_differences(void);
void try_stores(void);
void try_evaluations(void);
void try_exports(void);
void try_changed_cases(void);

/* loads.c: stored loads, as other groups use them */
struct load_vector {
    struct bytes file;
    struct store before;
    uint16_t *list;
    size_t list_len;
    /* the lengths of the outputs and of the scratch */
    size_t lens[LOAD_PARTS];
    /* what the load must give */
    unsigned refusal;
    size_t line;
    zt_edge *roots;
    size_t roots_len;
    struct store after;
    /* each root's answers between commas, `-` where none are stored: character k is for the setting in which bit l of k is level l */
    char *answers;
};

/* Reads the cases of `load.tsv`, of `room.tsv` or of `inputs.tsv`; 0 after the last one. */
int next_load(struct table *t, struct load_vector *v);
void drop_load(struct load_vector *v);
int has_answers(const struct load_vector *v);

/* Entries of scratch that are enough for a file: that many, or as many as there may be where it says that it has more lines. */
enum { ENOUGH_LINES = 33000 };
size_t scratch_for(const struct bytes *file);

void setting_of(size_t k, size_t levels, uint8_t *setting);

/* vectors.c: makes a stored load, and holds it to what is stored */
void hold_load(const struct load_vector *v);

/* vectors.c: after `expect_failures`, something didn't hold of a changed case; one more was changed */
void must_be_noticed(const char *change);

/* whole_loads.c: stored loads with all that they give, and changed ones */
void try_whole_loads(void);
void change_whole_loads(void);

/* lists.c: lists of calls on one store, and changed ones */
void try_lists(void);
void change_lists(void);

/* joins.c: stored joins and opposites, and changed ones */
void try_joins(void);
void change_joins(void);

/* joins.c: `and`, `or` or `xor` */
enum operation operation_in(const char *column);

/* examples.c: stored examples, and changed ones */
void try_examples(void);
void change_examples(void);

/* example_laws.c: examples beside a plain search, refusals, long chains, full stores */
void try_example_laws(void);

/* example_laws.c: holds examples of an edge to that search, where the store has few levels */
void hold_examples_of(const struct store *s, zt_edge root);

/* tips.c: stored tipping points, and changed ones */
void try_tips(void);
void change_tips(void);

/* tip_laws.c: tipping points beside flips of each level, refusals, lengths of work, long chains, thresholds, full stores */
void try_tip_laws(void);

/* tip_laws.c: holds tipping points of an edge, at every setting, to such flips, where the store has few levels */
void hold_tips_of(const struct store *s, zt_edge root);

/* widens.c: stored turns of old stores, and changed ones */
void try_widens(void);
void change_widens(void);

/* widen_laws.c: full, empty and broken old stores, lengths of new lists, and calls that go on after a turn */
void try_widen_laws(void);

/* long_loads.c: stored loads of long inputs and of a file of many nodes, and changed ones */
void try_long_loads(void);
void try_big_loads(void);

/* most_nodes.c: stores and files of as many nodes as there may be */
void try_most_nodes(void);

/* small_joins.c: joins of every pair of edges of small stores, and changed ones */
void try_small_joins(void);
void change_small_joins(void);

/* small_joins.c: its stores, as other groups use them, only each so-many-th; the edges of a store, counted from 0; a store with more slots */
void with_small_stores(void (*each)(const struct store *s), size_t every);
size_t edges_of(const struct store *s);
zt_edge edge_at(size_t i);
struct store with_slots(const struct store *s, size_t slots);

/* replay_loads.c, replay_exports.c, replay_large.c: the stored cases in binary files, and falsified ones */
void try_stored_loads(void);
void try_stored_exports(void);
void try_large_exports(void);

/* exports.c: stored exports, as other groups use them */
struct export_vector {
    struct store store;
    zt_edge *roots;
    uint16_t *order;
    struct export call;
    /* what the export must give */
    unsigned refusal;
    size_t file_len;
    struct bytes file;
};

/* Reads the cases of `export.tsv` or of a table of `02`; 0 after the last one. */
int next_export(struct table *t, struct export_vector *v);
void drop_export(struct export_vector *v);

/* Makes a stored export, and holds it to what is stored. */
void hold_export(struct export_vector *v);

/*
 * swapped.c: a file of text in which two lines of one level change places, their numbers with them, in memory of its own. It says the same as
 * before. A file that has no two such lines gives no bytes.
 */
struct bytes swapped_lines(const struct bytes *file);

/* back.c */
void try_reading_back(void);
void try_one_store(void);
void try_full_store(void);

/* Loads a file into a copy of its store, at the levels of its nodes, and holds that to the roots. */
void hold_back(const struct store *s, const zt_edge *roots, size_t roots_len, const void *file, size_t len);

/* Loads the file that an export wrote likewise, and holds its header to what was exported. */
void hold_header_back(const struct export *e, const struct store *s);

/* join_limits.c: refusals of joins and opposites, chains of exclusive ors, and full stores */
void try_join_limits(void);

/* join_laws.c: what holds between several calls on the small stores */
void try_join_laws(void);

/* refusals.c */
void try_refusals(void);
void try_order_of_refusals(void);

/* lengths.c */
void try_lengths(void);
void try_empty_parts(void);

/* damage.c */
void try_damaged_stores(size_t cases);

/* own.c: the tests' own tools notice what they are there for */
void try_own_tools(void);

/* own.c: document 01's example */
extern const char plan[];
struct store plan_store(void);
extern const uint16_t plan_levels[2];

#endif
