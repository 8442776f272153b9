/*
 * The calls, each with all that holds of every call: guards stay, what is only read stays, scratch, marks, work and cache end as zeros, a
 * refusal leaves zeros in every output and the store as it was, an accepted load or join leaves a store that keeps the rules and has only
 * grown, an example is answered as wanted, and the flip of a tipping point turns the answer over. Each is made once without work and once with
 * some, of a length that changes from call to call: both give the same. A join is made with caches of several lengths likewise. Only a load of
 * very many lines is always lent enough work.
 */
#ifndef CALLS_H
#define CALLS_H

#include <stddef.h>
#include <stdint.h>

#include "lent.h"
#include "stores.h"
#include "zonetweed.h"

/* The length of the work for a call, where the store may have so many nodes after it. It is around one that matters, from none to more than
   enough, another one from call to call. */
size_t work_for(size_t nodes);

/* How many nodes a load or a join may leave in a store, and how many another call may find there, whatever the count says. */
size_t most_nodes(const struct store *s);
size_t nodes_there(const struct store *s);

/* The lists of a store as parts. */
enum store_part { STORE_LEVEL, STORE_THEN, STORE_ELS, STORE_NEXT, STORE_HEADS, STORE_PARTS };

void lend_store(struct lent *p, const struct store *s);

/* The store's content after a call that was lent these lists and this count. */
void take_over(const struct lent *p, const struct lent *count, struct store *s);

/* Are the slots of so many nodes as they were handed in? */
int keeps_old_nodes(const struct lent *p, zt_index old);

/* The parts of a load: those that are only read, the store's, the outputs, the scratch, and the work. */
enum load_part {
    LOAD_FILE, LOAD_LIST,
    LOAD_COUNT, LOAD_LEVEL, LOAD_THEN, LOAD_ELS, LOAD_NEXT, LOAD_HEADS,
    LOAD_IDS, LOAD_ORDER, LOAD_PERMIDS, LOAD_AUXIDS, LOAD_NAMES, LOAD_LENS, LOAD_ROOTS, LOAD_ROOTNAMES, LOAD_ROOTLENS,
    LOAD_EDGES, LOAD_SEATS, LOAD_WORK,
    LOAD_PARTS
};

struct load {
    const uint8_t *file;
    size_t file_len;
    const uint16_t *list;
    size_t list_len;
    /* the lengths of the outputs and of the scratch, by `enum load_part` */
    size_t lens[LOAD_PARTS];
    /* what the call gives */
    struct zt_load_answer answer;
    struct lent parts[LOAD_PARTS];
};

/* Lengths by `enum load_part`: outputs that are just long enough, and so many entries of scratch. The others are 0. */
void fit_outputs(size_t *lens, size_t scratch);

/* A load with such outputs and scratch. */
struct load load_of(const void *file, size_t file_len, const uint16_t *list, size_t list_len, size_t scratch);

/* Makes the call; the store is as the call leaves it. `done_with` gives the load's parts back. */
void call_load(struct load *c, struct store *s);
void done_with(struct load *c);

int same_load_answers(const struct zt_load_answer *a, const struct zt_load_answer *b);

/* Outputs of a load that was made. */
const zt_edge *roots_of(const struct load *c);
const uint32_t *numbers_of(const struct load *c, enum load_part part);

struct zt_evaluate_answer call_evaluate(const struct store *s, zt_edge root, const uint8_t *setting, size_t setting_len);

enum operation { AND, OR, XOR };
enum { OPERATIONS = XOR + 1 };

/* An operation on two answers. */
int operation_on(enum operation op, int a, int b);

/* Where this is set, a join is made with a cache of each length that matters, else with some of them in turn. */
extern int every_cache;

/* Makes the call; the store is as the call leaves it. */
struct zt_join_answer call_join(struct store *s, enum operation op, zt_edge left, zt_edge right);
struct zt_join_answer call_opposite(const struct store *s, zt_edge root);

struct example {
    zt_edge root;
    uint8_t wanted;
    size_t setting_len;
    /* what the call gives: its answer, and the setting, which `done_with_example` gives back */
    struct zt_example_answer answer;
    struct lent setting;
};

/* An example with a setting of just the length that is asked for. */
struct example example_of(const struct store *s, zt_edge root, uint8_t wanted);

void call_example(struct example *c, const struct store *s);
void done_with_example(struct example *c);

/* Are the bytes of the setting, all that were lent, these, and then zeros? */
int gives_setting(const struct example *c, const uint8_t *setting, size_t len);

struct tip {
    zt_edge root;
    const uint8_t *setting;
    size_t setting_len;
    /* what the call gives */
    struct zt_tip_answer answer;
};

/* A tipping point at a setting that has just the length that is asked for. */
struct tip tip_of(const struct store *s, zt_edge root, const uint8_t *setting);

void call_tip(struct tip *c, const struct store *s);

/* The same with work of this length alone. */
void tip_with_work(struct tip *c, const struct store *s, size_t entries);

/* Does the flip of a level turn the answer over? By the tests' own walk; store, root and setting are good. */
int turns_over(const struct tip *c, const struct store *s, size_t level);

/* Names of an export, as the places that are lent. */
struct names {
    uint8_t *bytes;
    size_t bytes_len;
    uint32_t *starts, *lens, *rootstarts, *rootlens;
    size_t starts_len, lens_len, rootstarts_len, rootlens_len;
    uint32_t ddstart, ddlen;
};

struct export {
    uint8_t version, text;
    const zt_edge *roots;
    size_t roots_len;
    const uint16_t *order;
    size_t order_len;
    struct names names;
    size_t slots_len, numbers_len, out_len;
    /* what the call gives: its answer, and the output, which `done_exporting` gives back */
    struct zt_export_answer answer;
    struct lent out;
};

/* An export with marks and output of just the length that is asked for. */
struct export export_of(const struct store *s, const zt_edge *roots, size_t roots_len, const uint16_t *order, size_t order_len);

/* Sets the output's length to the export size. */
void fit_output(struct export *c, const struct store *s);

void call_export(struct export *c, const struct store *s);
void done_exporting(struct export *c);

/* Room for names: so many bytes, variables and roots. A name is added as the next one of its list. */
struct names room_for_names(size_t bytes, size_t variables, size_t roots);
void name_variable(struct names *n, const void *name, size_t len);
void name_root(struct names *n, const void *name, size_t len);
void name_diagram(struct names *n, const void *name, size_t len);
void drop_names(struct names *n);

#endif
