/*
 * Zonetweed: loads DDDMP files of decision diagrams into a store, evaluates their roots, finds settings for them and what tips them, joins them and
 * exports files.
 * This is interface 2: edges and node numbers have 32 bits. See 'Interface'.
 *
 * The calls are proved against the definitions of the repository: for every content of the parts that it is lent, a call gives the
 * answer, and leaves in each part the content, that are stated there. What the caller owes is not proved, and is listed under 'Parts'.
 *
 * Words
 *   part      memory that the caller lends for the time of a call: a pointer, then a length, counted in entries and not in bytes.
 *   level     a place in the order of a diagram, counted from 0. A store has a fixed number of them.
 *   edge      a signed number of 32 bits: its magnitude names a node of the store, counted from 1, and a minus turns the node's answer over.
 *             Node 1 answers yes at every setting.
 *   root      an edge that a load, a join or zt_not gave. It stays valid, with the same answers, as long as the store is only changed by loads
 *             and joins. Two roots of a store, whichever calls gave them, are the same number exactly where they answer alike at every setting.
 *             The roots of an old store are roots of the new one that zt_widen makes of it, with the same numbers and answers.
 *   setting   one byte for each level: 1 for yes, 0 for no.
 *   place     where a name stands: its start and its length in bytes. In a load's lists a start counts from the first byte of the file, and
 *             a name that there isn't is start 0, length 0.
 *
 * Parts
 *   - A pointer is valid for as many entries as its length says, and aligned as its type asks. An empty part, of length 0, may have a null
 *     pointer. The pointer `count` of a load, a join or zt_widen is never null.
 *   - No part that a call writes may overlap another part that the same call is lent. Parts that are only read may overlap each other.
 *     A pointer to const is only read; every other part is written.
 *   - A part may be longer than it has to be. What isn't used of a part that is written is zeros afterwards, but for the store's.
 *   - A part that is written need not be cleared before the call, but for the store's. The new store of zt_widen is output, and need not be.
 *
 * Store
 *   A store is its level count `levels`, its node count `count`, four slot lists of equal length, `level`, `then`, `els` and `next`, and
 *   the list `heads` of ZT_BUCKETS entries. Entry n - 1 of the slot lists is node n. The caller keeps all of them from call to call, and
 *   changes none. An empty store is made by the caller's zeros: all entries of the five lists 0, count 1, and any level count up to
 *   ZT_MOST_LEVELS, which stays as it is for the store's whole life. One slot is the least, since node 1 has one. There may be more slots than
 *   ZT_MOST_NODES, though no more nodes. Every call checks that the store keeps its rules before it uses it, and answers ZT_BROKEN_STORE where
 *   it doesn't; no content of a store makes a call read or write outside its parts.
 *
 * Old store
 *   A store as interface 1 had it: the same parts, with edges and node numbers of 16 bits (zt_old_edge, zt_old_index), and at most
 *   ZT_OLD_MOST_NODES nodes. zt_widen makes a store of it. No other call takes it.
 *
 * Memory
 *   A slot of a store takes 14 bytes: 4 each in `then`, `els` and `next`, 2 in `level`; `heads` takes 1 KB. Beside the store a load is lent 6 bytes
 *   of scratch for each node line, an export 8 bytes of marks for each node and its output, and every call some work, 24 bytes for each node where
 *   it is as long as ZT_WORK_ENTRIES says. A store of ZT_MOST_NODES slots takes 14 MB, with work 38 MB, and with scratch for every file 44 MB.
 *
 * Work
 *   Every call that is given a store, an old one too, is also lent `work`, the entries of an index of its nodes, in any number, none included. No
 *   length is refused, and no answer depends on it. It needn't be cleared before a call, and is zeros afterwards. See ZT_WORK_ENTRIES.
 *
 * Cache
 *   The calls that join two roots are also lent `cache`, for results that they remember while they join, in any number of entries, none
 *   included. What is said of work holds of it too: no length is refused, no answer depends on it, it needn't be cleared before a call, and it is
 *   zeros afterwards, also where it is too short to be used. See ZT_CACHE_ENTRIES.
 *
 * Refusals
 *   Every answer starts with the number of a refusal, 0 for none, and a line, counted from 1 at the top of the file, or 0 where no line is
 *   given. On any refusal all outputs are zeros, scratch, marks, work and cache are zeros, and the store is as it was. The new store of zt_widen is
 *   output: on a refusal it is zeros too, its count with it, and so no store that any call takes.
 *
 * Interface
 *   The numbers in the lists of a store are wider than in interface 1, and C doesn't see across a call how wide they are in the memory that a
 *   pointer leads to. So the names that are linked carry the interface's number: a program that was compiled for another one isn't linked with
 *   this library. Programs write the names without it.
 *
 * Threads
 *   There is no state beside the parts. Calls at the same time are independent of each other where none writes a part that another is lent:
 *   calls on different stores always are, and so are evaluations, examples, tipping points, exports and opposites of one store while no load and
 *   no join changes it. Turns of one old store are independent as well. Work and cache are written by each call, so calls at the same time are
 *   lent different ones.
 *
 * Stack
 *   The library takes no memory but the stack's: about 20 KB for a load, 36 KB for an export, 12 KB for an evaluation, an example, a tipping point
 *   or a turn, 177 KB for a join, whatever the parts hold and however long they are. These were measured on x86-64, and are not proved.
 */
#ifndef ZONETWEED_H
#define ZONETWEED_H

#include <stddef.h>
#include <stdint.h>

#ifdef __cplusplus
extern "C" {
#endif

/* The number of this interface. 1 had edges and node numbers of 16 bits, and no zt_widen. */
#define ZT_INTERFACE 2

/*
 * The names that are linked carry that number, so that a program compiled for another interface doesn't link, rather than handing over lists of
 * another width.
 */
#define zt_load zt2_load
#define zt_evaluate zt2_evaluate
#define zt_example zt2_example
#define zt_tip zt2_tip
#define zt_export zt2_export
#define zt_and zt2_and
#define zt_or zt2_or
#define zt_xor zt2_xor
#define zt_not zt2_not
#define zt_widen zt2_widen

/* Lengths and limits. A value at a limit passes. */
#define ZT_VARIABLE_ENTRIES 4096 /* the least length of each variable list of a load, and the most variables of a file */
#define ZT_ROOT_ENTRIES 1024     /* the least length of each root list of a load, and the most roots of a file */
#define ZT_BUCKETS 256           /* the length of the list of bucket heads */
#define ZT_MOST_LEVELS 4096      /* levels of a store */
#define ZT_MOST_NODES 1000000    /* nodes of a file, and of a store */
#define ZT_OLD_MOST_NODES 32767  /* nodes of an old store */
#define ZT_MOST_ROOTS 1024       /* roots of an export */
#define ZT_MOST_INPUT 67108864   /* bytes of a file that is loaded */
#define ZT_MOST_NAME 255         /* bytes of a name that is exported */

/*
 * The length of `work` that is enough where a store has at most so many nodes after the call: for a load and a join its slots, up to
 * ZT_MOST_NODES; for the other calls its count, for zt_widen that of the old store. It buys that a node is found in a few steps whatever the nodes
 * are. Half of it buys the same, a little slower; with less, nodes are found along their chains: about as fast where the nodes are few and spread
 * over the buckets, and far slower where they are many, or most share one bucket.
 */
#define ZT_WORK_ENTRIES(nodes) (6 * ((size_t)(nodes) + 1))

/*
 * The length of `cache` that has room for so many results. A join goes through pairs of nodes, one of each root; where the results of most pairs
 * that it meets are remembered, it takes time by their number, and else it meets them again. As many results as the store has nodes, or a few times
 * as many, are ample. Where fewer entries than ZT_OWN_CACHE_ENTRIES are lent, a join has so many of its own, on the stack, and the lent ones aren't
 * used; they are cleared all the same.
 */
#define ZT_CACHE_ENTRIES(results) (4 * (size_t)(results))
#define ZT_OWN_CACHE_ENTRIES 16384

/* An edge, and the number of a node. */
typedef int32_t zt_edge;
typedef uint32_t zt_index;

/* An edge of an old store, and the number of a node of it: what zt_edge and zt_index were in interface 1. */
typedef int16_t zt_old_edge;
typedef uint16_t zt_old_index;

/* The numbers of the refusals, by who can cause them. 0 stands for no refusal. */
enum zt_refusal {
    /* the calling program; the line is 0 */
    ZT_TOO_SHORT = 1,           /* a lent part is too short */
    ZT_BAD_LEVELS = 2,          /* the level list isn't one level per support variable, strictly ascending, below the level count */
    ZT_BROKEN_STORE = 3,        /* the store breaks its rules */
    ZT_BAD_ROOT_OR_SETTING = 4, /* a root is 0 or beyond the count, over 1,024 roots, or a setting isn't one byte 0 or 1 per level */
    ZT_BAD_NAME = 5,            /* a name list has neither no entry nor one per variable or root, or a name is unfit (see zt_export) */
    ZT_BAD_ORDER = 6,           /* the variable order isn't a permutation of the levels */

    /* the file's writer, line by line; with the line, but for 10 */
    ZT_NO_NODES = 10,        /* the input ends before `.nodes`; line 0 */
    ZT_UNKNOWN_KEY = 11,     /* unknown key */
    ZT_BAD_VERSION = 12,     /* a version other than DDDMP-2.0 or DDDMP-3.0 */
    ZT_BAD_MODE = 13,        /* unknown value of `.mode` or `.varinfo` */
    ZT_NOT_A_NUMBER = 14,    /* a single number has a foreign character or no digit */
    ZT_TOO_LARGE = 15,       /* a number is too large */
    ZT_FOREIGN = 16,         /* a list has a foreign character */
    ZT_MISPLACED_MINUS = 17, /* a second minus, a minus after a digit, or one without its digit */
    ZT_NOT_UTF8 = 18,        /* a name or the `.dd` value isn't UTF-8 */
    ZT_OVER_LIMIT = 19,      /* over a limit; line 0 for `.nvars`, `.nnodes` and the input's length */

    /* the file's writer, header as a whole; the line is 0 */
    ZT_OVER_NVARS = 20,       /* `.nsuppvars` is above `.nvars` */
    ZT_WRONG_COUNT = 21,      /* a list of the header has the wrong number of entries */
    ZT_BAD_IDS = 22,          /* `.ids` isn't strictly ascending, or its last entry isn't below `.nvars` */
    ZT_BAD_PERMIDS = 23,      /* a permid isn't below `.nvars`, or stands twice */
    ZT_UNLIKE_NAMES = 24,     /* two lists give a support variable unlike names */
    ZT_ZERO_ROOT = 25,        /* a root is 0 */
    ZT_ROOT_OVER_NNODES = 26, /* a root's magnitude is above `.nnodes` */

    /* the file's writer, nodes; with the line in text but for 30 and 39, line 0 in binary. 14 to 17 stand for text nodes too. */
    ZT_ENDS_EARLY = 30,   /* the nodes end early; line 0 */
    ZT_WRONG_NODE = 31,   /* not the expected node number */
    ZT_BAD_LINE = 32,     /* a missing blank, or not two children */
    ZT_BAD_TERMINAL = 33, /* a terminal is described by other than `T` */
    ZT_BAD_VARIABLE = 34, /* a variable is out of range */
    ZT_BAD_CHILD = 35,    /* a child is 0 (binary), or not below its node */
    ZT_BAD_LEVEL = 36,    /* a level isn't above both children's */
    ZT_BAD_ESCAPE = 37,   /* bad escape (binary) */
    ZT_OVER_64_BITS = 38, /* a binary number is over 64 bits */
    ZT_NO_END = 39,       /* no `.end`, or something after it other than space, tab, LF, FF and CR; line 0 */

    /* whoever filled the store; the line is 0 */
    ZT_NO_ROOM = 40, /* a line or a join needs a new node, and every slot that was lent, or 1,000,000, is used */

    /* the root that was asked about; the line is 0 */
    ZT_NO_SETTING = 41, /* no setting gives the wanted answer */
    ZT_NO_FLIP = 42     /* no single flip turns the answer over */
};

/* The answer of a load. From `ascii` on it has the numbers of the file's header; on a refusal they are zeros. */
struct zt_load_answer {
    uint8_t refusal;    /* the number of the refusal, 0 for none */
    size_t line;        /* its line, or 0 */
    uint8_t ascii;      /* 1 where the nodes are text (`.mode A`), 0 where they are binary */
    uint8_t varinfo;    /* the value of `.varinfo`, 0 to 4 */
    uint32_t ddstart;   /* the place of the diagram's name (`.dd`) in the file: start .. */
    uint32_t ddlen;     /* .. and length */
    uint64_t nnodes;    /* node lines */
    uint32_t nvars;     /* variables */
    uint32_t nsuppvars; /* support variables */
    uint64_t nroots;    /* roots */
    size_t next;        /* the position after `.nodes`' line, where the nodes start */
    size_t lines;       /* how many lines the header has, `.nodes`' line included */
};

/* The answer of an evaluation. */
struct zt_evaluate_answer {
    uint8_t refusal; /* the number of the refusal, 0 for none */
    size_t line;     /* always 0 */
    uint8_t answer;  /* 1 for yes, 0 for no; 0 on a refusal */
};

/* The answer of an example: the setting itself lies in the part that was lent for it. */
struct zt_example_answer {
    uint8_t refusal; /* the number of the refusal, 0 for none */
    size_t line;     /* always 0 */
};

/* The answer of a tipping point. */
struct zt_tip_answer {
    uint8_t refusal; /* the number of the refusal, 0 for none */
    size_t line;     /* always 0 */
    uint16_t level;  /* the level; 0 on a refusal, which is a level too: only the refusal tells */
};

/* The answer of a turn: the new store itself lies in the parts that were lent for it. */
struct zt_widen_answer {
    uint8_t refusal; /* the number of the refusal, 0 for none */
    size_t line;     /* always 0 */
};

/* The answer of an export. */
struct zt_export_answer {
    uint8_t refusal; /* the number of the refusal, 0 for none */
    size_t line;     /* always 0 */
    size_t len;      /* how many bytes of `out` are the file; 0 on a refusal */
};

/* The answer of a join, and of zt_not. */
struct zt_join_answer {
    uint8_t refusal; /* the number of the refusal, 0 for none */
    size_t line;     /* always 0 */
    zt_edge root;    /* the root; 0 on a refusal */
};

/*
 * Loads a file into a store.
 *
 * Read
 *   file       the file's bytes, text or binary
 *   list       the level list: entry i is the store's level of the file's i-th support variable, where support variables are counted from 0
 *              in the order of ascending permid. One entry for each support variable, strictly ascending, each below `levels`.
 *
 * The store: `levels` by value, `count`, `level`, `then`, `els`, `next`, `heads`. See 'Store' above.
 *
 * Outputs, with their least lengths. v counts variables, i support variables in the order of `.ids`, r roots.
 *   ids        ZT_VARIABLE_ENTRIES   ids[i] is an entry of `.ids`
 *   order      ZT_VARIABLE_ENTRIES   the support order: the entries of `.ids`, arranged by ascending permid
 *   permids    ZT_VARIABLE_ENTRIES   permids[i] is an entry of `.permids`
 *   auxids     ZT_VARIABLE_ENTRIES   auxids[i] is an entry of `.auxids`, where the file has any
 *   names      ZT_VARIABLE_ENTRIES   names[v] and lens[v] are the place of a variable's name in the file: start ..
 *   lens       ZT_VARIABLE_ENTRIES   .. and length
 *   roots      ZT_ROOT_ENTRIES       roots[r] is the root, an edge of the store, at an entry of `.rootids`
 *   rootnames  ZT_ROOT_ENTRIES       rootnames[r] and rootlens[r] are the place of a root's name in the file: start ..
 *   rootlens   ZT_ROOT_ENTRIES       .. and length
 *
 * Scratch
 *   edges      as many entries as the file has node lines (`.nnodes`). ZT_MOST_NODES is enough for every file; a program that knows that its
 *              files are smaller lends less, and meets ZT_TOO_SHORT where one isn't.
 *   seats      likewise
 *   work       any length. See 'Work' above.
 *
 * Refusals, in the order in which they are judged
 *   ZT_TOO_SHORT      a variable list or a root list is too short
 *   ZT_BROKEN_STORE
 *   ZT_OVER_LIMIT     the file is longer than ZT_MOST_INPUT
 *   10 to 19          the first fault of the header's lines, with its line (0 for ZT_NO_NODES)
 *   19 to 26          the header as a whole: ZT_OVER_LIMIT for `.nvars`, then for `.nnodes`; ZT_OVER_NVARS; ZT_WRONG_COUNT for `.ids`,
 *                     `.permids`, `.auxids`; ZT_BAD_IDS; ZT_BAD_PERMIDS; ZT_WRONG_COUNT for `.orderedvarnames`, `.suppvarnames`,
 *                     `.varnames`; ZT_UNLIKE_NAMES; ZT_WRONG_COUNT for `.rootids`; for each root ZT_ZERO_ROOT, then ZT_ROOT_OVER_NNODES;
 *                     ZT_WRONG_COUNT for `.rootnames`
 *   ZT_TOO_SHORT      scratch is too short
 *   ZT_BAD_LEVELS
 *   14 to 17, 30 to 38, 40   the first fault of the node lines, ZT_NO_ROOM taking its turn among them
 *   ZT_NO_END
 *
 * Afterwards, on success: the answer has the header's numbers. The outputs hold their entries and then zeros. Scratch is zeros. The store
 * has the nodes that the file's lines need beside all those that it had, whose numbers and answers are the same as before. A node that was
 * there is used again, so that two roots with the same answer at every setting are the same number. `count` has grown by the new nodes.
 *
 * Afterwards, on a refusal: the answer's numbers, the outputs and scratch are zeros, also those parts that were long enough under
 * ZT_TOO_SHORT. `count` and the five lists of the store are as they were.
 */
struct zt_load_answer zt_load(
    const uint8_t *file, size_t file_len,
    const uint16_t *list, size_t list_len,
    uint16_t levels,
    zt_index *count,
    uint16_t *level, size_t level_len,
    zt_edge *then, size_t then_len,
    zt_edge *els, size_t els_len,
    zt_index *next, size_t next_len,
    zt_index *heads, size_t heads_len,
    uint32_t *ids, size_t ids_len,
    uint32_t *order, size_t order_len,
    uint32_t *permids, size_t permids_len,
    uint32_t *auxids, size_t auxids_len,
    uint32_t *names, size_t names_len,
    uint32_t *lens, size_t lens_len,
    zt_edge *roots, size_t roots_len,
    uint32_t *rootnames, size_t rootnames_len,
    uint32_t *rootlens, size_t rootlens_len,
    zt_edge *edges, size_t edges_len,
    uint16_t *seats, size_t seats_len,
    zt_index *work, size_t work_len);

/*
 * What an edge of a store answers at a setting.
 *
 * Read
 *   the store  `levels`, `count`, and the five lists. See 'Store' above.
 *   root       the edge: a root that a call gave, or any number from 1 to `count` in magnitude
 *   setting    `levels` entries, each 0 or 1
 *
 * Scratch
 *   work       any length. See 'Work' above.
 *
 * Refusals, in the order in which they are judged: ZT_BROKEN_STORE, ZT_BAD_ROOT_OR_SETTING.
 *
 * Afterwards work is zeros, and all other parts are as they were.
 */
struct zt_evaluate_answer zt_evaluate(
    uint16_t levels,
    zt_index count,
    const uint16_t *level, size_t level_len,
    const zt_edge *then, size_t then_len,
    const zt_edge *els, size_t els_len,
    const zt_index *next, size_t next_len,
    const zt_index *heads, size_t heads_len,
    zt_edge root,
    const uint8_t *setting, size_t setting_len,
    zt_index *work, size_t work_len);

/*
 * Gives the first setting at which an edge of the store answers as wanted: level 0 is compared first, and no comes before yes. Levels that the edge
 * doesn't look at are no.
 *
 * Read
 *   the store  `levels`, `count`, and the five lists. See 'Store' above.
 *   root       the edge: a root that a call gave, or any number from 1 to `count` in magnitude
 *   wanted     the wanted answer: no where it is 0, else yes
 *
 * Output
 *   setting    at least `levels` entries: the setting, and zeros after it
 *
 * Scratch
 *   work       any length. See 'Work' above.
 *
 * Refusals, in the order in which they are judged
 *   ZT_TOO_SHORT             `setting` has fewer entries than there are levels
 *   ZT_BROKEN_STORE
 *   ZT_BAD_ROOT_OR_SETTING   the root is 0 or beyond the count
 *   ZT_NO_SETTING            the edge never answers so: it is 1, and no is wanted, or -1, and yes is
 *
 * Afterwards work is zeros, and on a refusal the setting is too. All other parts are as they were.
 */
struct zt_example_answer zt_example(
    uint16_t levels,
    zt_index count,
    const uint16_t *level, size_t level_len,
    const zt_edge *then, size_t then_len,
    const zt_edge *els, size_t els_len,
    const zt_index *next, size_t next_len,
    const zt_index *heads, size_t heads_len,
    zt_edge root,
    uint8_t wanted,
    uint8_t *setting, size_t setting_len,
    zt_index *work, size_t work_len);

/*
 * Gives the level that tips an edge's answer at a setting: the lowest one whose flip alone, yes for no or no for yes, turns the answer over. When a
 * round doesn't count, it is the one reading that would have changed that.
 *
 * Read
 *   the store  `levels`, `count`, and the five lists. See 'Store' above.
 *   root       the edge: a root that a call gave, or any number from 1 to `count` in magnitude
 *   setting    exactly `levels` entries, each 0 or 1
 *
 * Scratch
 *   work       any length. See 'Work' above. Where it has at least as many entries as the store has nodes, each node's answer is found once; with
 *              fewer the time may grow with the square of the levels that the edge's way passes. ZT_WORK_ENTRIES(count) is enough.
 *
 * Refusals, in the order in which they are judged
 *   ZT_BROKEN_STORE
 *   ZT_BAD_ROOT_OR_SETTING   the root is 0 or beyond `count`, or the setting isn't one byte 0 or 1 per level
 *   ZT_NO_FLIP               no single flip turns the answer over
 *
 * Afterwards work is zeros, and all other parts are as they were.
 */
struct zt_tip_answer zt_tip(
    uint16_t levels,
    zt_index count,
    const uint16_t *level, size_t level_len,
    const zt_edge *then, size_t then_len,
    const zt_edge *els, size_t els_len,
    const zt_index *next, size_t next_len,
    const zt_index *heads, size_t heads_len,
    zt_edge root,
    const uint8_t *setting, size_t setting_len,
    zt_index *work, size_t work_len);

/*
 * Exports the diagrams of roots of a store as one file.
 *
 * Settings
 *   version    0 for DDDMP-2.0, any other value for DDDMP-3.0
 *   text       0 for binary nodes, any other value for text nodes
 *   ddstart    the place of the diagram's name in `bytes`: start ..
 *   ddlen      .. and length; 0, 0 for none
 *
 * Read
 *   the store  `levels`, `count`, and the five lists. See 'Store' above.
 *   roots      up to ZT_MOST_ROOTS roots, from 1 to `count` in magnitude; there may be none
 *   order      the variable order: order[v] is the level of variable v. `levels` entries, a permutation of the levels.
 *   bytes      the bytes of all names
 *   starts     starts[v] and lens[v] are the place of the name of variable v in `bytes`: start ..
 *   lens       .. and length; as many entries as levels, or none in both for no variable names
 *   rootstarts rootstarts[r] and rootlens[r] are the place of the name of root r in `bytes`: start ..
 *   rootlens   .. and length; as many entries as roots, or none in both for no root names
 *
 * A name is fit where its place lies inside `bytes` (start + length isn't above their length), and it is 1 to ZT_MOST_NAME bytes of UTF-8
 * with no control byte (00 to 1f, 7f) and no space. The diagram's name may be empty, and may have spaces.
 *
 * Marks
 *   slots      `count` entries
 *   numbers    `count` entries
 *
 * Scratch
 *   work       any length. See 'Work' above.
 *
 * Output
 *   out        as many bytes as the export size:
 *              256 + 32 * count + 24 * levels + 16 * number of roots + 3 * variable name bytes + root name bytes + ddlen,
 *              where each name counts by its own length even where places overlap. All places that are lent count, also unfit ones, so a
 *              sum of lengths can be large. It is taken without loss: a size that passes 64 bits is too long for any part, and is refused.
 *
 * Refusals, in the order in which they are judged: ZT_TOO_SHORT (marks or output), ZT_BROKEN_STORE, ZT_BAD_ROOT_OR_SETTING, ZT_BAD_ORDER,
 * ZT_BAD_NAME.
 *
 * Afterwards, on success: the first `len` bytes of `out` are the file, and zeros follow; marks and work are zeros. The file has one line for each
 * node that a root leads to, the terminal first and then the deepest level first; inside a level lines stand in the order in which a walk from
 * the roots first meets their nodes: roots in their order, a node before its children, all under then before all under else. So the file hangs
 * on the settings, the roots, the variable order, the names and the nodes under the roots alone, and stays the same while the store gains others.
 * Loaded into the same store, at the levels of those nodes in ascending order, it gives the same roots and no new node.
 *
 * Afterwards, on a refusal: `len`, `out`, the marks and work are zeros. What is read is as it was, always.
 */
struct zt_export_answer zt_export(
    uint8_t version,
    uint8_t text,
    uint32_t ddstart,
    uint32_t ddlen,
    uint16_t levels,
    zt_index count,
    const uint16_t *level, size_t level_len,
    const zt_edge *then, size_t then_len,
    const zt_edge *els, size_t els_len,
    const zt_index *next, size_t next_len,
    const zt_index *heads, size_t heads_len,
    const zt_edge *roots, size_t roots_len,
    const uint16_t *order, size_t order_len,
    const uint8_t *bytes, size_t bytes_len,
    const uint32_t *starts, size_t starts_len,
    const uint32_t *lens, size_t lens_len,
    const uint32_t *rootstarts, size_t rootstarts_len,
    const uint32_t *rootlens, size_t rootlens_len,
    zt_index *slots, size_t slots_len,
    zt_index *numbers, size_t numbers_len,
    uint8_t *out, size_t out_len,
    zt_index *work, size_t work_len);

/*
 * The root of the and, the or, or the exclusive or of two roots of a store: at every setting its answer is that operation on their answers.
 *
 * Read
 *   left       a root: one that a call gave, or any number from 1 to `count` in magnitude
 *   right      likewise
 *
 * The store: `levels` by value, `count`, `level`, `then`, `els`, `next`, `heads`. See 'Store' above.
 *
 * Scratch
 *   cache      any length. See 'Cache' above.
 *   work       any length. See 'Work' above; after a join a store has at most as many nodes as slots.
 *
 * Refusals, in the order in which they are judged
 *   ZT_BROKEN_STORE
 *   ZT_BAD_ROOT_OR_SETTING   a root is 0 or beyond the count
 *   ZT_NO_ROOM               the nodes of the result that the store lacks are more than there are free slots, or would be over ZT_MOST_NODES
 *
 * Afterwards, on success: the store has the nodes of the result that it lacked beside all those that it had, whose numbers and answers are the
 * same as before: all under then before all under else, each after its children. Where it lacked none, it is as it was, and is never refused with
 * ZT_NO_ROOM.
 *
 * Afterwards, on a refusal: `root` is 0; `count` and the five lists of the store are as they were. Cache and work are zeros, always.
 */
struct zt_join_answer zt_and(
    uint16_t levels,
    zt_index *count,
    uint16_t *level, size_t level_len,
    zt_edge *then, size_t then_len,
    zt_edge *els, size_t els_len,
    zt_index *next, size_t next_len,
    zt_index *heads, size_t heads_len,
    zt_edge left,
    zt_edge right,
    zt_edge *cache, size_t cache_len,
    zt_index *work, size_t work_len);

struct zt_join_answer zt_or(
    uint16_t levels,
    zt_index *count,
    uint16_t *level, size_t level_len,
    zt_edge *then, size_t then_len,
    zt_edge *els, size_t els_len,
    zt_index *next, size_t next_len,
    zt_index *heads, size_t heads_len,
    zt_edge left,
    zt_edge right,
    zt_edge *cache, size_t cache_len,
    zt_index *work, size_t work_len);

struct zt_join_answer zt_xor(
    uint16_t levels,
    zt_index *count,
    uint16_t *level, size_t level_len,
    zt_edge *then, size_t then_len,
    zt_edge *els, size_t els_len,
    zt_index *next, size_t next_len,
    zt_index *heads, size_t heads_len,
    zt_edge left,
    zt_edge right,
    zt_edge *cache, size_t cache_len,
    zt_index *work, size_t work_len);

/*
 * The opposite of a root of a store: at every setting its answer is the other one.
 *
 * Read
 *   the store  `levels`, `count`, and the five lists. See 'Store' above.
 *   root       a root: one that a call gave, or any number from 1 to `count` in magnitude
 *
 * Scratch
 *   work       any length. See 'Work' above.
 *
 * Refusals, in the order in which they are judged: ZT_BROKEN_STORE, ZT_BAD_ROOT_OR_SETTING. On a refusal `root` is 0.
 *
 * Afterwards work is zeros, and all other parts are as they were.
 */
struct zt_join_answer zt_not(
    uint16_t levels,
    zt_index count,
    const uint16_t *level, size_t level_len,
    const zt_edge *then, size_t then_len,
    const zt_edge *els, size_t els_len,
    const zt_index *next, size_t next_len,
    const zt_index *heads, size_t heads_len,
    zt_edge root,
    zt_index *work, size_t work_len);

/*
 * Turns an old store, of 16 bits, into a new one that every other call takes. Each node keeps its number, its chain keeps its order, and so each
 * root of the old store is a root of the new one: the same number, with the same answers. Roots that were taken before the turn compare with those
 * that are taken after it, as if all of them had come from calls on the new store.
 *
 * Read
 *   levels     the level count, of the old store and of the new one
 *   old_count, old_level, old_then, old_els, old_next, old_heads
 *              the old store. See 'Old store' above.
 *
 * Outputs: the new store. What these parts hold before the call isn't looked at.
 *   count      the new count
 *   level      the slot lists: all four of one length, and that at least `old_count`. More slots than that are free ones of the new store.
 *   then       likewise
 *   els        likewise
 *   next       likewise
 *   heads      ZT_BUCKETS entries, neither fewer nor more
 *
 * Scratch
 *   work       any length. See 'Work' above.
 *
 * Refusals, in the order in which they are judged
 *   ZT_TOO_SHORT      the new slot lists are unequal in length, or shorter than `old_count` as it was handed in, or `heads` isn't ZT_BUCKETS entries,
 *                     where more are refused as well
 *   ZT_BROKEN_STORE   the old store breaks the rules of an old one: those of a store, with at most ZT_OLD_MOST_NODES nodes, and with the sum of
 *                     a bucket wrapped at 65,536
 *
 * Afterwards, on success: the new store has the level count, the count, the nodes, the chains and the heads of the old one, and zeros in the slots
 * that aren't used. Afterwards, on a refusal: `count` is 0 and the new lists are zeros. Work is zeros, always, and the old store is as it was.
 */
struct zt_widen_answer zt_widen(
    uint16_t levels,
    zt_old_index old_count,
    const uint16_t *old_level, size_t old_level_len,
    const zt_old_edge *old_then, size_t old_then_len,
    const zt_old_edge *old_els, size_t old_els_len,
    const zt_old_index *old_next, size_t old_next_len,
    const zt_old_index *old_heads, size_t old_heads_len,
    zt_index *count,
    uint16_t *level, size_t level_len,
    zt_edge *then, size_t then_len,
    zt_edge *els, size_t els_len,
    zt_index *next, size_t next_len,
    zt_index *heads, size_t heads_len,
    zt_index *work, size_t work_len);

#ifdef __cplusplus
}
#endif

#endif
