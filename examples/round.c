/*
 * Loads a plan file and evaluates a round:
 *
 *     round FILE SETTING
 *
 * SETTING has a character for each level, 1 for yes and 0 for no. For each root of the file a line is written: its name, then `counts` or
 * `does not count`. A refusal is written as `refused N line M`, and the status is 1.
 *
 * A reader knows the levels of its site. Here they are as many as SETTING has characters, and the level list names them all, in their
 * order: so the file must have just as many support variables, else it is refused with 2. A plan that uses only some of the levels would be
 * loaded with a shorter list, as `{ 0, 3 }` for support variables at the levels 0 and 3.
 */
#include <stdio.h>
#include <stdlib.h>
#include <string.h>

#include "zonetweed.h"

enum { SLOTS = 4096, MOST_BYTES = 65536 };

/* The store: with count 1 and zeros in all lists it is empty. */
static zt_index count = 1, next[SLOTS], heads[ZT_BUCKETS];
static uint16_t level[SLOTS];
static zt_edge then[SLOTS], els[SLOTS];

/*
 * What a load fills, and its scratch. A node line takes a byte or more, so no file that this program reads has more than MOST_BYTES of them; one that
 * says so is refused with 1. Scratch for every file there may be would be ZT_MOST_NODES entries.
 */
static uint32_t ids[ZT_VARIABLE_ENTRIES], order[ZT_VARIABLE_ENTRIES], permids[ZT_VARIABLE_ENTRIES], auxids[ZT_VARIABLE_ENTRIES];
static uint32_t names[ZT_VARIABLE_ENTRIES], lens[ZT_VARIABLE_ENTRIES];
static uint32_t rootnames[ZT_ROOT_ENTRIES], rootlens[ZT_ROOT_ENTRIES];
static zt_edge roots[ZT_ROOT_ENTRIES], edges[MOST_BYTES];
static uint16_t seats[MOST_BYTES];

/* Work for all nodes that the store can have. */
static zt_index work[ZT_WORK_ENTRIES(SLOTS)];

static uint8_t file[MOST_BYTES], setting[ZT_MOST_LEVELS];
static uint16_t list[ZT_MOST_LEVELS];

static void fail(const char *what, const char *name)
{
    fprintf(stderr, "round: %s %s\n", what, name);
    exit(2);
}

static void refuse(uint8_t refusal, size_t line)
{
    if (printf("refused %u line %zu\n", refusal, line) < 0 || fflush(stdout) != 0)
        fail("can't write", "the refusal");
    exit(1);
}

static size_t read_file(const char *name)
{
    FILE *f = fopen(name, "rb");
    size_t len;

    if (f == NULL)
        fail("can't open", name);
    len = fread(file, 1, sizeof file, f);
    if (ferror(f))
        fail("can't read", name);
    if (len == sizeof file)
        fail("too long for this program:", name);
    if (fclose(f) != 0)
        fail("can't close", name);
    return len;
}

/* A character other than 0 and 1 becomes a byte other than 0 and 1, which the evaluation refuses with 4. */
static uint16_t read_setting(const char *text)
{
    size_t i, levels = strlen(text);

    if (levels > ZT_MOST_LEVELS)
        fail("too many levels in", text);
    for (i = 0; i < levels; i++) {
        setting[i] = (uint8_t)(text[i] - '0');
        list[i] = (uint16_t)i;
    }
    return (uint16_t)levels;
}

/* A root's name, which stands in the file; a root that has none is written by its number. */
static void write_root(size_t r, uint8_t answer)
{
    int failed = rootlens[r] == 0 ? printf("%zu", r) < 0 : fwrite(&file[rootnames[r]], 1, rootlens[r], stdout) != rootlens[r];

    if (failed || printf(" %s\n", answer ? "counts" : "does not count") < 0)
        fail("can't write", "a root");
}

int main(int argc, char **argv)
{
    struct zt_load_answer loaded;
    uint16_t levels;
    size_t len, r;

    if (argc != 3)
        fail("usage:", "round FILE SETTING");
    len = read_file(argv[1]);
    levels = read_setting(argv[2]);
    loaded = zt_load(file, len, list, levels, levels, &count, level, SLOTS, then, SLOTS, els, SLOTS, next, SLOTS, heads, ZT_BUCKETS,
        ids, ZT_VARIABLE_ENTRIES, order, ZT_VARIABLE_ENTRIES, permids, ZT_VARIABLE_ENTRIES, auxids, ZT_VARIABLE_ENTRIES,
        names, ZT_VARIABLE_ENTRIES, lens, ZT_VARIABLE_ENTRIES, roots, ZT_ROOT_ENTRIES, rootnames, ZT_ROOT_ENTRIES,
        rootlens, ZT_ROOT_ENTRIES, edges, MOST_BYTES, seats, MOST_BYTES, work, ZT_WORK_ENTRIES(SLOTS));
    if (loaded.refusal != 0)
        refuse(loaded.refusal, loaded.line);
    for (r = 0; r < loaded.nroots; r++) {
        struct zt_evaluate_answer evaluated = zt_evaluate(levels, count, level, SLOTS, then, SLOTS, els, SLOTS, next, SLOTS,
            heads, ZT_BUCKETS, roots[r], setting, levels, work, ZT_WORK_ENTRIES(SLOTS));
        if (evaluated.refusal != 0)
            refuse(evaluated.refusal, evaluated.line);
        write_root(r, evaluated.answer);
    }
    return fflush(stdout) == 0 ? 0 : 2;
}
