/*
 * Loads a plan file and gives example rounds for it:
 *
 *     walk FILE POINTS
 *
 * POINTS is the number of the plan's points, its support variables. For each root of the file two lines are written: the first round that counts,
 * and the first one that doesn't, each as the points by name with `yes` or `no`. Where there is no such round, the root `never counts` or `always
 * counts`. A refusal is written as `refused N line M`, and the status is 1.
 *
 * With the plan beside this program,
 *
 *     walk plan.dddmp 2
 *
 * says first: `full counts: gate yes, dock yes`. The first round is the one with no at the first point where two of them differ, so points that a
 * root doesn't look at are no.
 */
#include <stdio.h>
#include <stdlib.h>

#include "zonetweed.h"

enum { SLOTS = 4096, MOST_BYTES = 65536 };

/* The store: with count 1 and zeros in all lists it is empty. */
static zt_index count = 1, next[SLOTS], heads[ZT_BUCKETS];
static uint16_t level[SLOTS], levels;
static zt_edge then[SLOTS], els[SLOTS];

/*
 * What a load fills, and its scratch. A node line takes a byte or more, so no file that this program reads has more than MOST_BYTES of them; one that
 * says so is refused with 1. Scratch for every file there may be would be ZT_MOST_NODES entries.
 */
static uint32_t ids[ZT_VARIABLE_ENTRIES], order[ZT_VARIABLE_ENTRIES], permids[ZT_VARIABLE_ENTRIES], auxids[ZT_VARIABLE_ENTRIES];
static uint32_t names[ZT_VARIABLE_ENTRIES], lens[ZT_VARIABLE_ENTRIES];
static uint32_t rootnames[ZT_ROOT_ENTRIES], rootlens[ZT_ROOT_ENTRIES];
static zt_edge roots[ZT_ROOT_ENTRIES], edges[MOST_BYTES];
static uint16_t seats[MOST_BYTES];

/* Work for all nodes that the store can have. */
static zt_index work[ZT_WORK_ENTRIES(SLOTS)];

static uint8_t file[MOST_BYTES], setting[ZT_MOST_LEVELS];
static uint16_t list[ZT_MOST_LEVELS];

static void fail(const char *what, const char *name)
{
    fprintf(stderr, "walk: %s %s\n", what, name);
    exit(2);
}

/* Asked once, at the end, of all that was printed. */
static void check_written(void)
{
    if (fflush(stdout) != 0 || ferror(stdout))
        fail("can't write", "the rounds");
}

static void refuse(uint8_t refusal, size_t line)
{
    printf("refused %u line %zu\n", refusal, line);
    check_written();
    exit(1);
}

static size_t read_file(const char *name)
{
    FILE *f = fopen(name, "rb");
    size_t len;

    if (f == NULL)
        fail("can't open", name);
    len = fread(file, 1, sizeof file, f);
    if (ferror(f))
        fail("can't read", name);
    if (len == sizeof file)
        fail("too long for this program:", name);
    if (fclose(f) != 0)
        fail("can't close", name);
    return len;
}

/* The level list names all levels, in their order. */
static void read_levels(const char *text)
{
    char *rest;
    unsigned long points = strtoul(text, &rest, 10);
    uint16_t l;

    if (rest == text || *rest != 0 || points > ZT_MOST_LEVELS)
        fail("no number of points:", text);
    levels = (uint16_t)points;
    for (l = 0; l < levels; l++)
        list[l] = l;
}

/* A name that stands in the file; what has none is written by its number. */
static void write_name(uint32_t start, uint32_t len, size_t number)
{
    if (len == 0)
        printf("%zu", number);
    else
        fwrite(&file[start], 1, len, stdout);
}

/* The point at level l is the file's l-th support variable, variable order[l]. */
static void write_round(void)
{
    uint16_t l;

    for (l = 0; l < levels; l++) {
        printf(l == 0 ? ": " : ", ");
        write_name(names[order[l]], lens[order[l]], l);
        printf(setting[l] == 1 ? " yes" : " no");
    }
    printf("\n");
}

/* The first round that counts, or, where `counts` is 0, the first one that doesn't. */
static void write_example(size_t r, uint8_t counts)
{
    struct zt_example_answer found = zt_example(levels, count, level, SLOTS, then, SLOTS, els, SLOTS, next, SLOTS, heads, ZT_BUCKETS,
        roots[r], counts, setting, levels, work, ZT_WORK_ENTRIES(SLOTS));

    if (found.refusal != 0 && found.refusal != ZT_NO_SETTING)
        refuse(found.refusal, found.line);
    write_name(rootnames[r], rootlens[r], r);
    if (found.refusal == ZT_NO_SETTING) {
        printf(counts ? " never counts\n" : " always counts\n");
    } else {
        printf(counts ? " counts" : " does not count");
        write_round();
    }
}

int main(int argc, char **argv)
{
    struct zt_load_answer loaded;
    size_t len, r;

    if (argc != 3)
        fail("usage:", "walk FILE POINTS");
    len = read_file(argv[1]);
    read_levels(argv[2]);
    loaded = zt_load(file, len, list, levels, levels, &count, level, SLOTS, then, SLOTS, els, SLOTS, next, SLOTS, heads, ZT_BUCKETS,
        ids, ZT_VARIABLE_ENTRIES, order, ZT_VARIABLE_ENTRIES, permids, ZT_VARIABLE_ENTRIES, auxids, ZT_VARIABLE_ENTRIES,
        names, ZT_VARIABLE_ENTRIES, lens, ZT_VARIABLE_ENTRIES, roots, ZT_ROOT_ENTRIES, rootnames, ZT_ROOT_ENTRIES,
        rootlens, ZT_ROOT_ENTRIES, edges, MOST_BYTES, seats, MOST_BYTES, work, ZT_WORK_ENTRIES(SLOTS));
    if (loaded.refusal != 0)
        refuse(loaded.refusal, loaded.line);
    for (r = 0; r < loaded.nroots; r++) {
        write_example(r, 1);
        write_example(r, 0);
    }
    check_written();
    return 0;
}
