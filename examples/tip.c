/*
 * Loads a plan file and says of a round which one reading would have changed its answer:
 *
 *     tip FILE SETTING
 *
 * SETTING has a digit for each of the plan's points, its support variables: 1 where the point was read, else 0. For each root of the file a line is
 * written: whether the round counts, and the first point whose other reading alone would change that, by name. A refusal is written as `refused N
 * line M`, and the status is 1.
 *
 * With the plan beside this program,
 *
 *     tip plan.dddmp 01
 *
 * says first: `full does not count; gate would change that`. Where no point alone would, as at 00, it ends with `no single point would change that`.
 */
#include <stdio.h>
#include <stdlib.h>

#include "zonetweed.h"

enum { SLOTS = 4096, MOST_BYTES = 65536 };

/* The store: with count 1 and zeros in all lists it is empty. */
static zt_index count = 1, next[SLOTS], heads[ZT_BUCKETS];
static uint16_t level[SLOTS], levels;
static zt_edge then[SLOTS], els[SLOTS];

/*
 * What a load fills, and its scratch. A node line takes a byte or more, so no file that this program reads has more than MOST_BYTES of them; one that
 * says so is refused with 1. Scratch for every file there may be would be ZT_MOST_NODES entries.
 */
static uint32_t ids[ZT_VARIABLE_ENTRIES], order[ZT_VARIABLE_ENTRIES], permids[ZT_VARIABLE_ENTRIES], auxids[ZT_VARIABLE_ENTRIES];
static uint32_t names[ZT_VARIABLE_ENTRIES], lens[ZT_VARIABLE_ENTRIES];
static uint32_t rootnames[ZT_ROOT_ENTRIES], rootlens[ZT_ROOT_ENTRIES];
static zt_edge roots[ZT_ROOT_ENTRIES], edges[MOST_BYTES];
static uint16_t seats[MOST_BYTES];

/* Work for all nodes that the store can have. */
static zt_index work[ZT_WORK_ENTRIES(SLOTS)];

static uint8_t file[MOST_BYTES], setting[ZT_MOST_LEVELS];
static uint16_t list[ZT_MOST_LEVELS];

static void fail(const char *what, const char *name)
{
    fprintf(stderr, "tip: %s %s\n", what, name);
    exit(2);
}

/* Asked once, at the end, of all that was printed. */
static void check_written(void)
{
    if (fflush(stdout) != 0 || ferror(stdout))
        fail("can't write", "the answers");
}

static void refuse(uint8_t refusal, size_t line)
{
    printf("refused %u line %zu\n", refusal, line);
    check_written();
    exit(1);
}

static size_t read_file(const char *name)
{
    FILE *f = fopen(name, "rb");
    size_t len;

    if (f == NULL)
        fail("can't open", name);
    len = fread(file, 1, sizeof file, f);
    if (ferror(f))
        fail("can't read", name);
    if (len == sizeof file)
        fail("too long for this program:", name);
    if (fclose(f) != 0)
        fail("can't close", name);
    return len;
}

/* A digit is a level; the level list names all of them, in their order. What is neither 0 nor 1 is left for the library to refuse. */
static void read_setting(const char *text)
{
    for (levels = 0; text[levels] != 0; levels++) {
        if (levels == ZT_MOST_LEVELS)
            fail("too many points:", text);
        setting[levels] = (uint8_t)(text[levels] - '0');
        list[levels] = levels;
    }
}

/* A name that stands in the file; what has none is written by its number. */
static void write_name(uint32_t start, uint32_t len, size_t number)
{
    if (len == 0)
        printf("%zu", number);
    else
        fwrite(&file[start], 1, len, stdout);
}

/* The point at level l is the file's l-th support variable, variable order[l]. */
static void write_tip(size_t r)
{
    struct zt_evaluate_answer round = zt_evaluate(levels, count, level, SLOTS, then, SLOTS, els, SLOTS, next, SLOTS, heads, ZT_BUCKETS,
        roots[r], setting, levels, work, ZT_WORK_ENTRIES(SLOTS));
    struct zt_tip_answer tip = zt_tip(levels, count, level, SLOTS, then, SLOTS, els, SLOTS, next, SLOTS, heads, ZT_BUCKETS,
        roots[r], setting, levels, work, ZT_WORK_ENTRIES(SLOTS));

    if (tip.refusal != 0 && tip.refusal != ZT_NO_FLIP)
        refuse(tip.refusal, tip.line);
    write_name(rootnames[r], rootlens[r], r);
    printf(round.answer == 1 ? " counts; " : " does not count; ");
    if (tip.refusal == ZT_NO_FLIP)
        printf("no single point");
    else
        write_name(names[order[tip.level]], lens[order[tip.level]], tip.level);
    printf(" would change that\n");
}

int main(int argc, char **argv)
{
    struct zt_load_answer loaded;
    size_t len, r;

    if (argc != 3)
        fail("usage:", "tip FILE SETTING");
    len = read_file(argv[1]);
    read_setting(argv[2]);
    loaded = zt_load(file, len, list, levels, levels, &count, level, SLOTS, then, SLOTS, els, SLOTS, next, SLOTS, heads, ZT_BUCKETS,
        ids, ZT_VARIABLE_ENTRIES, order, ZT_VARIABLE_ENTRIES, permids, ZT_VARIABLE_ENTRIES, auxids, ZT_VARIABLE_ENTRIES,
        names, ZT_VARIABLE_ENTRIES, lens, ZT_VARIABLE_ENTRIES, roots, ZT_ROOT_ENTRIES, rootnames, ZT_ROOT_ENTRIES,
        rootlens, ZT_ROOT_ENTRIES, edges, MOST_BYTES, seats, MOST_BYTES, work, ZT_WORK_ENTRIES(SLOTS));
    if (loaded.refusal != 0)
        refuse(loaded.refusal, loaded.line);
    for (r = 0; r < loaded.nroots; r++)
        write_tip(r);
    check_written();
    return 0;
}
