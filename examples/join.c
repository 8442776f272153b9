/*
 * Joins the plans of two tenants into one plan for their site:
 *
 *     join FILE LEVELS FILE LEVELS
 *
 * LEVELS has a digit for each support variable of the file: the levels that its doors have at the site, in ascending order. The first root of
 * each plan is taken, and their and is written as a file of text, with one root, `both`: a round counts where it counts for both tenants. A
 * refusal is written as `refused N line M: WHERE`, where WHERE is a file, `join` or `export`, and the status is 1.
 *
 * With the two plans beside this program,
 *
 *     join north.dddmp 013 south.dddmp 023
 *
 * the site has the doors gate, dock, yard and office, at the levels 0 to 3. Gate and office are shared. For the tenant in the north a round counts
 * with gate locked, and dock or office; for the one in the south with yard locked, and gate locked or office open. The joined plan, both.dddmp,
 * says: gate and yard locked, and dock or office.
 */
#include <stdio.h>
#include <stdlib.h>
#include <string.h>

#include "zonetweed.h"

enum { SLOTS = 4096, MOST_BYTES = 65536, MOST_DOORS = 10, MOST_OUT = 1024 + 32 * SLOTS + 4 * MOST_BYTES };

/* The store: with count 1 and zeros in all lists it is empty. */
static zt_index count = 1, next[SLOTS], heads[ZT_BUCKETS];
static uint16_t level[SLOTS];
static zt_edge then[SLOTS], els[SLOTS];

/*
 * What a load fills, and its scratch. A node line takes a byte or more, so no file that this program reads has more than MOST_BYTES of them; one that
 * says so is refused with 1. Scratch for every file there may be would be ZT_MOST_NODES entries.
 */
static uint32_t ids[ZT_VARIABLE_ENTRIES], order[ZT_VARIABLE_ENTRIES], permids[ZT_VARIABLE_ENTRIES], auxids[ZT_VARIABLE_ENTRIES];
static uint32_t names[ZT_VARIABLE_ENTRIES], lens[ZT_VARIABLE_ENTRIES];
static uint32_t rootnames[ZT_ROOT_ENTRIES], rootlens[ZT_ROOT_ENTRIES];
static zt_edge roots[ZT_ROOT_ENTRIES], edges[MOST_BYTES];
static uint16_t seats[MOST_BYTES];

/* Work for all nodes that the store can have, and a cache with room for as many results. */
static zt_index work[ZT_WORK_ENTRIES(SLOTS)];
static zt_edge cache[ZT_CACHE_ENTRIES(SLOTS)];

/* Marks and output of an export. */
static zt_index slots[SLOTS], numbers[SLOTS];
static uint8_t out[MOST_OUT];

/* Both files, one after the other, and the new root's name: all names are places in these bytes. */
static uint8_t bytes[MOST_BYTES];
static size_t used;

/* The doors of the site, by level: their names. */
static uint32_t doors[MOST_DOORS], doorlens[MOST_DOORS];
static uint16_t levels;

struct plan {
    const char *name;
    size_t start, len;
    uint16_t list[MOST_DOORS];
    size_t list_len;
};

static void fail(const char *what, const char *name)
{
    fprintf(stderr, "join: %s %s\n", what, name);
    exit(2);
}

static void check(uint8_t refusal, size_t line, const char *where)
{
    if (refusal == 0)
        return;
    if (printf("refused %u line %zu: %s\n", refusal, line, where) < 0 || fflush(stdout) != 0)
        fail("can't write", "the refusal");
    exit(1);
}

static void read_file(struct plan *p)
{
    FILE *f = fopen(p->name, "rb");

    if (f == NULL)
        fail("can't open", p->name);
    p->start = used;
    p->len = fread(&bytes[used], 1, sizeof bytes - used, f);
    used += p->len;
    if (ferror(f))
        fail("can't read", p->name);
    if (used == sizeof bytes)
        fail("too long for this program:", p->name);
    if (fclose(f) != 0)
        fail("can't close", p->name);
}

/* The site has as many levels as the highest one of a plan asks for. */
static struct plan read_plan(const char *name, const char *digits)
{
    struct plan p;
    size_t i;

    p.name = name;
    p.list_len = strlen(digits);
    if (p.list_len > MOST_DOORS || strspn(digits, "0123456789") != p.list_len)
        fail("no levels:", digits);
    for (i = 0; i < p.list_len; i++) {
        p.list[i] = (uint16_t)(digits[i] - '0');
        levels = p.list[i] < levels ? levels : (uint16_t)(p.list[i] + 1);
    }
    read_file(&p);
    return p;
}

/* The first root of a plan. Its i-th support variable is variable order[i] of the file, and the door at level list[i]. */
static zt_edge load(const struct plan *p)
{
    struct zt_load_answer a = zt_load(&bytes[p->start], p->len, p->list, p->list_len, levels, &count, level, SLOTS, then, SLOTS, els, SLOTS,
        next, SLOTS, heads, ZT_BUCKETS, ids, ZT_VARIABLE_ENTRIES, order, ZT_VARIABLE_ENTRIES, permids, ZT_VARIABLE_ENTRIES,
        auxids, ZT_VARIABLE_ENTRIES, names, ZT_VARIABLE_ENTRIES, lens, ZT_VARIABLE_ENTRIES, roots, ZT_ROOT_ENTRIES,
        rootnames, ZT_ROOT_ENTRIES, rootlens, ZT_ROOT_ENTRIES, edges, MOST_BYTES, seats, MOST_BYTES, work, ZT_WORK_ENTRIES(SLOTS));
    size_t i;

    check(a.refusal, a.line, p->name);
    if (a.nroots == 0)
        fail("no root in", p->name);
    for (i = 0; i < a.nsuppvars; i++) {
        doors[p->list[i]] = (uint32_t)p->start + names[order[i]];
        doorlens[p->list[i]] = lens[order[i]];
    }
    return roots[0];
}

static zt_edge join(zt_edge left, zt_edge right)
{
    struct zt_join_answer a = zt_and(levels, &count, level, SLOTS, then, SLOTS, els, SLOTS, next, SLOTS, heads, ZT_BUCKETS, left, right,
        cache, ZT_CACHE_ENTRIES(SLOTS), work, ZT_WORK_ENTRIES(SLOTS));

    check(a.refusal, a.line, "join");
    return a.root;
}

/* Variables are the doors in the order of their levels. */
static size_t export(zt_edge root)
{
    static const char both[] = "both";
    uint32_t start = (uint32_t)used, len = sizeof both - 1;
    uint16_t variables[MOST_DOORS], v;
    struct zt_export_answer a;

    if (sizeof bytes - used < len)
        fail("no room for the name", both);
    memcpy(&bytes[used], both, len);
    for (v = 0; v < levels; v++)
        variables[v] = v;
    a = zt_export(0, 1, 0, 0, levels, count, level, SLOTS, then, SLOTS, els, SLOTS, next, SLOTS, heads, ZT_BUCKETS, &root, 1,
        variables, levels, bytes, used + len, doors, levels, doorlens, levels, &start, 1, &len, 1, slots, SLOTS, numbers, SLOTS,
        out, MOST_OUT, work, ZT_WORK_ENTRIES(SLOTS));
    check(a.refusal, a.line, "export");
    return a.len;
}

int main(int argc, char **argv)
{
    struct plan left, right;
    zt_edge a, b;
    size_t len;

    if (argc != 5)
        fail("usage:", "join FILE LEVELS FILE LEVELS");
    left = read_plan(argv[1], argv[2]);
    right = read_plan(argv[3], argv[4]);
    a = load(&left);
    b = load(&right);
    len = export(join(a, b));
    if (fwrite(out, 1, len, stdout) != len || fflush(stdout) != 0)
        fail("can't write", "the plan");
    return 0;
}
