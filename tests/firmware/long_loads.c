/*
 * Stored loads of document 02's fifth request: long inputs, `02/05_long.tsv`, and a file with more nodes than edges of 16 bits can name,
 * `02/05_big.tsv`; and changed ones, which must be noticed.
 */
#include <stdlib.h>
#include <string.h>

#include "groups.h"
#include "report.h"

enum { LONG_COLUMNS = 7, BIG_COLUMNS = 6 };

/* What isn't noticed of a changed copy fails; it takes no second call. */
static void notices(const char *change)
{
    holds(failures_met() > 0, change);
}

/* Long inputs */

/* A file as bytes, a byte and how often it is repeated, and bytes. */
static struct bytes long_file(char **column)
{
    struct bytes start = bytes_in(column[0], strlen(column[0])), middle = bytes_in(column[1], strlen(column[1]));
    struct bytes end = bytes_in(column[3], strlen(column[3])), file;
    size_t times = (size_t)number_in(column[2]);

    file.len = start.len + times + end.len;
    file.at = room(file.len);
    memcpy(file.at, start.at, start.len);
    memset(file.at + start.len, middle.at[0], times);
    memcpy(file.at + start.len + times, end.at, end.len);
    free(start.at);
    free(middle.at);
    free(end.at);
    return file;
}

static void hold_long(const struct load *c, unsigned refusal, size_t line)
{
    holds(c->answer.refusal == refusal, "the refusal is the stored one");
    holds(c->answer.line == line, "the line is the stored one");
}

static void try_long(char **column)
{
    struct bytes file = long_file(column);
    unsigned refusal = (unsigned)number_in(column[4]);
    size_t line = (size_t)number_in(column[5]);
    struct store s = empty_store(0, 1);
    struct load c = load_of(file.at, file.len, NULL, 0, 0);

    call_load(&c, &s);
    hold_long(&c, refusal, line);
    expect_failures();
    hold_long(&c, refusal == 0 ? 19 : 0, line);
    notices("another refusal of a long input is noticed");
    expect_failures();
    hold_long(&c, refusal, line + 1);
    notices("another line of a long input is noticed");
    done_with(&c);
    drop_store(&s);
    free(file.at);
}

/* A tool that watches memory takes minutes over so many bytes, so only those that are too many are left to it. */
void try_long_loads(void)
{
    struct table t = open_table(vectors, "02/05_long.tsv");
    size_t cases = 0;

    for (; next_line(&t, LONG_COLUMNS, LONG_COLUMNS); cases++)
        if (!exact || number_in(t.columns[4]) == 19)
            try_long(t.columns);
    close_table(&t);
    group_done("02/05_long.tsv", cases);
}

/* A file of many nodes */

struct big_load {
    struct bytes file;
    struct store store;
    uint16_t *levels;
    /* what the load must give */
    unsigned refusal;
    size_t count;
    zt_edge *roots;
    size_t roots_len;
};

/* The file's permids are all its levels, in ascending order. */
static struct big_load read_big(char **column)
{
    struct big_load b;
    size_t l;

    b.file = read_bytes(vectors, "02/05_big.dddmp");
    b.store = empty_store((uint16_t)number_in(column[0]), (size_t)number_in(column[1]));
    b.levels = room(b.store.levels * sizeof *b.levels);
    for (l = 0; l < b.store.levels; l++)
        b.levels[l] = (uint16_t)l;
    b.refusal = (unsigned)number_in(column[2]);
    b.count = (size_t)number_in(column[3]);
    b.roots = edge_list(column[4], &b.roots_len);
    return b;
}

static void drop_big(struct big_load *b)
{
    free(b->file.at);
    free(b->levels);
    free(b->roots);
    drop_store(&b->store);
}

static void hold_big(const struct big_load *b, const struct load *c)
{
    holds(c->answer.refusal == b->refusal && c->answer.line == 0, "the refusal is the stored one");
    holds(b->store.count == b->count, "the count is the stored one");
    holds(c->answer.nroots == b->roots_len, "there are as many roots as are stored");
    holds(memcmp(roots_of(c), b->roots, b->roots_len * sizeof *b->roots) == 0, "the roots are the stored ones");
}

static void change_big(struct big_load *b, const struct load *c)
{
    expect_failures();
    b->count ^= 65536;
    hold_big(b, c);
    b->count ^= 65536;
    notices("another count is noticed");
    expect_failures();
    b->refusal ^= 40;
    hold_big(b, c);
    b->refusal ^= 40;
    notices("another refusal is noticed");
    if (b->roots_len > 0) {
        expect_failures();
        b->roots[b->roots_len - 1] ^= 65536;
        hold_big(b, c);
        b->roots[b->roots_len - 1] ^= 65536;
        notices("another root is noticed");
    }
}

static int is_file(const struct export *e, const struct bytes *file)
{
    return e->answer.refusal == 0 && e->answer.len == file->len && memcmp(e->out.at, file->at, file->len) == 0;
}

/* An export of the roots, as text and with no names, is the file again. */
static void export_big(const struct big_load *b)
{
    struct export e = export_of(&b->store, b->roots, b->roots_len, b->levels, b->store.levels);

    e.text = 1;
    call_export(&e, &b->store);
    holds(is_file(&e, &b->file), "the export is the file");
    b->file.at[b->file.len / 2] ^= 1;
    holds(!is_file(&e, &b->file), "another byte is noticed");
    b->file.at[b->file.len / 2] ^= 1;
    done_exporting(&e);
}

/* Some roots, at some settings, answer as the store says. */
static void evaluate_big(const struct big_load *b)
{
    uint8_t setting[ZT_MOST_LEVELS];
    size_t r, l;

    for (r = 0; r < b->roots_len; r += b->roots_len / 5 + 1) {
        for (l = 0; l < b->store.levels; l++)
            setting[l] = (uint8_t)((l * 7 + r) % 3 == 0);
        holds(call_evaluate(&b->store, b->roots[r], setting, b->store.levels).answer == answer_of(&b->store, b->roots[r], setting), "a root answers");
    }
}

static void try_big(char **column)
{
    struct big_load b = read_big(column);
    struct load c = load_of(b.file.at, b.file.len, b.levels, b.store.levels, scratch_for(&b.file));

    call_load(&c, &b.store);
    hold_big(&b, &c);
    change_big(&b, &c);
    if (b.refusal == 0) {
        export_big(&b);
        evaluate_big(&b);
    }
    done_with(&c);
    drop_big(&b);
}

void try_big_loads(void)
{
    struct table t = open_table(vectors, "02/05_big.tsv");
    size_t cases = 0;

    for (; next_line(&t, BIG_COLUMNS, BIG_COLUMNS); cases++)
        try_big(t.columns);
    close_table(&t);
    group_done("02/05_big.tsv", cases);
}
