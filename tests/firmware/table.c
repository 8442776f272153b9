#include "table.h"

#include <stdio.h>
#include <stdlib.h>
#include <string.h>

#include "report.h"

enum { MOST_PATH = 1000 };

static void join(const char *folder, const char *name, char *path)
{
    if (snprintf(path, MOST_PATH, "%s/%s", folder, name) >= MOST_PATH)
        stop("a path is too long");
}

int is_there(const char *folder, const char *name)
{
    char path[MOST_PATH];
    FILE *f;

    join(folder, name, path);
    f = fopen(path, "rb");
    return f != NULL && fclose(f) == 0;
}

struct bytes read_bytes(const char *folder, const char *name)
{
    char path[MOST_PATH];
    struct bytes b;
    FILE *f;
    long end = 0;

    join(folder, name, path);
    f = fopen(path, "rb");
    if (f == NULL || fseek(f, 0, SEEK_END) != 0 || (end = ftell(f)) < 0 || fseek(f, 0, SEEK_SET) != 0)
        stop(path);
    b.len = (size_t)end;
    b.at = room(b.len + 1);
    if (fread(b.at, 1, b.len, f) != b.len || fclose(f) != 0)
        stop(path);
    b.at[b.len] = 0;
    return b;
}

struct table open_table(const char *folder, const char *name)
{
    struct table t;

    memset(&t, 0, sizeof t);
    t.text = t.rest = (char *)read_bytes(folder, name).at;
    t.name = name;
    return t;
}

char *cut(char **rest, char mark)
{
    char *from = *rest, *end = strchr(from, mark);

    if (end == NULL) {
        *rest = from + strlen(from);
    } else {
        *end = 0;
        *rest = end + 1;
    }
    return from;
}

static size_t columns_of(struct table *t, char *line)
{
    size_t n = 1, i;
    char *at;

    for (at = line; *at != 0; at++)
        n += *at == '\t';
    if (n > MOST_COLUMNS)
        stop("too many columns");
    for (i = 0; i < n; i++)
        t->columns[i] = cut(&line, '\t');
    return n;
}

int next_line(struct table *t, size_t width, size_t other_width)
{
    if (*t->rest == 0)
        return 0;
    t->line++;
    case_is("%s line %zu", t->name, t->line);
    t->width = columns_of(t, cut(&t->rest, '\n'));
    if (t->width != width && t->width != other_width)
        stop("a line has another number of columns");
    return 1;
}

void close_table(struct table *t)
{
    free(t->text);
}

long number_in(const char *column)
{
    char *end;
    long n = strtol(column, &end, 10);

    if (end == column || (*end != 0 && *end != ',' && *end != ':'))
        stop("a number is none");
    return n;
}

static int is_none(const char *column)
{
    return strcmp(column, "-") == 0;
}

size_t entries_in(const char *column)
{
    size_t n = 1;

    if (is_none(column))
        return 0;
    for (; *column != 0; column++)
        n += *column == ',';
    return n;
}

/* The entry after this one; there must be one. */
static const char *entry_after(const char *entry)
{
    return strchr(entry, ',') + 1;
}

uint16_t *short_list(const char *column, size_t *count)
{
    size_t n = entries_in(column), i;
    uint16_t *list = room(n * sizeof *list);

    for (i = 0; i < n; i++) {
        list[i] = (uint16_t)number_in(column);
        if (i + 1 < n)
            column = entry_after(column);
    }
    *count = n;
    return list;
}

uint32_t *wide_list(const char *column, size_t *count)
{
    size_t n = entries_in(column), i;
    uint32_t *list = room(n * sizeof *list);

    for (i = 0; i < n; i++) {
        list[i] = (uint32_t)number_in(column);
        if (i + 1 < n)
            column = entry_after(column);
    }
    *count = n;
    return list;
}

zt_edge *edge_list(const char *column, size_t *count)
{
    return (zt_edge *)wide_list(column, count);
}

static uint8_t digit_in(char c)
{
    const char *digits = "0123456789abcdef", *at = c == 0 ? NULL : strchr(digits, c);

    if (at == NULL)
        stop("a hexadecimal digit is none");
    return (uint8_t)(at - digits);
}

struct bytes bytes_in(const char *column, size_t len)
{
    struct bytes b = {NULL, 0};
    size_t i;

    if ((len == 1 && *column == '-') || (len == 5 && strncmp(column, "empty", 5) == 0))
        len = 0;
    b.len = len / 2;
    b.at = room(b.len);
    for (i = 0; i < b.len; i++)
        b.at[i] = (uint8_t)(digit_in(column[2 * i]) * 16 + digit_in(column[2 * i + 1]));
    return b;
}

/* The byte that is spelled here. Moves behind it. */
static uint8_t spelled_byte(const char **at)
{
    static const char letters[] = "nrt", bytes[] = "\n\r\t";
    const char *from = *at, *letter;
    uint8_t high;

    *at += 1;
    if (*from != '\\')
        return (uint8_t)*from;
    *at += 1;
    if (from[1] == 'x') {
        high = digit_in(from[2]);
        *at += 2;
        return (uint8_t)(high * 16 + digit_in(from[3]));
    }
    letter = from[1] == 0 ? NULL : strchr(letters, from[1]);
    if (letter == NULL)
        stop("a byte isn't spelled as the document says");
    return (uint8_t)bytes[letter - letters];
}

/* How often the text is repeated that starts with `\*N(` here. Moves behind that. */
static size_t repeats_in(const char **at)
{
    char *end;
    unsigned long n = strtoul(*at + 2, &end, 10);

    if (*end != '(' || n == 0)
        stop("a repeated text isn't spelled as the document says");
    *at = end + 1;
    return (size_t)n;
}

/* Puts a byte at a place of `out`, where there is one. */
static void put(uint8_t *out, size_t at, uint8_t byte)
{
    if (out != NULL)
        out[at] = byte;
}

/* The bytes of a spelling into `out`, or only counted where that is NULL. A repeated text has no other one inside. */
static size_t spell(const char *column, uint8_t *out)
{
    size_t len = 0;

    while (*column != 0) {
        int repeated = column[0] == '\\' && column[1] == '*';
        size_t times = repeated ? repeats_in(&column) : 1, from = len, unit, end;

        do {
            put(out, len++, spelled_byte(&column));
            if (repeated && *column == 0)
                stop("a repeated text has no end");
        } while (repeated && *column != ')');
        column += repeated;
        unit = len - from;
        for (end = from + unit * times; len < end; len++)
            put(out, len, out == NULL ? 0 : out[len - unit]);
    }
    return len;
}

struct bytes spelled_in(const char *column)
{
    struct bytes b;

    b.len = spell(column, NULL);
    b.at = room(b.len);
    spell(column, b.at);
    return b;
}

void heads_in(const char *column, zt_index *heads, size_t heads_len)
{
    size_t n = entries_in(column), i;

    memset(heads, 0, heads_len * sizeof *heads);
    for (i = 0; i < n; i++) {
        size_t bucket = (size_t)number_in(column);

        if (bucket >= heads_len)
            stop("a bucket has no head");
        heads[bucket] = (zt_index)number_in(strchr(column, ':') + 1);
        if (i + 1 < n)
            column = entry_after(column);
    }
}

struct store store_in(char **columns)
{
    struct store s;

    s.levels = (uint16_t)number_in(columns[0]);
    s.count = (zt_index)number_in(columns[1]);
    s.level = short_list(columns[2], &s.level_len);
    s.then = edge_list(columns[3], &s.then_len);
    s.els = edge_list(columns[4], &s.els_len);
    s.next = wide_list(columns[5], &s.next_len);
    s.heads_len = (size_t)number_in(columns[6]);
    s.heads = room(s.heads_len * sizeof *s.heads);
    heads_in(columns[7], s.heads, s.heads_len);
    return s;
}

struct store store_after(char **columns, uint16_t levels)
{
    struct store s;

    s.levels = levels;
    s.count = (zt_index)number_in(columns[0]);
    s.level = short_list(columns[1], &s.level_len);
    s.then = edge_list(columns[2], &s.then_len);
    s.els = edge_list(columns[3], &s.els_len);
    s.next = wide_list(columns[4], &s.next_len);
    s.heads_len = ZT_BUCKETS;
    s.heads = room(s.heads_len * sizeof *s.heads);
    heads_in(columns[5], s.heads, s.heads_len);
    return s;
}

void add_nodes(struct store *s, const char *column)
{
    size_t n = entries_in(column), i;

    for (i = 0; i < n; i++) {
        const char *then = strchr(column, ':') + 1, *els = strchr(then, ':') + 1;

        if (s->count >= s->level_len)
            stop("a stored case has more nodes than slots");
        add_node(s, (uint16_t)number_in(column), (zt_edge)number_in(then), (zt_edge)number_in(els));
        if (i + 1 < n)
            column = strchr(column, ',') + 1;
    }
}
