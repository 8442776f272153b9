/* Files of text with two lines of one level swapped. */
#include <stdio.h>
#include <string.h>

#include "groups.h"
#include "report.h"

/* The bytes up to a mark, or all that are left. Moves behind the mark. */
static struct bytes part_at(const struct bytes *text, size_t *at, char mark)
{
    struct bytes part;
    uint8_t *end;

    part.at = text->at + *at;
    end = memchr(part.at, mark, text->len - *at);
    part.len = end == NULL ? text->len - *at : (size_t)(end - part.at);
    *at += part.len + (end != NULL);
    return part;
}

static int starts_with(const struct bytes *line, const char *text)
{
    return line->len >= strlen(text) && memcmp(line->at, text, strlen(text)) == 0;
}

/* The second word of a node line: the variable's position. */
static struct bytes position_of(const struct bytes *line)
{
    size_t at = 0;

    part_at(line, &at, ' ');
    return part_at(line, &at, ' ');
}

static int same_position(const struct bytes *a, const struct bytes *b)
{
    struct bytes x = position_of(a), y = position_of(b);

    return x.len > 0 && x.len == y.len && memcmp(x.at, y.at, x.len) == 0;
}

/* Where the node lines start; the file's end where there are none. */
static size_t nodes_at(const struct bytes *file)
{
    size_t at = 0;

    while (at < file->len) {
        struct bytes line = part_at(file, &at, '\n');

        if (starts_with(&line, ".nodes"))
            break;
    }
    return at;
}

/* The number of the first line whose next one has the same level; 0 where there is none. */
static size_t first_of_two(const struct bytes *file, size_t at)
{
    struct bytes before = {NULL, 0};
    size_t number;

    for (number = 0; at < file->len; number++) {
        struct bytes line = part_at(file, &at, '\n');

        if (number > 0 && same_position(&before, &line))
            return number;
        before = line;
    }
    return 0;
}

static void put(struct bytes *out, const struct bytes *part)
{
    memcpy(out->at + out->len, part->at, part->len);
    out->len += part->len;
}

/* An edge or a number, where `low` and the number after it change places. */
static void put_number(struct bytes *out, const struct bytes *word, size_t low)
{
    int minus = word->len > 0 && word->at[0] == '-';
    size_t n = 0, i;

    for (i = (size_t)minus; i < word->len; i++)
        n = 10 * n + (size_t)(word->at[i] - '0');
    n = n == low ? low + 1 : n == low + 1 ? low : n;
    out->len += (size_t)sprintf((char *)out->at + out->len, "%s%zu", minus ? "-" : "", n);
}

/* A line of numbers. The word at this index, counted from 0, stays as it is. */
static void put_numbers(struct bytes *out, const struct bytes *line, size_t kept, size_t low)
{
    size_t at = 0, index;

    for (index = 0; at < line->len; index++) {
        struct bytes word = part_at(line, &at, ' ');

        if (index > 0)
            out->at[out->len++] = ' ';
        if (index == kept)
            put(out, &word);
        else
            put_number(out, &word, low);
    }
    out->at[out->len++] = '\n';
}

static void put_header(struct bytes *out, const struct bytes *file, size_t end, size_t low)
{
    static const struct bytes line_end = {(uint8_t *)"\n", 1};
    size_t at = 0;

    while (at < end) {
        struct bytes line = part_at(file, &at, '\n');

        if (starts_with(&line, ".rootids")) {
            put_numbers(out, &line, 0, low);
        } else {
            put(out, &line);
            put(out, &line_end);
        }
    }
}

/* The first of the two lines waits for the second. */
static void put_nodes(struct bytes *out, const struct bytes *file, size_t at, size_t low)
{
    struct bytes first = {NULL, 0}, line;
    size_t number;

    for (number = 1; at < file->len; number++) {
        line = part_at(file, &at, '\n');
        if (number == low)
            first = line;
        else if (starts_with(&line, "."))
            put(out, &line);
        else
            put_numbers(out, &line, 1, low);
        if (number == low + 1)
            put_numbers(out, &first, 1, low);
    }
    out->at[out->len++] = '\n';
}

struct bytes swapped_lines(const struct bytes *file)
{
    struct bytes out = {NULL, 0};
    size_t at = nodes_at(file), low = first_of_two(file, at);

    if (low == 0)
        return out;
    out.at = room(2 * file->len + 1);
    put_header(&out, file, at, low);
    put_nodes(&out, file, at, low);
    return out;
}
