#include "lent.h"

#include <stdlib.h>
#include <string.h>

#include "report.h"

enum { GUARD = 64, FILLING = 0xee };

int exact;
int null_where_empty;

static uint8_t guard_byte(size_t i)
{
    return (uint8_t)(0xa5 ^ (i * 37));
}

static size_t bytes_of(const struct lent *part)
{
    return part->entries * part->width;
}

static void set_guards(struct lent *part)
{
    size_t i;

    for (i = 0; i < GUARD; i++) {
        part->block[i] = guard_byte(i);
        part->block[GUARD + bytes_of(part) + i] = guard_byte(GUARD + i);
    }
}

static struct lent lend_unfilled(size_t entries, size_t width)
{
    struct lent part;

    part.entries = entries;
    part.width = width;
    part.before = NULL;
    if (exact) {
        part.block = entries == 0 ? NULL : room(entries * width);
        part.at = part.block;
        return part;
    }
    part.block = room(GUARD + entries * width + GUARD);
    part.at = entries == 0 && null_where_empty ? NULL : part.block + GUARD;
    set_guards(&part);
    return part;
}

struct lent lend(const void *content, size_t entries, size_t width)
{
    struct lent part = lend_unfilled(entries, width);

    part.before = room(entries * width);
    if (entries != 0) {
        memcpy(part.at, content, entries * width);
        memcpy(part.before, content, entries * width);
    }
    return part;
}

struct lent lend_room(size_t entries, size_t width)
{
    struct lent part = lend_unfilled(entries, width);

    if (!exact && entries != 0)
        memset(part.at, FILLING, entries * width);
    return part;
}

int guards_hold(const struct lent *part)
{
    size_t i;

    if (exact)
        return 1;
    for (i = 0; i < GUARD; i++)
        if (part->block[i] != guard_byte(i) || part->block[GUARD + bytes_of(part) + i] != guard_byte(GUARD + i))
            return 0;
    return 1;
}

int as_before(const struct lent *part)
{
    return part->entries == 0 || memcmp(part->at, part->before, bytes_of(part)) == 0;
}

int zeros_from(const struct lent *part, size_t entry)
{
    const uint8_t *bytes = part->at;
    size_t from = entry * part->width, all = bytes_of(part);

    /* the first byte is 0, and each is like the one before it */
    return from >= all || (bytes[from] == 0 && memcmp(bytes + from, bytes + from + 1, all - from - 1) == 0);
}

int all_as_before(const struct lent *parts, size_t from, size_t to)
{
    for (; from <= to; from++)
        if (!as_before(&parts[from]))
            return 0;
    return 1;
}

int all_zeros(const struct lent *parts, size_t from, size_t to)
{
    for (; from <= to; from++)
        if (!zeros_from(&parts[from], 0))
            return 0;
    return 1;
}

int all_alike(const struct lent *a, const struct lent *b, size_t from, size_t to)
{
    for (; from <= to; from++)
        if (a[from].entries != 0 && memcmp(a[from].at, b[from].at, bytes_of(&a[from])) != 0)
            return 0;
    return 1;
}

int all_guards_hold(const struct lent *parts, size_t count)
{
    size_t i;

    for (i = 0; i < count; i++)
        if (!guards_hold(&parts[i]))
            return 0;
    return 1;
}

void give_back(struct lent *parts, size_t count)
{
    size_t i;

    for (i = 0; i < count; i++) {
        free(parts[i].block);
        free(parts[i].before);
    }
}
