#include "stored.h"

#include <stdio.h>
#include <stdlib.h>
#include <string.h>

#include "groups.h"
#include "report.h"

size_t step = 1;

/* The parts of a case */

/* The next bytes of a part, where they stand. */
static const uint8_t *take(struct bytes *part, size_t len)
{
    const uint8_t *at = part->at;

    if (part->len < len)
        stop("a stored case has too few bytes");
    part->at += len;
    part->len -= len;
    return at;
}

uint16_t take_number(struct bytes *part)
{
    const uint8_t *at = take(part, 2);

    return (uint16_t)(at[0] + 256 * at[1]);
}

struct bytes take_bytes(struct bytes *part, size_t len)
{
    struct bytes b;

    b.at = room(len);
    b.len = len;
    memcpy(b.at, take(part, len), len);
    return b;
}

uint16_t *take_list(struct bytes *part, size_t count, size_t len)
{
    uint16_t *list = room(len * sizeof *list);
    size_t i;

    memset(list, 0, len * sizeof *list);
    for (i = 0; i < count; i++) {
        uint16_t number = take_number(part);

        if (i < len)
            list[i] = number;
    }
    return list;
}

zt_edge *take_edges(struct bytes *part, size_t count, size_t len)
{
    uint16_t *numbers = take_list(part, count, len);
    zt_edge *edges = room(len * sizeof *edges);
    size_t i;

    for (i = 0; i < len; i++)
        edges[i] = (int16_t)numbers[i];
    free(numbers);
    return edges;
}

zt_index *take_indices(struct bytes *part, size_t count, size_t len)
{
    uint16_t *numbers = take_list(part, count, len);
    zt_index *indices = room(len * sizeof *indices);
    size_t i;

    for (i = 0; i < len; i++)
        indices[i] = numbers[i];
    free(numbers);
    return indices;
}

uint32_t wide_in(const uint16_t *head)
{
    return head[0] + 65536 * (uint32_t)head[1];
}

uint32_t *take_wide_list(struct bytes *part, size_t count)
{
    uint32_t *list = room(count * sizeof *list);
    uint16_t halves[2];
    size_t i;

    for (i = 0; i < count; i++) {
        halves[0] = take_number(part);
        halves[1] = take_number(part);
        list[i] = wide_in(halves);
    }
    return list;
}

struct store take_store(struct bytes *part, const uint16_t *head, size_t slots, size_t heads)
{
    struct store s;

    s.levels = head[0];
    s.count = head[1];
    s.level_len = head[2];
    s.then_len = head[3];
    s.els_len = head[4];
    s.next_len = head[5];
    s.heads_len = head[6];
    s.level = take_list(part, slots, s.level_len);
    s.then = take_edges(part, slots, s.then_len);
    s.els = take_edges(part, slots, s.els_len);
    s.next = take_indices(part, slots, s.next_len);
    s.heads = take_indices(part, heads, s.heads_len);
    return s;
}

void take_no_more(const struct bytes *part)
{
    if (part->len != 0)
        stop("a stored case has too many bytes");
}

/* The cases of a file */

enum next { CASE, NO_MORE, CUT, MISSING };

/* The next case of what is left of a file, or how the file ends. Its parts stand in the file's memory. */
static enum next next_stored(struct bytes *rest, size_t numbers, struct stored *c)
{
    size_t i;

    if (rest->len == 0)
        return NO_MORE;
    if (rest->len < 2 * numbers)
        return CUT;
    for (i = 0; i < numbers; i++)
        c->head[i] = take_number(rest);
    for (i = 0; i < STORED_PARTS; i++) {
        c->parts[i].at = rest->at;
        c->parts[i].len = wide_in(c->head + numbers - 2 * (STORED_PARTS - i));
        if (rest->len < c->parts[i].len)
            return CUT;
        take(rest, c->parts[i].len);
    }
    return CASE;
}

/* Does something not hold of a case? Of a falsified one that isn't written, and must be so. */
static int differs(const struct replay *r, const struct stored *c, int falsified)
{
    size_t before = failures();

    if (falsified)
        expect_failures();
    r->hold(c);
    return falsified ? holds(failures_met() > 0, "a falsified answer is noticed") : failures() > before;
}

/* How many cases were held, of how many something didn't hold, and how the file ends. */
struct tally {
    size_t cases, differ;
    enum next end;
};

static struct tally replay_cases(const struct replay *r, const char *name, struct bytes rest, int falsified)
{
    struct tally t = {0, 0, CASE};
    struct stored c;
    size_t number;

    for (number = 0; (t.end = next_stored(&rest, r->numbers, &c)) == CASE; number++) {
        if (number % step != 0)
            continue;
        case_is("%s/%s case %zu", r->folder, name, number);
        t.cases++;
        t.differ += (size_t)differs(r, &c, falsified);
    }
    return t;
}

/* Replays a file, which must end so, and writes what came of it. Answers how many cases were held. */
static size_t replay_file(const struct replay *r, const char *name, int falsified, enum next end)
{
    char folder[1000];
    struct bytes file;
    struct tally t;

    if (snprintf(folder, sizeof folder, "%s/%s", vectors, r->folder) >= (int)sizeof folder)
        stop("a path is too long");
    case_is("%s/%s", r->folder, name);
    if (!is_there(folder, name)) {
        printf("firmware: %s/%s: can't be opened\n", r->folder, name);
        holds(end == MISSING, "there is such a file");
        return 0;
    }
    file = read_bytes(folder, name);
    t = replay_cases(r, name, file, falsified);
    free(file.at);
    holds(t.end == end, "the file ends where it should");
    if (t.end == CUT)
        printf("firmware: %s/%s: cut off after %zu cases\n", r->folder, name, t.cases);
    else
        printf("firmware: %s/%s: %zu cases, %zu differ\n", r->folder, name, t.cases, t.differ);
    return t.cases;
}

void try_replay(const struct replay *r)
{
    size_t cases = replay_file(r, "cases.bin", 0, NO_MORE);

    if (!exact)
        cases += replay_file(r, "falsified.bin", 1, NO_MORE);
    cases += replay_file(r, "cut.bin", 0, CUT);
    cases += replay_file(r, "missing.bin", 0, MISSING);
    group_done(r->folder, cases);
}
