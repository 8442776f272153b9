#include "plans.h"

#include <stdarg.h>
#include <stdio.h>
#include <stdlib.h>
#include <string.h>

void give_up(const char *why)
{
    fflush(stdout);
    fprintf(stderr, "bench: %s\n", why);
    exit(2);
}

void *room_for(size_t entries, size_t width)
{
    void *room = calloc(entries == 0 ? 1 : entries, width);

    if (room == NULL)
        give_up("no memory");
    return room;
}

uint32_t draw(uint64_t *state)
{
    *state = *state * 6364136223846793005u + 1442695040888963407u;
    return (uint32_t)((*state ^ *state >> 22) >> 29);
}

static size_t below(uint64_t *state, size_t limit)
{
    return draw(state) % limit;
}

/* A set of nodes, by open addressing: 2 to the power of `bits` places. */
struct seen {
    unsigned bits;
    struct node *places;
};

/* Room for so many nodes, and at least as many places free. */
static struct seen seen_of(size_t count)
{
    struct seen s = {1, NULL};

    while ((size_t)1 << s.bits < 2 * count)
        s.bits++;
    s.places = room_for((size_t)1 << s.bits, sizeof *s.places);
    return s;
}

static int is_new(struct seen *s, struct node n)
{
    uint64_t key = ((uint64_t)n.level << 48) ^ ((uint64_t)(uint32_t)n.then << 24) ^ (uint32_t)n.els;
    size_t at = (size_t)(key * 0x9e3779b97f4a7c15u >> (64 - s->bits));

    while (s->places[at].then != 0) {
        if (s->places[at].level == n.level && s->places[at].then == n.then && s->places[at].els == n.els)
            return 0;
        at = (at + 1) % ((size_t)1 << s->bits);
    }
    s->places[at] = n;
    return 1;
}

struct plan room_for_plan(uint16_t levels, size_t count, size_t nroots)
{
    struct plan p;

    p.levels = levels;
    p.points = 0;
    p.count = count;
    p.nodes = room_for(count, sizeof *p.nodes);
    p.nroots = nroots;
    p.roots = room_for(nroots, sizeof *p.roots);
    return p;
}

void drop_plan(struct plan *p)
{
    free(p->nodes);
    free(p->roots);
}

/*
 * How many nodes are due when so many levels are done, from the deepest on: one for each level, and of the rest few at both ends and many
 * in the middle.
 */
static size_t due(size_t nodes, size_t done, size_t levels)
{
    double x = (double)done / (double)levels;

    return done + (size_t)(x * x * (3 - 2 * x) * (double)(nodes - levels) + 0.5);
}

enum { MOST_FREE_ROOTS = 256, EXTRA_ROOTS = 4 };

/* A child among lines 1 to `deeper`: every second one is near. */
static int32_t child(uint64_t *state, size_t deeper)
{
    size_t near = deeper / 8 < 256 ? 256 : deeper / 8;

    if (near < deeper && below(state, 2) == 0)
        return (int32_t)(deeper - below(state, near));
    return (int32_t)(1 + below(state, deeper));
}

struct plan random_plan(uint16_t levels, size_t count, uint64_t seed)
{
    struct plan p = room_for_plan(levels, count, MOST_FREE_ROOTS + EXTRA_ROOTS);
    struct seen seen = seen_of(count);
    /* nodes that no edge leads to yet, oldest first */
    int32_t *loose = room_for(count + 1, sizeof *loose);
    size_t first = 0, last = 0;
    uint64_t state = 0x5eed + 977 * (uint64_t)levels + 7919 * (uint64_t)count + 104729 * seed;
    size_t made = 1, k, i;

    for (k = 1; k <= levels; k++) {
        size_t deeper = made;                             /* lines up to this one are deeper */
        size_t most = deeper * (2 * deeper - 1) / 2 + 1;  /* half of the different nodes over them */
        size_t until = due(count - 1, k, levels) + 1;

        if (until > made + most)
            until = made + most;
        while (made < until) {
            struct node n;
            size_t taken = 0, many = 4 * (last - first) >= count - made;

            n.level = (uint16_t)(levels - k);
            n.then = child(&state, deeper);
            n.els = child(&state, deeper);
            if (first < last && (many || below(&state, 2) == 0))
                n.then = loose[first + taken++];
            if (first + taken < last && many)
                n.els = loose[first + taken++];
            if (below(&state, 2) == 0 || n.els == n.then)
                n.els = -n.els;
            if (!is_new(&seen, n))
                continue;
            first += taken;
            p.nodes[made++] = n;
        }
        for (i = deeper; i < made; i++)
            loose[last++] = (int32_t)(i + 1);
    }
    if (made != count || last - first > MOST_FREE_ROOTS)
        give_up("a generated diagram is not as it should be");
    p.nroots = 0;
    for (i = first; i < last; i++)
        p.roots[p.nroots++] = below(&state, 2) == 0 ? loose[i] : -loose[i];
    for (i = 0; i < EXTRA_ROOTS; i++)
        p.roots[p.nroots++] = i == 0 ? -1 : (int32_t)(1 + below(&state, count));
    free(seen.places);
    free(loose);
    return p;
}

struct plan parity_plan(uint16_t levels)
{
    struct plan p = room_for_plan(levels, (size_t)levels + 1, 1);
    int32_t i;

    for (i = 1; i <= levels; i++) {
        p.nodes[i].level = (uint16_t)(levels - i);
        p.nodes[i].then = i;
        p.nodes[i].els = -i;
    }
    p.roots[0] = -(int32_t)p.count;
    return p;
}

struct plan and_or_plan(uint16_t levels)
{
    struct plan p = room_for_plan(levels, (size_t)levels + 1, 1);
    uint64_t state = 0xa0d;
    int32_t i;

    for (i = 1; i <= levels; i++) {
        int is_and = i == 1 || draw(&state) % 2;

        p.nodes[i].level = (uint16_t)(levels - i);
        p.nodes[i].then = is_and ? i : 1;
        p.nodes[i].els = is_and ? -1 : i;
    }
    p.roots[0] = (int32_t)p.count;
    return p;
}

struct plan threshold_plan(uint16_t levels, size_t asked)
{
    struct plan p = room_for_plan(levels, 1 + asked * (levels - asked + 1), 1);
    /* lines by how many levels are still asked for: of the levels below, and as far as they are done of this one */
    int32_t *lines = room_for(asked + 1, sizeof *lines);
    size_t still, made = 1;
    uint16_t l = levels;

    for (still = 0; still <= asked; still++)
        lines[still] = still == 0 ? 1 : -1;
    while (l-- > 0)
        for (still = asked; still > 0 && still + l >= asked; still--) {
            struct node n = {l, lines[still - 1], lines[still]};

            if (n.then == n.els)
                continue;
            p.nodes[made++] = n;
            lines[still] = (int32_t)made;
        }
    if (made != p.count)
        give_up("a generated diagram is not as it should be");
    p.roots[0] = (int32_t)p.count;
    free(lines);
    return p;
}

/*
 * A zone's points, from the last on: where enough of them are yes `kept` is next, else `not_kept`. Answers the line of its first point. What can
 * go either way still, and can be reached, gets a line.
 */
static int32_t put_zone(struct plan *p, const struct site *s, size_t zone, int32_t kept, int32_t not_kept)
{
    /* lines by how many points are still asked for: of the points below, and as far as they are done of this one */
    int32_t *lines = room_for(s->asked + 1, sizeof *lines), first;
    size_t point, still;

    for (still = 0; still <= s->asked; still++)
        lines[still] = still == 0 ? kept : not_kept;
    for (point = s->points; point-- > 0;)
        for (still = s->asked; still > 0 && still + point >= s->asked; still--) {
            struct node n = {(uint16_t)(zone * s->points + point), lines[still - 1], lines[still]};

            if (n.then == n.els)
                continue;
            p->nodes[p->count++] = n;
            lines[still] = (int32_t)p->count;
        }
    first = lines[s->asked];
    free(lines);
    return first;
}

size_t site_nodes(const struct site *s)
{
    return 1 + s->asked_zones * (s->zones - s->asked_zones + 1) * s->asked * (s->points - s->asked + 1);
}

struct plan site_plan(const struct site *s)
{
    struct plan p = room_for_plan((uint16_t)(s->zones * s->points), site_nodes(s), s->zones);
    /* lines by how many zones are still asked for: of the zones below, and as far as they are done of this one */
    int32_t *lines = room_for(s->asked_zones + 1, sizeof *lines);
    size_t zone, still;

    p.points = (uint16_t)s->points;
    p.count = 1;
    for (still = 0; still <= s->asked_zones; still++)
        lines[still] = still == 0 ? 1 : -1;
    for (zone = s->zones; zone-- > 0;) {
        for (still = s->asked_zones; still > 0 && still + zone >= s->asked_zones; still--)
            if (lines[still - 1] != lines[still])
                lines[still] = put_zone(&p, s, zone, lines[still - 1], lines[still]);
        p.roots[zone] = (int32_t)p.count;
    }
    if (p.count != site_nodes(s))
        give_up("a generated diagram is not as it should be");
    free(lines);
    return p;
}

/* The bucket of a node, as the store's rules have it. */
static unsigned bucket(struct node n)
{
    return ((unsigned)n.level + 3 * (unsigned)n.then + 5 * (unsigned)n.els) % 256;
}

/* How many children give so many different nodes in one bucket, at all levels above them; a few more than that. */
static int32_t children_for(size_t count, size_t levels)
{
    size_t children = 40;

    while (2 * children * children * (levels - children) / 256 * 9 / 10 < count)
        children++;
    return (int32_t)children;
}

struct plan hostile_plan(size_t count, size_t again)
{
    enum { LEVELS = 4096 };
    struct plan p = room_for_plan(LEVELS, count, 1);
    int32_t children = children_for(count, LEVELS), t, e, sign;
    size_t made = 1, first = (size_t)children + 1, i;
    uint16_t l;

    for (i = 1; i < first; i++) {
        struct node n = {(uint16_t)(LEVELS - i), 1, -1};
        p.nodes[made++] = n;
    }
    for (t = 2; t <= children + 1; t++)
        for (e = 2; e <= children + 1; e++)
            for (sign = -1; sign <= 1; sign += 2)
                for (l = 0; l < LEVELS - children && made < count - again; l++) {
                    struct node n = {l, t, sign * e};

                    if (t == n.els || bucket(n) != 0)
                        continue;
                    p.nodes[made++] = n;
                }
    if (made != count - again)
        give_up("a generated diagram is not as it should be");
    for (i = 0; i < again; i++)
        p.nodes[made++] = p.nodes[first + i % (count - again - first)];
    p.roots[0] = (int32_t)count;
    return p;
}

static void put(struct file *f, uint8_t byte)
{
    if (f->len == f->room) {
        f->room = f->room == 0 ? 4096 : 2 * f->room;
        f->bytes = realloc(f->bytes, f->room);
        if (f->bytes == NULL)
            give_up("no memory");
    }
    f->bytes[f->len++] = byte;
}

static void put_text(struct file *f, const char *format, ...)
{
    char text[128];
    va_list values;
    int i;

    va_start(values, format);
    vsnprintf(text, sizeof text, format, values);
    va_end(values);
    for (i = 0; text[i] != 0; i++)
        put(f, (uint8_t)text[i]);
}

static void put_name(struct file *f, const struct plan *p, size_t variable)
{
    if (p->points == 0)
        put_text(f, " x%zu", variable);
    else
        put_text(f, " zone%zu.point%zu", variable / p->points, variable % p->points);
}

static void put_header(struct file *f, const struct plan *p, char mode)
{
    size_t i;

    put_text(f, ".ver DDDMP-2.0\n.mode %c\n.varinfo 4\n.nnodes %zu\n.nvars %u\n.nsuppvars %u\n", mode, p->count, p->levels, p->levels);
    put_text(f, ".orderedvarnames");
    for (i = 0; i < p->levels; i++)
        put_name(f, p, i);
    put_text(f, "\n.ids");
    for (i = 0; i < p->levels; i++)
        put_text(f, " %zu", i);
    put_text(f, "\n.permids");
    for (i = 0; i < p->levels; i++)
        put_text(f, " %zu", i);
    put_text(f, "\n.nroots %zu\n.rootids", p->nroots);
    for (i = 0; i < p->nroots; i++)
        put_text(f, " %d", (int)p->roots[i]);
    put_text(f, "\n.rootnames");
    for (i = 0; i < p->nroots; i++)
        put_text(f, " f%zu", i);
    put_text(f, "\n.nodes\n");
}

struct file text_file(const struct plan *p)
{
    struct file f = {NULL, 0, 0};
    size_t i;

    put_header(&f, p, 'A');
    put_text(&f, "1 T 0 0\n");
    for (i = 1; i < p->count; i++)
        put_text(&f, "%zu %u %d %d\n", i + 1, p->nodes[i].level, (int)p->nodes[i].then, (int)p->nodes[i].els);
    put_text(&f, ".end\n");
    return f;
}

static void put_escaped(struct file *f, uint8_t byte)
{
    static const uint8_t escaped[] = {0x00, 0x0a, 0x0d, 0x1a};
    uint8_t i;

    for (i = 0; i < 4; i++)
        if (byte == escaped[i]) {
            put(f, 0);
            put(f, i);
            return;
        }
    put(f, byte);
}

static void put_groups(struct file *f, uint32_t value)
{
    int shift = 28;

    while (shift > 0 && value >> shift == 0)
        shift -= 7;
    for (; shift >= 0; shift -= 7)
        put_escaped(f, (uint8_t)((value >> shift & 127) << 1 | (shift > 0)));
}

struct file binary_file(const struct plan *p)
{
    struct file f = {NULL, 0, 0};
    size_t i;

    put_header(&f, p, 'B');
    put_escaped(&f, 0);
    for (i = 1; i < p->count; i++) {
        struct node n = p->nodes[i];
        int32_t e = n.els < 0 ? -n.els : n.els;
        /* variable absolute; children absolute, or the terminal */
        unsigned code = 1 << 5 | (n.then != 1) << 3 | (n.els < 0) << 2 | (e != 1);

        put_escaped(&f, (uint8_t)code);
        put_groups(&f, n.level);
        if (n.then != 1)
            put_groups(&f, (uint32_t)n.then);
        if (e != 1)
            put_groups(&f, (uint32_t)e);
    }
    put_text(&f, ".end\n");
    return f;
}

struct file file_of(const uint8_t *bytes, size_t len)
{
    struct file f = {room_for(len, 1), len, len};

    memcpy(f.bytes, bytes, len);
    return f;
}

void drop_file(struct file *f)
{
    free(f->bytes);
}
