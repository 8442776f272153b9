/*
 * The stored exports of `large`: stores up to the largest, made by a rule, and names whose places overlap. Of each file its length is stored
 * and the digests of its blocks, and it is loaded again. tests/export/large_cases.py has the rule, and says what a case holds.
 */
#include <stdlib.h>
#include <string.h>

#include "groups.h"
#include "report.h"
#include "stored.h"

/* Numbers of a head, and the parts that follow it. */
enum {
    LEVELS, COUNT, SEED, WIDTH = 4, GAP, MORE_ROOTS, ORDER_STEP, ORDER_START, TEXT, VERSION_3, VARIABLE_STEP, VARIABLE_START, ROOT_STEP,
    ROOT_START, DIAGRAM, PINS, PLACES, SHORT, REFUSAL, NNODES, NROOTS, LEN, BLOCKS = 24, LARGE_NUMBERS = 32
};
enum { PART_GIVEN, PART_NAMES, PART_DIGESTS };
enum { BLOCK = 4096, TRIES = 20, NEAR = 200 };

/* A store while it is made. */
struct making {
    uint32_t x;
    struct store store;
    const uint16_t *pins;
    size_t pins_left;
    /* the level of the next node, and the lowest number of that level */
    long level;
    size_t first;
    /* by number: is it a node's child? All numbers from 2 to below `oldest` are. */
    uint8_t *child;
    size_t oldest;
};

static size_t draw(struct making *m, size_t n)
{
    m->x = (uint32_t)(1664525u * m->x + 1013904223u);
    return m->x / 65536 % n;
}

/* Some number below `first`. */
static zt_edge some_number(struct making *m)
{
    size_t below = m->first - 1;

    switch (draw(m, 4)) {
    case 0: return 1;
    case 1: return (zt_edge)below;
    case 2: return (zt_edge)(1 + draw(m, below));
    default: return (zt_edge)(below - draw(m, below < NEAR ? below : NEAR));
    }
}

/* The lowest number below `first` that is no node's child yet, or some number. */
static zt_edge childless(struct making *m)
{
    while (m->oldest < m->first && m->child[m->oldest])
        m->oldest++;
    return m->oldest < m->first ? (zt_edge)m->oldest : some_number(m);
}

static int is_stored(const struct store *s, uint16_t level, zt_edge then, zt_edge els)
{
    size_t n;

    for (n = s->heads[bucket_of(level, then, els)]; n != 0; n = s->next[n - 1])
        if (s->level[n - 1] == level && s->then[n - 1] == then && s->els[n - 1] == els)
            return 1;
    return 0;
}

static void rise(struct making *m, size_t n, size_t by)
{
    m->level -= (long)by;
    m->first = n;
}

static void add_next(struct making *m, size_t n, zt_edge then, zt_edge els)
{
    size_t vain = 0;

    while (then == els || is_stored(&m->store, (uint16_t)m->level, then, els)) {
        size_t kind;
        zt_edge a, b;

        if (vain++ == TRIES) {
            rise(m, n, 1);
            vain = 1;
        }
        kind = draw(m, 8);
        a = childless(m);
        b = some_number(m);
        then = kind < 2 ? b : a;
        els = kind < 2 ? a : b;
        if (kind % 2 == 1)
            els = (zt_edge)-els;
    }
    m->child[then] = m->child[magnitude_of(els)] = 1;
    add_node(&m->store, (uint16_t)m->level, then, els);
}

static void make_store(struct making *m, const uint16_t *head)
{
    int pinned = 0, after_pinned;
    size_t n;

    for (n = 2; n <= head[COUNT]; n++) {
        after_pinned = pinned;
        pinned = m->pins_left != 0 && m->pins[0] == n;
        if (n > 2 && (pinned || after_pinned || draw(m, head[WIDTH]) == 0))
            rise(m, n, 1 + draw(m, head[GAP]));
        add_next(m, n, pinned ? (int16_t)m->pins[1] : 0, pinned ? (int16_t)m->pins[2] : 0);
        if (pinned) {
            m->pins += 3;
            m->pins_left--;
        }
    }
}

/* The roots: all numbers that are no node's child, then some more. Answers how many. */
static size_t make_roots(struct making *m, size_t more, zt_edge *roots)
{
    size_t n, count = 0;

    for (n = m->store.count; n >= 2; n--)
        if (!m->child[n]) {
            roots[count] = (zt_edge)(count % 2 == 1 ? -(long)n : (long)n);
            count++;
        }
    for (; more > 0; more--) {
        long root = 1 + (long)draw(m, m->store.count);

        roots[count++] = (zt_edge)(draw(m, 2) == 1 ? -root : root);
    }
    return count;
}

/* A list of names: each is a place of the list of places. */
static size_t choose_places(const uint32_t *places, size_t places_len, size_t step, size_t start, size_t count, uint32_t **starts, uint32_t **lens)
{
    size_t i;

    *starts = room(count * sizeof **starts);
    *lens = room(count * sizeof **lens);
    for (i = 0; step != 0 && i < count; i++) {
        size_t place = (step * i + start) % places_len;

        (*starts)[i] = places[2 * place];
        (*lens)[i] = places[2 * place + 1];
    }
    return step != 0 ? count : 0;
}

static struct names choose_names(const uint16_t *head, const uint32_t *places, size_t roots_len, struct bytes bytes)
{
    size_t places_len = head[PLACES];
    struct names n;

    memset(&n, 0, sizeof n);
    n.bytes_len = bytes.len;
    n.bytes = take_bytes(&bytes, bytes.len).at;
    n.starts_len = n.lens_len = choose_places(places, places_len, head[VARIABLE_STEP], head[VARIABLE_START], head[LEVELS], &n.starts, &n.lens);
    n.rootstarts_len = n.rootlens_len = choose_places(places, places_len, head[ROOT_STEP], head[ROOT_START], roots_len, &n.rootstarts, &n.rootlens);
    if (head[DIAGRAM] != 0) {
        n.ddstart = places[2 * ((head[DIAGRAM] - 1) % places_len)];
        n.ddlen = places[2 * ((head[DIAGRAM] - 1) % places_len) + 1];
    }
    return n;
}

static uint16_t *choose_order(const uint16_t *head)
{
    uint16_t *order = room(head[LEVELS] * sizeof *order);
    size_t v;

    for (v = 0; v < head[LEVELS]; v++)
        order[v] = (uint16_t)((head[ORDER_STEP] * v + head[ORDER_START]) % head[LEVELS]);
    return order;
}

/* The store, the roots, the order, the names and the export of a case. */
static void make_export(const struct stored *c, struct export_vector *v)
{
    const uint16_t *head = c->head;
    struct bytes given = c->parts[PART_GIVEN];
    uint16_t *pins = take_list(&given, 3 * (size_t)head[PINS], 3 * (size_t)head[PINS]);
    uint32_t *places = take_wide_list(&given, 2 * (size_t)head[PLACES]);
    struct making m;
    size_t roots_len;

    take_no_more(&given);
    memset(&m, 0, sizeof m);
    m.x = wide_in(head + SEED);
    m.store = empty_store(head[LEVELS], head[COUNT]);
    m.pins = pins;
    m.pins_left = head[PINS];
    m.level = head[LEVELS] - 1;
    m.first = m.oldest = 2;
    m.child = room((size_t)head[COUNT] + 1);
    memset(m.child, 0, (size_t)head[COUNT] + 1);
    make_store(&m, head);
    v->store = m.store;
    v->roots = room(((size_t)head[COUNT] + head[MORE_ROOTS]) * sizeof *v->roots);
    roots_len = make_roots(&m, head[MORE_ROOTS], v->roots);
    v->order = choose_order(head);
    v->call = export_of(&v->store, v->roots, roots_len, v->order, head[LEVELS]);
    v->call.names = choose_names(head, places, roots_len, c->parts[PART_NAMES]);
    v->call.text = head[TEXT] == 1;
    v->call.version = head[VERSION_3] == 1;
    fit_output(&v->call, &v->store);
    v->call.out_len -= head[SHORT];
    v->refusal = head[REFUSAL];
    v->file.at = NULL;
    v->file.len = wide_in(head + LEN);
    free(m.child);
    free(places);
    free(pins);
}

/* CRC-32, as ISO 3309 and zlib have it. */
static uint32_t digest_of(const uint8_t *bytes, size_t len)
{
    static uint32_t table[256];
    uint32_t crc = 0xffffffff;
    size_t i, bit;

    for (i = 0; table[255] == 0 && i < 256; i++) {
        table[i] = (uint32_t)i;
        for (bit = 0; bit < 8; bit++)
            table[i] = table[i] % 2 == 1 ? table[i] / 2 ^ 0xedb88320 : table[i] / 2;
    }
    for (i = 0; i < len; i++)
        crc = table[(crc ^ bytes[i]) & 255] ^ crc / 256;
    return crc ^ 0xffffffff;
}

/* Has each block of the file the stored digest? These are of the Rust's file with its lines of one level in the order of first meeting. */
static int has_digests(const struct export *e, struct bytes part, size_t blocks)
{
    uint32_t *digests = take_wide_list(&part, blocks);
    const uint8_t *at = e->out.at;
    size_t left = e->answer.len, i;

    take_no_more(&part);
    for (i = 0; i < blocks && left > 0; i++) {
        size_t len = left < BLOCK ? left : BLOCK;

        if (digest_of(at, len) != digests[i])
            break;
        at += len;
        left -= len;
    }
    free(digests);
    return i == blocks && left == 0;
}

/* The number in the header's line that starts so. */
static unsigned long number_after(const struct export *e, const char *key)
{
    char header[1024];
    size_t len = e->answer.len < sizeof header - 1 ? e->answer.len : sizeof header - 1;
    const char *at;

    memcpy(header, e->out.at, len);
    header[len] = 0;
    at = strstr(header, key);
    return at == NULL ? 0 : strtoul(at + strlen(key), NULL, 10);
}

static void hold_large_export(const struct stored *c)
{
    struct export_vector v;
    struct export *e = &v.call;

    make_export(c, &v);
    call_export(e, &v.store);
    holds(e->answer.refusal == v.refusal, "the refusal is the stored one");
    if (v.refusal == 0) {
        holds(e->answer.len == v.file.len, "the file is as long as the stored one");
        holds(has_digests(e, c->parts[PART_DIGESTS], c->head[BLOCKS]), "the file's blocks have the stored digests");
    }
    if (e->answer.refusal == 0) {
        holds(number_after(e, "\n.nnodes ") == c->head[NNODES], "the file has the stored number of nodes");
        holds(e->roots_len == c->head[NROOTS], "there are as many roots as are stored");
        hold_back(&v.store, v.roots, e->roots_len, e->out.at, e->answer.len);
        hold_header_back(e, &v.store);
    }
    done_exporting(e);
    drop_export(&v);
}

void try_large_exports(void)
{
    static const struct replay large = {"large", LARGE_NUMBERS, hold_large_export};

    try_replay(&large);
}
