/* The stored exports of `exports`: every byte that each writes, and what comes back when the file is loaded again. */
#include "groups.h"
#include "stored.h"

/* Numbers of a head, after those of the store, and the parts that follow it. */
enum {
    ROOTS_LEN = 7, ORDER_LEN, STARTS_LEN, LENS_LEN, ROOTSTARTS_LEN, ROOTLENS_LEN, SLOTS_LEN, NUMBERS_LEN, TEXT, VERSION_3, DIAGRAM_START,
    DIAGRAM_LEN = 19, OUT_LEN = 21, SLOTS_GIVEN = 23, HEADS_GIVEN, REFUSAL, EXPORT_NUMBERS = 32
};
enum { PART_GIVEN, PART_NAMES, PART_FILE };

static struct names read_names(const uint16_t *head, struct bytes *given, struct bytes bytes)
{
    struct names n;

    n.starts_len = head[STARTS_LEN];
    n.lens_len = head[LENS_LEN];
    n.rootstarts_len = head[ROOTSTARTS_LEN];
    n.rootlens_len = head[ROOTLENS_LEN];
    n.starts = take_wide_list(given, n.starts_len);
    n.lens = take_wide_list(given, n.lens_len);
    n.rootstarts = take_wide_list(given, n.rootstarts_len);
    n.rootlens = take_wide_list(given, n.rootlens_len);
    n.bytes_len = bytes.len;
    n.bytes = take_bytes(&bytes, bytes.len).at;
    n.ddstart = wide_in(head + DIAGRAM_START);
    n.ddlen = wide_in(head + DIAGRAM_LEN);
    return n;
}

static void read_export(const struct stored *c, struct export_vector *v)
{
    const uint16_t *head = c->head;
    struct bytes given = c->parts[PART_GIVEN], file = c->parts[PART_FILE];

    v->store = take_store(&given, head, head[SLOTS_GIVEN], head[HEADS_GIVEN]);
    v->roots = take_edges(&given, head[ROOTS_LEN], head[ROOTS_LEN]);
    v->order = take_list(&given, head[ORDER_LEN], head[ORDER_LEN]);
    v->call = export_of(&v->store, v->roots, head[ROOTS_LEN], v->order, head[ORDER_LEN]);
    v->call.names = read_names(head, &given, c->parts[PART_NAMES]);
    take_no_more(&given);
    v->call.text = head[TEXT] == 1;
    v->call.version = head[VERSION_3] == 1;
    v->call.slots_len = head[SLOTS_LEN];
    v->call.numbers_len = head[NUMBERS_LEN];
    v->call.out_len = wide_in(head + OUT_LEN);
    v->refusal = head[REFUSAL];
    v->file = take_bytes(&file, file.len);
    v->file_len = v->file.len;
}

static void hold_stored_export(const struct stored *c)
{
    struct export_vector v;

    read_export(c, &v);
    hold_export(&v);
    drop_export(&v);
}

void try_stored_exports(void)
{
    static const struct replay exports = {"exports", EXPORT_NUMBERS, hold_stored_export};

    try_replay(&exports);
}
