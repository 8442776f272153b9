/* Stored exports: `export.tsv`, whose names are texts, and the tables of `02`, whose names are places in lent bytes. */
#include <stdlib.h>
#include <string.h>

#include "groups.h"
#include "report.h"

enum { EXPORT_COLUMNS = 19, PLACED_COLUMNS = 27 };

/* Adds the names of a column by the function for their kind. */
static void add_names(struct names *n, const char *column, void (*add)(struct names *, const void *, size_t))
{
    size_t count = entries_in(column), i;

    for (i = 0; i < count; i++) {
        size_t digits = strcspn(column, ",");
        struct bytes name = bytes_in(column, digits);

        add(n, name.at, name.len);
        free(name.at);
        column += i + 1 < count ? digits + 1 : 0;
    }
}

static struct names names_in(char **column)
{
    size_t bytes = strlen(column[0]) + strlen(column[1]) + strlen(column[2]);
    struct names n = room_for_names(bytes, entries_in(column[0]), entries_in(column[1]));

    add_names(&n, column[0], name_variable);
    add_names(&n, column[1], name_root);
    if (strcmp(column[2], "-") != 0)
        add_names(&n, column[2], name_diagram);
    return n;
}

static void read_named(char **column, struct export_vector *v)
{
    v->call.text = *column[0] == 'A';
    v->call.version = *column[1] == '3';
    v->call.names = names_in(column + 2);
    v->call.out_len = (size_t)number_in(column[5]);
    v->call.slots_len = v->call.numbers_len = (size_t)number_in(column[6]);
    v->refusal = (unsigned)number_in(column[7]);
    v->file = bytes_in(column[8], strlen(column[8]));
    v->file_len = v->file.len;
}

/* The lent bytes; starts and lengths of the variables' names and of the roots'; start and length of the diagram's. */
static struct names places_in(char **column)
{
    struct bytes lent = bytes_in(column[0], strlen(column[0]));
    struct names n;

    n.bytes = lent.at;
    n.bytes_len = lent.len;
    n.starts = wide_list(column[1], &n.starts_len);
    n.lens = wide_list(column[2], &n.lens_len);
    n.rootstarts = wide_list(column[3], &n.rootstarts_len);
    n.rootlens = wide_list(column[4], &n.rootlens_len);
    n.ddstart = (uint32_t)number_in(column[5]);
    n.ddlen = (uint32_t)number_in(column[6]);
    return n;
}

static void read_placed(char **column, struct export_vector *v)
{
    v->call.text = number_in(column[0]) == 1;
    v->call.version = number_in(column[1]) == 3;
    if (number_in(column[2]) != 0)
        stop("a stored export is lenient");
    v->call.names = places_in(column + 3);
    v->call.out_len = (size_t)number_in(column[10]);
    v->call.slots_len = (size_t)number_in(column[11]);
    v->call.numbers_len = (size_t)number_in(column[12]);
    v->refusal = (unsigned)number_in(column[13]);
    v->file_len = (size_t)number_in(column[14]);
    v->file = bytes_in(column[15], strlen(column[15]));
}

int next_export(struct table *t, struct export_vector *v)
{
    size_t roots_len, order_len;

    if (!next_line(t, EXPORT_COLUMNS, PLACED_COLUMNS))
        return 0;
    v->store = store_in(t->columns);
    v->roots = edge_list(t->columns[8], &roots_len);
    v->order = short_list(t->columns[9], &order_len);
    v->call = export_of(&v->store, v->roots, roots_len, v->order, order_len);
    if (t->width == PLACED_COLUMNS)
        read_placed(t->columns + 10, v);
    else
        read_named(t->columns + 10, v);
    return 1;
}

static int has_bytes(const struct export *e, const struct bytes *file)
{
    return e->answer.len == file->len && (file->len == 0 || memcmp(e->out.at, file->at, file->len) == 0);
}

/* Document 02 leaves nothing of a file open, so bytes are compared as they are. */
void hold_export(struct export_vector *v)
{
    struct export *e = &v->call;

    call_export(e, &v->store);
    holds(e->answer.refusal == v->refusal, "the refusal is the stored one");
    holds(e->answer.len == v->file_len, "the file has the stored length");
    holds(has_bytes(e, &v->file), "the file is the stored one, byte for byte");
    if (e->answer.refusal == 0) {
        hold_back(&v->store, v->roots, e->roots_len, e->out.at, e->answer.len);
        hold_header_back(e, &v->store);
    }
    done_exporting(e);
}

void drop_export(struct export_vector *v)
{
    drop_store(&v->store);
    drop_names(&v->call.names);
    free(v->roots);
    free(v->order);
    free(v->file.at);
}
