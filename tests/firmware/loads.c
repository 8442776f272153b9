/* Stored loads: `load.tsv` and `inputs.tsv`, into an empty store, and `room.tsv`, into a store that may hold nodes already. */
#include <stdlib.h>
#include <string.h>

#include "groups.h"
#include "report.h"

enum { LOAD_COLUMNS = 9, INPUT_COLUMNS = 12, ROOM_REFUSED_COLUMNS = 15, ROOM_COLUMNS = 21 };

int has_answers(const struct load_vector *v)
{
    return v->refusal == 0 && strcmp(v->answers, "-") != 0;
}

void setting_of(size_t k, size_t levels, uint8_t *setting)
{
    size_t l;

    for (l = 0; l < levels; l++)
        setting[l] = (uint8_t)(k >> l & 1);
}

/* The number at a place of a file, or more than there may be where it has many digits. */
static size_t number_at(const struct bytes *file, size_t i)
{
    size_t n = 0;

    for (; i < file->len && file->at[i] >= '0' && file->at[i] <= '9' && n <= ZT_MOST_NODES; i++)
        n = 10 * n + (size_t)(file->at[i] - '0');
    return n;
}

size_t scratch_for(const struct bytes *file)
{
    static const char key[] = ".nnodes ";
    size_t len = strlen(key), i;

    for (i = 0; i + len < file->len; i++)
        if (memcmp(file->at + i, key, len) == 0 && number_at(file, i + len) > ENOUGH_LINES)
            return ZT_MOST_NODES;
    return ENOUGH_LINES;
}

static void read_load(char **column, struct load_vector *v)
{
    v->before = empty_store((uint16_t)number_in(column[1]), (size_t)number_in(column[3]));
    v->list = short_list(column[2], &v->list_len);
    fit_outputs(v->lens, scratch_for(&v->file));
    v->refusal = (unsigned)number_in(column[4]);
    v->line = (size_t)number_in(column[5]);
    v->roots = edge_list(column[6], &v->roots_len);
    v->after = copy_of(&v->before);
    add_nodes(&v->after, column[7]);
    v->answers = column[8];
}

/* The list that is too short is another one for each line. */
static void read_room(char **column, size_t line, struct load_vector *v)
{
    size_t lists = LOAD_ROOTLENS - LOAD_IDS + 1;

    v->before = store_in(column + 1);
    v->list = short_list(column[9], &v->list_len);
    fit_outputs(v->lens, (size_t)number_in(column[10]));
    if (strcmp(column[11], "short") == 0)
        v->lens[LOAD_IDS + line % lists]--;
    v->refusal = (unsigned)number_in(column[12]);
    v->line = (size_t)number_in(column[13]);
    v->roots = edge_list(column[14], &v->roots_len);
    v->after = v->refusal == 0 ? store_after(column + 15, v->before.levels) : copy_of(&v->before);
    v->answers = "-";
}

static struct bytes file_named(const char *name)
{
    char folder[1000];

    if (strlen(vectors) + sizeof "/files" > sizeof folder)
        stop("a path is too long");
    strcpy(folder, vectors);
    strcat(folder, "/files");
    return read_bytes(folder, name);
}

int next_load(struct table *t, struct load_vector *v)
{
    int rooms = strcmp(t->name, "room.tsv") == 0, spelled = strcmp(t->name, "inputs.tsv") == 0;
    size_t width = rooms ? ROOM_REFUSED_COLUMNS : spelled ? INPUT_COLUMNS : LOAD_COLUMNS;

    if (!next_line(t, width, rooms ? ROOM_COLUMNS : width))
        return 0;
    v->file = spelled ? spelled_in(t->columns[0]) : file_named(t->columns[0]);
    if (rooms)
        read_room(t->columns, t->line, v);
    else
        read_load(t->columns, v);
    return 1;
}

void drop_load(struct load_vector *v)
{
    free(v->file.at);
    free(v->list);
    free(v->roots);
    drop_store(&v->before);
    drop_store(&v->after);
}
