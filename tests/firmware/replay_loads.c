/* The stored loads of `loads`: what each gives and leaves. */
#include <stdlib.h>

#include "groups.h"
#include "report.h"
#include "stored.h"

/* Numbers of a head, after those of the store, and the parts that follow it. */
enum { LIST_LEN = 7, EDGES_LEN, SEATS_LEN, VARIABLE_LEN, ROOT_LEN, SLOTS_GIVEN, HEADS_GIVEN, LOAD_NUMBERS = 20 };
enum { PART_FILE, PART_GIVEN, PART_ANSWER };

enum { MOST_TABLE_LEVELS = 8, TABLE_NUMBERS = 16 };

/* What stands for as much scratch as any file needs: more than a number of 16 bits. */
enum { ALL = 65535 };

static void lens_in(const uint16_t *head, size_t *lens)
{
    size_t p;

    fit_outputs(lens, 0);
    for (p = LOAD_IDS; p <= LOAD_LENS; p++)
        lens[p] = head[VARIABLE_LEN];
    for (p = LOAD_ROOTS; p <= LOAD_ROOTLENS; p++)
        lens[p] = head[ROOT_LEN];
    lens[LOAD_EDGES] = head[EDGES_LEN] == ALL ? ZT_MOST_NODES : head[EDGES_LEN];
    lens[LOAD_SEATS] = head[SEATS_LEN] == ALL ? ZT_MOST_NODES : head[SEATS_LEN];
}

/*
 * The store that a load must leave: its nodes are stored, slot 1 included, and links and heads follow from them by document 01. A falsified
 * case may have more nodes than slots: its store is longer than the one that was lent, and so another one.
 */
static struct store store_with(struct bytes *answer, const struct store *before, size_t count)
{
    size_t slots = count > before->level_len ? count : before->level_len, n;
    struct store s = empty_store(before->levels, slots);
    uint16_t *level = take_list(answer, count, slots);
    zt_edge *then = take_edges(answer, count, slots), *els = take_edges(answer, count, slots);

    for (n = 1; n < count; n++)
        add_node(&s, level[n], then[n], els[n]);
    if (count > 0) {
        s.level[0] = level[0];
        s.then[0] = then[0];
        s.els[0] = els[0];
    }
    free(level);
    free(then);
    free(els);
    return s;
}

/* The answers of the roots, if there are any, in the form of `load.tsv`. 16 numbers hold a root's in their bits, lowest first. */
static char *answers_in(struct bytes *answer, size_t roots, size_t levels)
{
    size_t settings, r, k;
    char *text, *at;

    if (answer->len == 0)
        return NULL;
    if (levels > MOST_TABLE_LEVELS)
        stop("answers are stored for more levels than 8");
    settings = (size_t)1 << levels;
    text = at = room(roots * (settings + 1) + 1);
    for (r = 0; r < roots; r++) {
        uint16_t *numbers = take_list(answer, TABLE_NUMBERS, TABLE_NUMBERS);

        for (k = 0; k < settings; k++)
            *at++ = (char)('0' + (numbers[k / 16] >> k % 16 & 1));
        *at++ = ',';
        free(numbers);
    }
    *at = 0;
    return text;
}

/* What a load must give: a refusal and its line; or 0, 0, how many roots there are, the count, the roots, the nodes, the answers. */
static char *read_answer(struct bytes answer, struct load_vector *v)
{
    char *answers = NULL;
    size_t count;

    v->refusal = take_number(&answer);
    v->line = take_number(&answer);
    v->roots = NULL;
    v->roots_len = 0;
    if (v->refusal != 0) {
        v->after = copy_of(&v->before);
    } else {
        v->roots_len = take_number(&answer);
        count = take_number(&answer);
        v->roots = take_edges(&answer, v->roots_len, v->roots_len);
        v->after = store_with(&answer, &v->before, count);
        answers = answers_in(&answer, v->roots_len, v->before.levels);
    }
    v->answers = answers == NULL ? "-" : answers;
    take_no_more(&answer);
    return answers;
}

static void hold_stored_load(const struct stored *c)
{
    const uint16_t *head = c->head;
    struct bytes file = c->parts[PART_FILE], given = c->parts[PART_GIVEN];
    struct load_vector v;
    char *answers;

    v.file = take_bytes(&file, file.len);
    v.before = take_store(&given, head, head[SLOTS_GIVEN], head[HEADS_GIVEN]);
    v.list_len = head[LIST_LEN];
    v.list = take_list(&given, v.list_len, v.list_len);
    take_no_more(&given);
    lens_in(head, v.lens);
    answers = read_answer(c->parts[PART_ANSWER], &v);
    hold_load(&v);
    drop_load(&v);
    free(answers);
}

void try_stored_loads(void)
{
    static const struct replay loads = {"loads", LOAD_NUMBERS, hold_stored_load};

    try_replay(&loads);
}
