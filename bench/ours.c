#include "ours.h"

#include <stdlib.h>
#include <string.h>

struct ours ours_open(uint16_t levels, size_t slots, size_t lines)
{
    struct ours s;
    size_t i;

    memset(&s, 0, sizeof s);
    s.levels = levels;
    s.slots = slots;
    s.lines = lines;
    s.count = 1;
    s.level = room_for(slots, sizeof *s.level);
    s.then = room_for(slots, sizeof *s.then);
    s.els = room_for(slots, sizeof *s.els);
    s.next = room_for(slots, sizeof *s.next);
    s.heads = room_for(ZT_BUCKETS, sizeof *s.heads);
    s.list = room_for(levels, sizeof *s.list);
    for (i = 0; i < levels; i++)
        s.list[i] = (uint16_t)i;
    s.ids = room_for(ZT_VARIABLE_ENTRIES, sizeof *s.ids);
    s.order = room_for(ZT_VARIABLE_ENTRIES, sizeof *s.order);
    s.permids = room_for(ZT_VARIABLE_ENTRIES, sizeof *s.permids);
    s.auxids = room_for(ZT_VARIABLE_ENTRIES, sizeof *s.auxids);
    s.names = room_for(ZT_VARIABLE_ENTRIES, sizeof *s.names);
    s.lens = room_for(ZT_VARIABLE_ENTRIES, sizeof *s.lens);
    s.roots = room_for(ZT_ROOT_ENTRIES, sizeof *s.roots);
    s.rootnames = room_for(ZT_ROOT_ENTRIES, sizeof *s.rootnames);
    s.rootlens = room_for(ZT_ROOT_ENTRIES, sizeof *s.rootlens);
    s.edges = room_for(lines, sizeof *s.edges);
    s.seats = room_for(lines, sizeof *s.seats);
    s.marks = room_for(slots, sizeof *s.marks);
    s.numbers = room_for(slots, sizeof *s.numbers);
    s.work_len = ZT_WORK_ENTRIES(slots);
    s.work = room_for(s.work_len, sizeof *s.work);
    return s;
}

void ours_close(struct ours *s)
{
    free(s->level), free(s->then), free(s->els), free(s->next), free(s->heads);
    free(s->list);
    free(s->ids), free(s->order), free(s->permids), free(s->auxids), free(s->names), free(s->lens);
    free(s->roots), free(s->rootnames), free(s->rootlens);
    free(s->edges), free(s->seats);
    free(s->marks), free(s->numbers), free(s->out), free(s->work), free(s->cache);
}

void ours_clear(struct ours *s)
{
    s->count = 1;
    memset(s->level, 0, s->slots * sizeof *s->level);
    memset(s->then, 0, s->slots * sizeof *s->then);
    memset(s->els, 0, s->slots * sizeof *s->els);
    memset(s->next, 0, s->slots * sizeof *s->next);
    memset(s->heads, 0, ZT_BUCKETS * sizeof *s->heads);
}

int ours_load(struct ours *s, const uint8_t *file, size_t len)
{
    struct zt_load_answer answer = zt_load(file, len, s->list, s->levels, s->levels, &s->count,
        s->level, s->slots, s->then, s->slots, s->els, s->slots, s->next, s->slots, s->heads, ZT_BUCKETS,
        s->ids, ZT_VARIABLE_ENTRIES, s->order, ZT_VARIABLE_ENTRIES, s->permids, ZT_VARIABLE_ENTRIES, s->auxids, ZT_VARIABLE_ENTRIES,
        s->names, ZT_VARIABLE_ENTRIES, s->lens, ZT_VARIABLE_ENTRIES, s->roots, ZT_ROOT_ENTRIES,
        s->rootnames, ZT_ROOT_ENTRIES, s->rootlens, ZT_ROOT_ENTRIES, s->edges, s->lines, s->seats, s->lines,
        s->work, s->work_len);

    s->nroots = (size_t)answer.nroots;
    return answer.refusal;
}

void ours_take_names(struct ours *s, const uint8_t *file, size_t len)
{
    size_t i;

    s->bytes = file;
    s->bytes_len = len;
    s->out_len = 256 + 32 * (size_t)s->count + 24 * (size_t)s->levels + 16 * s->nroots;
    for (i = 0; i < s->levels; i++)
        s->out_len += 3 * (size_t)s->lens[i];
    for (i = 0; i < s->nroots; i++)
        s->out_len += s->rootlens[i];
    free(s->out);
    s->out = room_for(s->out_len, 1);
}

int ours_evaluate(const struct ours *s, zt_edge root, const uint8_t *setting)
{
    struct zt_evaluate_answer answer = zt_evaluate(s->levels, s->count, s->level, s->slots, s->then, s->slots, s->els, s->slots,
        s->next, s->slots, s->heads, ZT_BUCKETS, root, setting, s->levels, s->work, s->work_len);

    if (answer.refusal != 0)
        give_up("an evaluation was refused");
    return answer.answer;
}

void ours_example(const struct ours *s, zt_edge root, uint8_t wanted, uint8_t *setting)
{
    struct zt_example_answer answer = zt_example(s->levels, s->count, s->level, s->slots, s->then, s->slots, s->els, s->slots,
        s->next, s->slots, s->heads, ZT_BUCKETS, root, wanted, setting, s->levels, s->work, s->work_len);

    if (answer.refusal != 0)
        give_up("an example was refused");
}

int ours_tip(const struct ours *s, zt_edge root, const uint8_t *setting)
{
    struct zt_tip_answer answer = zt_tip(s->levels, s->count, s->level, s->slots, s->then, s->slots, s->els, s->slots, s->next,
        s->slots, s->heads, ZT_BUCKETS, root, setting, s->levels, s->work, s->work_len);

    if (answer.refusal != 0 && answer.refusal != ZT_NO_FLIP)
        give_up("a tipping point was refused");
    return answer.refusal == 0 ? answer.level : -1;
}

size_t ours_export(struct ours *s, uint8_t text)
{
    struct zt_export_answer answer = zt_export(0, text, 0, 0, s->levels, s->count, s->level, s->slots, s->then, s->slots,
        s->els, s->slots, s->next, s->slots, s->heads, ZT_BUCKETS, s->roots, s->nroots, s->list, s->levels,
        s->bytes, s->bytes_len, s->names, s->levels, s->lens, s->levels, s->rootnames, s->nroots, s->rootlens, s->nroots,
        s->marks, s->count, s->numbers, s->count, s->out, s->out_len, s->work, s->work_len);

    if (answer.refusal != 0)
        give_up("an export was refused");
    return answer.len;
}

void ours_lend_cache(struct ours *s, size_t results)
{
    free(s->cache);
    s->cache_len = ZT_CACHE_ENTRIES(results);
    s->cache = room_for(s->cache_len, sizeof *s->cache);
}

zt_edge ours_join(struct ours *s, enum op op, zt_edge left, zt_edge right)
{
    struct zt_join_answer (*calls[OPS])(uint16_t levels, zt_index *count, uint16_t *level, size_t level_len, zt_edge *then, size_t then_len,
        zt_edge *els, size_t els_len, zt_index *next, size_t next_len, zt_index *heads, size_t heads_len, zt_edge left, zt_edge right,
        zt_edge *cache, size_t cache_len, zt_index *work, size_t work_len) = {zt_and, zt_or, zt_xor};
    struct zt_join_answer answer = calls[op](s->levels, &s->count, s->level, s->slots, s->then, s->slots, s->els, s->slots,
        s->next, s->slots, s->heads, ZT_BUCKETS, left, right, s->cache, s->cache_len, s->work, s->work_len);

    if (answer.refusal != 0)
        give_up("a join was refused");
    return answer.root;
}

struct ours ours_with(const struct plan *plan)
{
    struct ours s = ours_open(plan->levels, JOIN_SLOTS, JOIN_SLOTS);
    struct file f = text_file(plan);

    if (ours_load(&s, f.bytes, f.len) != 0)
        give_up("a generated file is refused");
    drop_file(&f);
    return s;
}

static size_t node_of(zt_edge e)
{
    return (size_t)(e < 0 ? -e : e);
}

/* Marks the nodes that marked ones lead to: a node's children have lower numbers. Answers how many are marked. */
static size_t mark_below(const struct ours *s, uint8_t *marked)
{
    size_t n, count = 1;

    for (n = s->count; n > 1; n--)
        if (marked[n]) {
            marked[node_of(s->then[n - 1])] = marked[node_of(s->els[n - 1])] = 1;
            count++;
        }
    return count;
}

size_t ours_size(const struct ours *s, zt_edge root)
{
    uint8_t *marked = room_for((size_t)s->count + 1, 1);
    size_t size;

    marked[node_of(root)] = 1;
    size = mark_below(s, marked);
    free(marked);
    return size;
}

static int32_t line_of(const int32_t *lines, zt_edge e)
{
    return e < 0 ? -lines[-e] : lines[e];
}

struct plan ours_plan(const struct ours *s, zt_edge left, zt_edge right)
{
    uint8_t *marked = room_for((size_t)s->count + 1, 1);
    int32_t *lines = room_for((size_t)s->count + 1, sizeof *lines);
    struct plan p;
    size_t n;

    marked[node_of(left)] = marked[node_of(right)] = 1;
    p = room_for_plan(s->levels, mark_below(s, marked), 2);
    lines[1] = 1;
    p.count = 1;
    for (n = 2; n <= s->count; n++)
        if (marked[n]) {
            struct node node = {s->level[n - 1], line_of(lines, s->then[n - 1]), line_of(lines, s->els[n - 1])};

            p.nodes[p.count++] = node;
            lines[n] = (int32_t)p.count;
        }
    p.roots[0] = line_of(lines, left);
    p.roots[1] = line_of(lines, right);
    free(marked);
    free(lines);
    return p;
}
