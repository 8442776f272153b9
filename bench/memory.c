#include "memory.h"

#include <stdint.h>
#include <stdio.h>

#include "zonetweed.h"

/* Stores of so many slots, all of them used; and what an export of one writes beside its nodes. */
enum { STORES = 3, LEVELS = ZT_MOST_LEVELS, ROOTS = 40, NAME = 16 };

static const size_t stores[STORES] = {1000, 32767, ZT_MOST_NODES};

static size_t slot_lists(size_t nodes)
{
    return nodes * (sizeof(uint16_t) + 2 * sizeof(zt_edge) + sizeof(zt_index));
}

static size_t heads(size_t nodes)
{
    (void)nodes;
    return ZT_BUCKETS * sizeof(zt_index);
}

static size_t variable_lists(size_t nodes)
{
    (void)nodes;
    return 6 * ZT_VARIABLE_ENTRIES * sizeof(uint32_t);
}

static size_t root_lists(size_t nodes)
{
    (void)nodes;
    return ZT_ROOT_ENTRIES * (sizeof(zt_edge) + 2 * sizeof(uint32_t));
}

static size_t scratch(size_t nodes)
{
    return nodes * (sizeof(zt_edge) + sizeof(uint16_t));
}

static size_t marks(size_t nodes)
{
    return nodes * 2 * sizeof(zt_index);
}

static size_t output(size_t nodes)
{
    return 256 + 32 * nodes + (24 + 3 * NAME) * LEVELS + (16 + NAME) * ROOTS;
}

static size_t work(size_t nodes)
{
    return ZT_WORK_ENTRIES(nodes) * sizeof(zt_index);
}

static size_t cache(size_t nodes)
{
    return ZT_CACHE_ENTRIES(nodes) * sizeof(zt_edge);
}

static size_t store(size_t nodes)
{
    return slot_lists(nodes) + heads(nodes);
}

static size_t whole_load(size_t nodes)
{
    return store(nodes) + variable_lists(nodes) + root_lists(nodes) + scratch(nodes) + work(nodes);
}

static size_t whole_evaluation(size_t nodes)
{
    return store(nodes) + work(nodes);
}

static size_t whole_export(size_t nodes)
{
    return store(nodes) + marks(nodes) + output(nodes) + work(nodes);
}

static size_t whole_join(size_t nodes)
{
    return store(nodes) + cache(nodes) + work(nodes);
}

static const struct {
    const char *name;
    size_t (*bytes)(size_t nodes);
} rows[] = {
    {"slot lists, 14 a slot", slot_lists},
    {"heads", heads},
    {"load: variable lists", variable_lists},
    {"load: root lists", root_lists},
    {"load: scratch, 6 a node", scratch},
    {"export: marks, 8 a node", marks},
    {"export: output, 32 a node", output},
    {"work, 24 a node", work},
    {"join: cache, 16 a result", cache},
    {"all of a load", whole_load},
    {"all of an evaluation", whole_evaluation},
    {"all of an export", whole_export},
    {"all of a join", whole_join},
};

void tell_memory(void)
{
    size_t i, k;

    printf("\nLent in bytes, for a store of so many slots: with work of ZT_WORK_ENTRIES, and a cache for as many results as slots; an export writes\n"
        "  %d levels and %d roots with names of %d bytes\n  %-26s", LEVELS, ROOTS, NAME, "");
    for (k = 0; k < STORES; k++)
        printf(" %11zu", stores[k]);
    printf("\n");
    for (i = 0; i < sizeof rows / sizeof *rows; i++) {
        printf("  %-26s", rows[i].name);
        for (k = 0; k < STORES; k++)
            printf(" %11zu", rows[i].bytes(stores[k]));
        printf("\n");
    }
}
