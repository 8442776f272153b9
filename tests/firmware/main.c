/*
 * The library for C, held to documents 01 and 02 through its header file.
 *
 *     firmware [-e] [-d DAMAGED] [-s STEP] VECTORS DIFFERENCES
 *
 * VECTORS is the folder of the stored cases, DIFFERENCES that of the inputs of docs/DIFFERENCES.md. -e gives each part memory of its own
 * size, for a run under a tool that watches memory, and leaves out the changed and the falsified cases, which make the same calls again;
 * -d sets the number of stores that are damaged; -s leaves out all but each STEP-th case of the binary files. With -e far fewer of the small
 * stores are used. The status is 0 where nothing failed.
 */
#include <stdio.h>
#include <stdlib.h>
#include <string.h>

#include "groups.h"
#include "report.h"
#include "stored.h"

static size_t count_in(const char *text)
{
    char *end;
    unsigned long n = strtoul(text, &end, 10);

    if (end == text || *end != 0 || n == 0)
        stop("an option's number is none");
    return (size_t)n;
}

static void try_all(size_t damaged)
{
    try_own_tools();
    try_refusals();
    try_order_of_refusals();
    try_lengths();
    try_empty_parts();
    try_loads();
    try_whole_loads();
    try_differences();
    try_stores();
    try_evaluations();
    try_exports();
    try_joins();
    try_small_joins();
    try_join_laws();
    try_join_limits();
    try_examples();
    try_example_laws();
    try_tips();
    try_tip_laws();
    try_lists();
    try_widens();
    try_widen_laws();
    try_long_loads();
    try_big_loads();
    try_most_nodes();
    try_stored_loads();
    try_stored_exports();
    try_large_exports();
    try_reading_back();
    try_one_store();
    try_full_store();
    try_damaged_stores(damaged);
    if (!exact)
        try_changed_cases();
}

int main(int argc, char **argv)
{
    size_t damaged = 4000;
    int i;

    for (i = 1; i + 2 < argc; i++) {
        if (strcmp(argv[i], "-e") == 0)
            exact = 1;
        else if (strcmp(argv[i], "-d") == 0 && i + 3 < argc)
            damaged = count_in(argv[++i]);
        else if (strcmp(argv[i], "-s") == 0 && i + 3 < argc)
            step = count_in(argv[++i]);
        else
            stop("an option isn't known");
    }
    if (i + 1 >= argc)
        stop("usage: firmware [-e] [-d DAMAGED] [-s STEP] VECTORS DIFFERENCES");
    vectors = argv[i];
    differences = argv[i + 1];
    try_all(damaged);
    return failures() == 0 ? 0 : 1;
}
