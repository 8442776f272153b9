#define _POSIX_C_SOURCE 200809L

#include "rust.h"

#include <dlfcn.h>
#include <stdio.h>
#include <string.h>

#include "plans.h"

/* A function's address, copied into a pointer to a function as POSIX allows. */
static void find(void *library, const char *name, void *function)
{
    void *found = dlsym(library, name);

    if (found == NULL) {
        fprintf(stderr, "bench: %s\n", name);
        give_up("the Rust's library has no such function");
    }
    memcpy(function, &found, sizeof found);
}

void open_rust(const char *library, struct rust *rust)
{
    void *opened = dlopen(library, RTLD_NOW);

    if (opened == NULL) {
        fprintf(stderr, "bench: %s\n", dlerror());
        give_up("the Rust's library can't be opened");
    }
    find(opened, "rust_open", &rust->open);
    find(opened, "rust_close", &rust->close);
    find(opened, "rust_load", &rust->load);
    find(opened, "rust_take_names", &rust->take_names);
    find(opened, "rust_count", &rust->count);
    find(opened, "rust_root_count", &rust->root_count);
    find(opened, "rust_root", &rust->root);
    find(opened, "rust_evaluate", &rust->evaluate);
    find(opened, "rust_export", &rust->export);
    find(opened, "rust_exported", &rust->exported);
}
