/* The Rust's side: the functions of bench/rust/calls.rs, from a shared library that is opened where there is one. */
#ifndef RUST_H
#define RUST_H

#include <stddef.h>
#include <stdint.h>

struct side;

struct rust {
    struct side *(*open)(uint32_t levels, uint32_t slots);
    void (*close)(struct side *side);
    uint8_t (*load)(struct side *side, const uint8_t *file, size_t len);
    void (*take_names)(struct side *side);
    uint32_t (*count)(const struct side *side);
    size_t (*root_count)(const struct side *side);
    int64_t (*root)(const struct side *side, size_t root);
    uint8_t (*evaluate)(const struct side *side, size_t root, const uint8_t *setting, size_t len);
    size_t (*export)(struct side *side, uint8_t text);
    const uint8_t *(*exported)(const struct side *side);
};

/* Fills `rust` from a library; the program ends where that can't be done. */
void open_rust(const char *library, struct rust *rust);

#endif
