/* Tables of cases: a case a line, columns between tabs, `-` for none. */
#ifndef TABLE_H
#define TABLE_H

#include <stddef.h>
#include <stdint.h>

#include "stores.h"

enum { MOST_COLUMNS = 34 };

/* A whole file in memory. */
struct bytes {
    uint8_t *at;
    size_t len;
};

struct bytes read_bytes(const char *folder, const char *name);
int is_there(const char *folder, const char *name);

/* A table that is read line by line. */
struct table {
    char *text;
    char *rest;
    const char *name;
    size_t line;
    char *columns[MOST_COLUMNS];
    size_t width;
};

struct table open_table(const char *folder, const char *name);

/* Takes the next line apart; 0 where there is none. The line must have one of two numbers of columns. */
int next_line(struct table *t, size_t width, size_t other_width);
void close_table(struct table *t);

/* The text up to a mark, which becomes its end, or all that is left. Moves behind the mark. */
char *cut(char **rest, char mark);

/* What a column says. */
long number_in(const char *column);
size_t entries_in(const char *column);

/* A list between commas. Answers its entries in memory of their own, and how many there are. */
uint16_t *short_list(const char *column, size_t *count);
uint32_t *wide_list(const char *column, size_t *count);
zt_edge *edge_list(const char *column, size_t *count);

/* Bytes in hexadecimal digits; `empty` and `-` for none. */
struct bytes bytes_in(const char *column, size_t len);

/* An input in the spelling of docs/DIFFERENCES.md: `\n`, `\r`, `\t`, `\xNN`, and `\*N(..)` for what stands in the brackets, N times. */
struct bytes spelled_in(const char *column);

/* A store in eight columns from this one on. */
struct store store_in(char **columns);

/* A store after a call, in six columns: its count, the four slot lists, the heads. It has so many levels. */
struct store store_after(char **columns, uint16_t levels);

/* Adds nodes at the next numbers, as `level:then:else` between commas. There must be slots. */
void add_nodes(struct store *s, const char *column);

/* Heads that aren't 0, as `bucket:head` between commas, into a list of so many. */
void heads_in(const char *column, zt_index *heads, size_t heads_len);

#endif
