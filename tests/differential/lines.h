/* The lines and fields of a good plant file, and how bytes are put there. */

#ifndef LINES_H
#define LINES_H

#include "files.h"

struct place {
    size_t at, length;
};

/* Puts these bytes in place of those. */
void replace(struct file *f, struct place old, const char *bytes, size_t length);
void insert(struct file *f, size_t at, const char *text);

/* Line 0 is the first; the blinds follow, and the links behind them. */
size_t blinds_in(const struct file *f);
size_t links_in(const struct file *f);

/* A line and its line feed; behind the last one nothing. */
struct place line_place(const struct file *f, size_t line);

/* The field with this number; 0 is the line's word. */
struct place field_place(const struct file *f, size_t line, size_t field);

uint64_t number_at(const struct file *f, size_t line, size_t field);
void set_number(struct file *f, size_t line, size_t field, uint64_t value);

#endif
