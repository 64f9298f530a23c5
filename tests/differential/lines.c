/* A good plant file: how it is made, and where its lines and fields stand. */

#include "lines.h"

#include <stdio.h>
#include <stdlib.h>
#include <string.h>

void good_file(const struct panel *panel, struct file *file)
{
    file->length = write_plant(panel, file->bytes, sizeof file->bytes).count;
}

void replace(struct file *f, struct place old, const char *bytes, size_t length)
{
    size_t behind = old.at + old.length;
    memmove(f->bytes + old.at + length, f->bytes + behind, f->length - behind);
    memcpy(f->bytes + old.at, bytes, length);
    f->length = f->length - old.length + length;
}

void insert(struct file *f, size_t at, const char *text)
{
    struct place nothing = { at, 0 };
    replace(f, nothing, text, strlen(text));
}

/* How many lines begin with this letter. */
static size_t lines_with(const struct file *f, char letter)
{
    size_t count = 0;
    for (size_t i = 1; i < f->length; i++)
        count += f->bytes[i - 1] == '\n' && f->bytes[i] == letter;
    return count;
}

size_t blinds_in(const struct file *f)
{
    return lines_with(f, 'b');
}

size_t links_in(const struct file *f)
{
    return lines_with(f, 'l');
}

struct place line_place(const struct file *f, size_t line)
{
    struct place place = { 0, 0 };
    for (; line > 0; line--)
        while (f->bytes[place.at++] != '\n')
            continue;
    while (place.at + place.length < f->length && f->bytes[place.at + place.length++] != '\n')
        continue;
    return place;
}

struct place field_place(const struct file *f, size_t line, size_t field)
{
    struct place place = { line_place(f, line).at, 0 };
    for (; field > 0; field--)
        while (f->bytes[place.at++] != '\t')
            continue;
    while (f->bytes[place.at + place.length] != '\t' && f->bytes[place.at + place.length] != '\n')
        place.length += 1;
    return place;
}

uint64_t number_at(const struct file *f, size_t line, size_t field)
{
    return strtoull(f->bytes + field_place(f, line, field).at, NULL, 10);
}

void set_number(struct file *f, size_t line, size_t field, uint64_t value)
{
    char text[24];
    int length = snprintf(text, sizeof text, "%llu", (unsigned long long)value);
    replace(f, field_place(f, line, field), text, (size_t)length);
}
