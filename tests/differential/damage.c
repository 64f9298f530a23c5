/* Damaged plant files: one thing is wrong in each, in a few two things or
   none. */

#include "chance.h"
#include "lines.h"

#include <stdio.h>
#include <string.h>

static size_t some_blind(const struct file *f)
{
    return 1 + (size_t)below(blinds_in(f));
}

static size_t some_link(const struct file *f)
{
    return 1 + blinds_in(f) + (size_t)below(links_in(f));
}

static size_t some_line(const struct file *f)
{
    if (blinds_in(f) == 0 || chance(150))
        return 0;
    return links_in(f) == 0 || chance(500) ? some_blind(f) : some_link(f);
}

static size_t numbers_in(const struct file *f, size_t line)
{
    char letter = f->bytes[line_place(f, line).at];
    return letter == 'b' ? 8 : letter == 'l' ? 3 : 1;
}

static size_t some_number(const struct file *f, size_t line)
{
    return (size_t)between(1, numbers_in(f, line));
}

/* ---- Bytes and ends -------------------------------------------------- */

static void damage_byte(struct file *f)
{
    static const char likely[] = { '0', '1', '9', '\t', '\n', ' ', '\r', '-', '\\', 0 };
    char byte = chance(700) ? ONE_OF(likely) : (char)below(256);
    struct place place;
    place.at = (size_t)below(f->length);
    place.length = (size_t)below(2);
    replace(f, place, &byte, chance(700) ? 1 : 0);
}

static void damage_end(struct file *f)
{
    static const char *const behind[] = { "\n", " ", "\r", "x", "link", "plant\t1\n", "0" };
    switch (below(6)) {
    case 0: f->length -= 1; break;
    case 1: f->length = (size_t)below(f->length); break;
    case 2: case 3: f->length = 0; break;
    case 4: f->length = line_place(f, 1).at; break;
    default: insert(f, f->length, ONE_OF(behind));
    }
}

/* ---- Lines ----------------------------------------------------------- */

/* Takes a line out and puts it before another one, or at the end. */
static void move_line(struct file *f, size_t from, size_t to)
{
    char line[64];
    struct place old = line_place(f, from);
    memcpy(line, f->bytes + old.at, old.length);
    replace(f, old, "", 0);
    struct place new = { line_place(f, to).at, 0 };
    replace(f, new, line, old.length);
}

static void double_line(struct file *f, size_t line)
{
    char bytes[64];
    struct place place = line_place(f, line);
    memcpy(bytes, f->bytes + place.at, place.length);
    struct place behind = { place.at + place.length, 0 };
    replace(f, behind, bytes, place.length);
}

static void damage_lines(struct file *f)
{
    size_t line = some_line(f), lines = 1 + blinds_in(f) + links_in(f);
    size_t behind = line_place(f, line).at + line_place(f, line).length;
    switch (below(9)) {
    case 0: move_line(f, line, (size_t)below(lines)); break;
    case 1: case 2: double_line(f, line); break;
    case 3: replace(f, line_place(f, line), "", 0); break;
    case 4: insert(f, behind, "\n"); break;
    case 5: case 6: insert(f, behind - 1, "\r"); break;
    default: insert(f, behind, "plant\t1\n");
    }
}

/* Two neighbours of one sort change places. */
static void swap_lines(struct file *f)
{
    size_t blinds = blinds_in(f), links = links_in(f), line;
    if (blinds > 1 && (links < 2 || chance(500)))
        line = (size_t)between(1, blinds - 1);
    else if (links > 1)
        line = blinds + (size_t)between(1, links - 1);
    else
        return;
    move_line(f, line + 1, line);
}

/* ---- Fields ---------------------------------------------------------- */

/* A number that is right but for its form, or once its high bits are lost. */
static void damage_number_form(struct file *f)
{
    size_t line = some_line(f), field = some_number(f, line);
    struct place place = field_place(f, line, field);
    uint64_t value = number_at(f, line, field);
    char text[64];
    switch (below(9)) {
    case 0: case 1: insert(f, place.at, "0"); return;
    case 2: insert(f, place.at, chance(500) ? "+" : "-"); return;
    case 3: replace(f, place, "", 0); return;
    case 4: replace(f, field_place(f, line, numbers_in(f, line)), "", 0); return;
    case 5: set_number(f, line, field, odd_number(value)); return;
    case 6: set_number(f, line, field, value + (1 + below(3)) * 0x100000000); return;
    case 7: /* 2^64 more, which is 18446744073709551616 */
        snprintf(text, sizeof text, "18446744073%llu", (unsigned long long)(709551616 + value));
        break;
    default:
        snprintf(text, sizeof text, "1%024llu", (unsigned long long)value);
    }
    replace(f, place, text, strlen(text));
}

static void damage_fields(struct file *f)
{
    static const char *const words[] = { "blind", "link", "plant", "lin", "Link", "", "5" };
    static const char *const letters[] = { "s", " ", "1", "\r" };
    static const char *const more[] = { "\t0", "\t0", "\t1", "\t7", "\t", " " };
    size_t line = some_line(f);
    struct place last = field_place(f, line, numbers_in(f, line)), word = field_place(f, line, 0);
    const char *other = ONE_OF(words);
    switch (below(6)) {
    case 0: replace(f, word, other, strlen(other)); break;
    case 1: insert(f, word.at + word.length, ONE_OF(letters)); break;
    case 2:
        last.at -= 1, last.length += 1; /* its tab too */
        replace(f, last, "", 0);
        break;
    default: insert(f, last.at + last.length, ONE_OF(more));
    }
}

/* Another version, or no first line at all. */
static void damage_first_line(struct file *f)
{
    static const uint64_t versions[] = { 0, 2, 2, 2, 3, 257, 0x100000001 };
    if (chance(600))
        set_number(f, 0, 1, ONE_OF(versions));
    else
        replace(f, line_place(f, 0), "", 0);
}

/* One below and one above the range, and both ends of it. */
static void damage_range(struct file *f)
{
    static const uint64_t blind[8][2] = {
        { 0, 63 }, { 0, 127 }, { 1000, 600000 }, { 1, 10000 }, { 100, 10000 },
        { 0, 3 }, { 0, 3 }, { 0, 3 }
    };
    static const uint64_t link[3][2] = { { 1, 65535 }, { 0, 63 }, { 0, 7 } };
    size_t line = some_line(f), field = some_number(f, line), numbers = numbers_in(f, line);
    const uint64_t *range = numbers == 8 ? blind[field - 1] : link[field - 1];
    if (line == 0) {
        damage_first_line(f);
        return;
    }
    uint64_t value = range[1] + below(2);
    if (chance(400))
        value = range[0] - (range[0] > 0 && chance(700));
    if (numbers == 8 && field == 4 && chance(400)) /* SST above MUDT */
        value = number_at(f, line, 3) + 1;
    set_number(f, line, field, value);
}

/* ---- Lines that do not go together ----------------------------------- */

/* The terminal of the next blind, if there is another one. */
static void use_terminal_twice(struct file *f)
{
    size_t line = some_blind(f), next = line % blinds_in(f) + 1;
    set_number(f, line, 2, number_at(f, next, 2));
}

/* One more link between an address and a tag that are linked, of any kind:
   also of the same, or of another class. It stands where it belongs. */
static void add_kind(struct file *f)
{
    char text[64];
    size_t line = some_link(f);
    uint64_t kind = chance(500) ? below(8) : chance(500) ? FO : SAPBP;
    int before = kind < number_at(f, line, 3);
    snprintf(text, sizeof text, "link\t%llu\t%llu\t%llu\n",
             (unsigned long long)number_at(f, line, 1),
             (unsigned long long)number_at(f, line, 2), (unsigned long long)kind);
    insert(f, line_place(f, before ? line : line + 1).at, text);
}

/* A new blind behind a link; with tag 63 in use the last blind goes behind the
   first link. */
static void put_blind_behind_links(struct file *f)
{
    char text[64];
    size_t blinds = blinds_in(f);
    uint64_t tag = number_at(f, blinds, 1) + 1;
    if (tag == TAGS) {
        move_line(f, blinds, blinds + 1);
        return;
    }
    snprintf(text, sizeof text, "blind\t%llu\t%llu\t60000\t200\t500\t1\t1\t3\n",
             (unsigned long long)tag, (unsigned long long)below(TERMINALS));
    insert(f, line_place(f, some_link(f) + 1).at, text);
}

/* Often a tag without a blind. */
static void change_tag(struct file *f)
{
    size_t line = some_link(f);
    set_number(f, line, 2, below(TAGS));
}

static void damage_wiring(struct file *f)
{
    if (blinds_in(f) == 0)
        return;
    if (links_in(f) == 0 || chance(250))
        use_terminal_twice(f);
    else if (chance(300))
        change_tag(f);
    else if (chance(500))
        add_kind(f);
    else
        put_blind_behind_links(f);
}

/* One blind with as many links as a panel holds, or one or two more. */
static void make_many_links(struct file *f)
{
    uint64_t address = between(1, 65000), links = LINKS + below(3);
    f->length = 0;
    insert(f, 0, "plant\t1\nblind\t5\t9\t60000\t200\t500\t1\t1\t3\n");
    for (uint64_t i = 0; i < links; i++) {
        char text[64];
        snprintf(text, sizeof text, "link\t%llu\t5\t4\n", (unsigned long long)(address + i));
        insert(f, f->length, text);
    }
}

void damage_file(struct file *f)
{
    static void (*const damages[])(struct file *) = {
        damage_byte, damage_end, damage_lines, swap_lines, damage_number_form,
        damage_fields, damage_first_line, damage_range, damage_wiring, make_many_links
    };
    static const unsigned weights[] = { 10, 18, 34, 14, 36, 28, 12, 18, 34, 6 };
    damages[by_weight(weights, sizeof weights / sizeof weights[0])](f);
    if (f->length > 0 && chance(100))
        damage_byte(f);
}
