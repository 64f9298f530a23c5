/* Plant files. Words in quotation marks are those of K3 in document 02, or
   document 01's where it says so. */

#include "plant.h"

#include <string.h>

/* ---- Writing --------------------------------------------------------- */

/* The lent buffer, and how much of it is filled. */
struct file {
    char *bytes;
    uint64_t length;
};

static void put(struct file *file, const char *word)
{
    while (*word)
        file->bytes[file->length++] = *word++;
}

/* "decimal without leading zeros" */
static void put_number(struct file *file, uint64_t value)
{
    if (value >= 10)
        put_number(file, value / 10);
    file->bytes[file->length++] = (char)('0' + value % 10);
}

/* "lines of text, fields parted by tabs, [...] a line feed after each" */
static void put_line(struct file *file, const char *word, const uint64_t *numbers,
                     uint64_t count)
{
    put(file, word);
    for (uint64_t i = 0; i < count; i++) {
        put(file, "\t");
        put_number(file, numbers[i]);
    }
    put(file, "\n");
}

/* How many numbers stand behind the word of each line. */
enum { FIRST_NUMBERS = 1, BLIND_NUMBERS = 8, LINK_NUMBERS = 3 };

/* "`blind`, tag, terminal, MUDT, SST, RPT, RWA, RRA, RFA" */
static void put_blind(struct file *file, uint64_t tag, const struct blind *b)
{
    const struct parameters *p = &b->parameters;
    uint64_t numbers[BLIND_NUMBERS] = {
        tag, b->terminal, p->mudt, p->sst, p->rpt, p->rwa, p->rra, p->rfa
    };
    put_line(file, "blind", numbers, BLIND_NUMBERS);
}

/* "`link`, address, tag, kind" */
static void put_link(struct file *file, struct link link)
{
    uint64_t numbers[LINK_NUMBERS] = { link.address, link.tag, link.kind };
    put_line(file, "link", numbers, LINK_NUMBERS);
}

/* "First `plant` and `1`" */
static const uint64_t version = 1;

/* "The writer fills a lent buffer of at least 16,384 bytes, answers the length
   and leaves the rest; a shorter buffer is answered 13 (new, checked with 11)
   and an unsound panel 12." The fullest panel's file is below 11,000 bytes. */
struct answer write_plant(const struct panel *panel, char *out, uint64_t lent)
{
    struct answer too_short = { BUFFER_TOO_SHORT, 0 };
    struct answer unsound = { NOT_A_SOUND_PANEL, 0 };
    if (lent < PLANT_BYTES)
        return too_short;
    if (!is_sound(panel))
        return unsound;
    struct file file = { out, 0 };
    put_line(&file, "plant", &version, FIRST_NUMBERS);
    for (uint64_t tag = 0; tag < TAGS; tag++)
        if (panel->blinds[tag].present)
            put_blind(&file, tag, &panel->blinds[tag]);
    for (uint64_t place = 0; place < panel->link_count; place++)
        put_link(&file, panel->links[place]);
    struct answer done = { DONE, file.length };
    return done;
}

/* ---- The fields of a line -------------------------------------------- */

/* A row of bytes: a line without its line feed, or a field. */
struct row {
    const char *bytes;
    uint64_t length;
};

/* A line as its word and the numbers behind it. */
struct record {
    struct row word;
    uint64_t numbers[BLIND_NUMBERS];
    uint64_t count;
};

/* Takes off what stands before the first such byte, or everything if there is
   none. The byte itself stays. */
static struct row take_up_to(struct row *row, char byte)
{
    struct row taken = { row->bytes, 0 };
    while (taken.length < row->length && row->bytes[taken.length] != byte)
        taken.length += 1;
    row->bytes += taken.length;
    row->length -= taken.length;
    return taken;
}

static void drop_byte(struct row *row)
{
    row->bytes += 1;
    row->length -= 1;
}

/* "decimal without leading zeros". A number of more than 19 digits is above
   every range, and one of 19 does not wrap. */
static int read_number(struct row field, uint64_t *value)
{
    *value = 0;
    if (field.length == 0 || field.length > 19)
        return 0;
    if (field.bytes[0] == '0' && field.length > 1)
        return 0;
    for (uint64_t i = 0; i < field.length; i++) {
        if (field.bytes[i] < '0' || field.bytes[i] > '9')
            return 0;
        *value = *value * 10 + (uint64_t)(field.bytes[i] - '0');
    }
    return 1;
}

/* "fields parted by tabs": a word, and then numbers, at most a blind's. */
static int read_record(struct row line, struct record *record)
{
    record->word = take_up_to(&line, '\t');
    record->count = 0;
    while (line.length > 0) {
        drop_byte(&line); /* the tab */
        if (record->count == BLIND_NUMBERS)
            return 0;
        if (!read_number(take_up_to(&line, '\t'), &record->numbers[record->count]))
            return 0;
        record->count += 1;
    }
    return 1;
}

/* Whether it is such a line, with as many numbers as that has. */
static int is_record(const struct record *record, const char *word, uint64_t count)
{
    return record->word.length == strlen(word)
        && memcmp(record->word.bytes, word, record->word.length) == 0
        && record->count == count;
}

/* ---- Lines and their order ------------------------------------------- */

/* "First `plant` and `1`" */
static int is_first_line(const struct record *record)
{
    return is_record(record, "plant", FIRST_NUMBERS) && record->numbers[0] == version;
}

static int is_above_all_tags(const struct panel *panel, uint64_t tag)
{
    for (uint64_t other = tag; other < TAGS; other++)
        if (panel->blinds[other].present)
            return 0;
    return 1;
}

/* "then blinds by tag [...]; then links". "01 forbids it beside the lines
   before" if it would not install the blind; a tag or a parameter outside its
   range is noticed there too. */
static int take_blind(struct panel *panel, const uint64_t *n)
{
    struct parameters p = { n[2], n[3], n[4], n[5], n[6], n[7] };
    if (panel->link_count > 0 || !is_above_all_tags(panel, n[0]))
        return 0;
    return install(panel, n[0], n[1], p).number == DONE;
}

/* "then links in table order": the link stands behind all others, so none has
   to move for it. */
static int take_link(struct panel *panel, const uint64_t *n)
{
    struct answer answer = add_link(panel, n[0], n[1], n[2]);
    return answer.number == DONE && answer.count == 0;
}

/* Whether the line is good behind the lines before, which made this panel. */
static int take_line(struct panel *panel, uint64_t number, struct row line)
{
    struct record record;
    if (!read_record(line, &record))
        return 0;
    if (number == 1)
        return is_first_line(&record);
    if (is_record(&record, "blind", BLIND_NUMBERS))
        return take_blind(panel, record.numbers);
    if (is_record(&record, "link", LINK_NUMBERS))
        return take_link(panel, record.numbers);
    return 0;
}

/* "The reader answers 0, or the number of the first bad line and leaves an
   empty panel". "A line is bad if its form, a range or its place in the order
   is wrong, if 01 forbids it beside the lines before, or if its line feed is
   missing; a missing first line is line 1." */
uint64_t read_plant(const char *bytes, uint64_t length, struct panel *panel)
{
    struct row left = { bytes, length };
    uint64_t number = 0;
    *panel = empty_panel();
    do {
        struct row line = take_up_to(&left, '\n');
        number += 1;
        if (left.length == 0 || !take_line(panel, number, line)) {
            *panel = empty_panel();
            return number;
        }
        drop_byte(&left); /* the line feed */
    } while (left.length > 0);
    return 0;
}
