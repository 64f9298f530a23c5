/* The command language of docs/COMMANDS.md. */

#include "commands.h"
#include "file_word.h"
#include "plant.h"
#include "why.h"

#include <string.h>

/* ---- Writing --------------------------------------------------------- */

static void put_byte(struct text *text, char byte)
{
    if (text->length < sizeof text->bytes)
        text->bytes[text->length++] = byte;
}

static void put(struct text *text, const char *word)
{
    while (*word)
        put_byte(text, *word++);
}

static void put_number(struct text *text, uint64_t value)
{
    char digits[20];
    int count = 0;
    do {
        digits[count++] = (char)('0' + value % 10);
        value /= 10;
    } while (value > 0);
    while (count > 0)
        put_byte(text, digits[--count]);
}

static void put_after_blank(struct text *text, uint64_t value)
{
    put(text, " ");
    put_number(text, value);
}

/* ---- Reading --------------------------------------------------------- */

struct word {
    const char *bytes;
    size_t length;
};

/* The longest command has 8 arguments; more are counted and not kept. */
enum { ARGUMENTS = 8 };

struct words {
    size_t count;
    struct word kept[1 + ARGUMENTS];
};

static int is_blank(char byte)
{
    return byte == ' ' || byte == '\t';
}

static struct words split(const char *bytes, size_t length)
{
    struct words words = { .count = 0 };
    size_t at = 0;
    for (;;) {
        while (at < length && is_blank(bytes[at]))
            at += 1;
        if (at == length)
            return words;
        size_t first = at;
        while (at < length && !is_blank(bytes[at]))
            at += 1;
        if (words.count <= ARGUMENTS) {
            words.kept[words.count].bytes = bytes + first;
            words.kept[words.count].length = at - first;
        }
        words.count += 1;
    }
}

static int is_word(struct word word, const char *name)
{
    return word.length == strlen(name) && memcmp(word.bytes, name, word.length) == 0;
}

/* One or more decimal digits, leading zeros allowed, at most 2^64 - 1. */
static int read_number(struct word word, uint64_t *value)
{
    *value = 0;
    for (size_t i = 0; i < word.length; i++) {
        if (word.bytes[i] < '0' || word.bytes[i] > '9')
            return 0;
        uint64_t digit = (uint64_t)(word.bytes[i] - '0');
        if (*value > (UINT64_MAX - digit) / 10)
            return 0;
        *value = *value * 10 + digit;
    }
    return word.length > 0;
}

/* ---- Answer lines ---------------------------------------------------- */

static void put_answer(struct text *text, struct answer answer)
{
    put_number(text, answer.number);
    put_after_blank(text, answer.count);
}

/* The answer and the cells that are not `silent` as ` PLACE=CELL`, or ` -`
   for a refused call. */
static void put_cells(struct text *text, struct answer answer,
                      const uint16_t *cells, uint64_t count, uint16_t silent)
{
    put_answer(text, answer);
    if (answer.number != DONE) {
        put(text, " -");
        return;
    }
    for (uint64_t place = 0; place < count; place++) {
        if (cells[place] == silent)
            continue;
        put_after_blank(text, place);
        put(text, "=");
        put_number(text, cells[place]);
    }
}

static void put_inventory(struct text *text, struct inventory answer)
{
    put_number(text, answer.number);
    put_after_blank(text, answer.blinds);
    put_after_blank(text, answer.lowest_free_tag);
}

/* The number, and for an answered question the reason. */
static void put_explanation(struct text *text, struct explanation answer)
{
    static const char *const reasons[] = {
        [NOT_LINKED] = " not-linked", [WRONG_CLASS] = " wrong-class",
        [UNDER_WIND] = " under-wind", [UNDER_RAIN] = " under-rain",
        [UNDER_FROST] = " under-frost", [UNDER_FORCED] = " under-forced",
        [NO_POSITION] = " no-position", [WAITS_FOR_THE_PAUSE] = " waiting",
        [ACTS] = " acts", [ALREADY_SO] = " already-so"
    };
    put_number(text, answer.number);
    if (answer.number != DONE)
        return;
    put(text, reasons[answer.reason]);
    if (answer.reason == WAITS_FOR_THE_PAUSE)
        put_after_blank(text, answer.left);
}

/* The answer and the file as one word, or ` -` for a refused call: "each tab as
   `\t`, each line feed as `\n`, every other byte as it is" */
static void put_file(struct text *text, struct answer answer, const char *file)
{
    put_answer(text, answer);
    if (answer.number != DONE) {
        put(text, " -");
        return;
    }
    put(text, " ");
    for (uint64_t i = 0; i < answer.count; i++) {
        if (file[i] == '\t')
            put(text, "\\t");
        else if (file[i] == '\n')
            put(text, "\\n");
        else
            put_byte(text, file[i]);
    }
}

/* ---- Show ------------------------------------------------------------ */

static const char *direction_name(uint8_t direction)
{
    return direction == UP ? "up" : direction == DOWN ? "down" : "-";
}

static const char *sort_name(uint8_t sort)
{
    return sort == FULL_RUN ? "full" : sort == STEP ? "step" : "pos";
}

/* `-` or direction, sort and length, if the blind's motion is this one. */
static void put_order(struct text *text, const struct blind *b, uint8_t motion)
{
    if (b->motion != motion) {
        put(text, "-");
        return;
    }
    put(text, direction_name(b->direction));
    put(text, ":");
    put(text, sort_name(b->sort));
    put(text, ":");
    put_number(text, b->length);
}

static void put_parameters(struct text *text, const struct parameters *p)
{
    put_after_blank(text, p->mudt);
    put_after_blank(text, p->sst);
    put_after_blank(text, p->rpt);
    put_after_blank(text, p->rwa);
    put_after_blank(text, p->rra);
    put_after_blank(text, p->rfa);
}

static void put_blind(struct text *text, uint64_t tag, const struct blind *b)
{
    put(text, " | blind");
    put_after_blank(text, tag);
    put_after_blank(text, b->terminal);
    put_parameters(text, &b->parameters);
    put(text, " pos=");
    put_number(text, b->position);
    put(text, " valid=");
    put_number(text, b->valid);
    put(text, " alarms=");
    put(text, b->wind ? "w" : "-");
    put(text, b->rain ? "r" : "-");
    put(text, b->frost ? "f" : "-");
    put(text, " forced=");
    put(text, direction_name(b->forced));
    put(text, " last=");
    put(text, direction_name(b->last));
    put(text, " rest=");
    put_number(text, b->rest);
    put(text, " run=");
    put_order(text, b, RUNNING);
    put(text, " wait=");
    put_order(text, b, WAITING);
}

static void put_link(struct text *text, struct link link)
{
    put(text, " | link");
    put_after_blank(text, link.address);
    put_after_blank(text, link.tag);
    put_after_blank(text, link.kind);
}

static void put_panel(struct text *text, const struct panel *panel)
{
    put(text, "panel");
    for (uint64_t tag = 0; tag < TAGS; tag++)
        if (panel->blinds[tag].present)
            put_blind(text, tag, &panel->blinds[tag]);
    for (uint64_t place = 0; place < panel->link_count; place++)
        put_link(text, panel->links[place]);
}

/* ---- Commands -------------------------------------------------------- */

/* Arguments 0 to 5 from the given one on, or the default set if there are
   none. */
static struct parameters parameters_from(const uint64_t *arguments, int given)
{
    if (!given)
        return default_parameters;
    struct parameters p = {
        arguments[0], arguments[1], arguments[2],
        arguments[3], arguments[4], arguments[5]
    };
    return p;
}

typedef void command(struct panel *, const uint64_t *arguments, size_t count,
                     struct text *);

static void do_install(struct panel *panel, const uint64_t *a, size_t count,
                       struct text *text)
{
    put_answer(text, install(panel, a[0], a[1], parameters_from(a + 2, count == 8)));
}

static void do_remove(struct panel *panel, const uint64_t *a, size_t count,
                      struct text *text)
{
    (void)count;
    put_answer(text, remove_blind(panel, a[0]));
}

static void do_params(struct panel *panel, const uint64_t *a, size_t count,
                      struct text *text)
{
    put_answer(text, write_parameters(panel, a[0], parameters_from(a + 1, count == 7)));
}

static void do_link(struct panel *panel, const uint64_t *a, size_t count,
                    struct text *text)
{
    (void)count;
    put_answer(text, add_link(panel, a[0], a[1], a[2]));
}

static void do_unlink(struct panel *panel, const uint64_t *a, size_t count,
                      struct text *text)
{
    (void)count;
    put_answer(text, remove_link(panel, a[0], a[1], a[2]));
}

static void do_in(struct panel *panel, const uint64_t *a, size_t count,
                  struct text *text)
{
    (void)count;
    put_answer(text, splice_in(panel, a[0], a[1]));
}

static void do_out(struct panel *panel, const uint64_t *a, size_t count,
                   struct text *text)
{
    (void)count;
    put_answer(text, splice_out(panel, a[0], a[1]));
}

static void do_tel(struct panel *panel, const uint64_t *a, size_t count,
                   struct text *text)
{
    uint16_t cells[TAGS] = { 0 };
    (void)count;
    struct answer answer = telegram(panel, a[0], a[1], cells, TAGS);
    put_cells(text, answer, cells, TAGS, 512);
}

static void do_time(struct panel *panel, const uint64_t *a, size_t count,
                    struct text *text)
{
    uint16_t cells[TAGS] = { 0 };
    (void)count;
    struct answer answer = time_step(panel, a[0], cells, TAGS);
    put_cells(text, answer, cells, TAGS, 512);
}

static void do_strip(struct panel *panel, const uint64_t *a, size_t count,
                     struct text *text)
{
    uint16_t cells[TERMINALS] = { 0 };
    (void)a;
    (void)count;
    struct answer answer = strip_reading(panel, cells, TERMINALS);
    put_cells(text, answer, cells, TERMINALS, 0);
}

static void do_inv(struct panel *panel, const uint64_t *a, size_t count,
                   struct text *text)
{
    (void)a;
    (void)count;
    put_inventory(text, inventory(panel));
}

static void do_percent(struct panel *panel, const uint64_t *a, size_t count,
                       struct text *text)
{
    (void)panel;
    (void)count;
    put_answer(text, percent(a[0]));
}

static void do_why(struct panel *panel, const uint64_t *a, size_t count,
                   struct text *text)
{
    (void)count;
    put_explanation(text, why(panel, a[0], a[1], a[2]));
}

/* "Of more than 16,384 bytes only so many are used." */
static void do_write(struct panel *panel, const uint64_t *a, size_t count,
                     struct text *text)
{
    static char file[PLANT_BYTES];
    uint64_t lent = count == 0 || a[0] > PLANT_BYTES ? PLANT_BYTES : a[0];
    put_file(text, write_plant(panel, file, lent), file);
}

static void do_show(struct panel *panel, const uint64_t *a, size_t count,
                    struct text *text)
{
    (void)a;
    (void)count;
    put_panel(text, panel);
}

static void do_new(struct panel *panel, const uint64_t *a, size_t count,
                   struct text *text)
{
    (void)a;
    (void)count;
    *panel = empty_panel();
    put(text, "0");
}

/* What is wrong with the word, or a null pointer after reading the file. */
static const char *do_read(struct panel *panel, struct word word, struct text *text)
{
    static char file[LINE_BYTES];
    size_t length;
    if (!unpack_file(word.bytes, word.length, file, &length))
        return "not a file in one word";
    put_number(text, read_plant(file, length, panel));
    return NULL;
}

/* Each command with the numbers of arguments that it takes. The argument of
   `read` is no number: do_read carries it out. */
static const struct {
    const char *name;
    size_t few, many;
    command *carry_out;
} commands[] = {
    { "install", 2, 8, do_install },
    { "remove", 1, 1, do_remove },
    { "params", 1, 7, do_params },
    { "link", 3, 3, do_link },
    { "unlink", 3, 3, do_unlink },
    { "in", 2, 2, do_in },
    { "out", 2, 2, do_out },
    { "tel", 2, 2, do_tel },
    { "time", 1, 1, do_time },
    { "strip", 0, 0, do_strip },
    { "inv", 0, 0, do_inv },
    { "percent", 1, 1, do_percent },
    { "why", 3, 3, do_why },
    { "write", 0, 1, do_write },
    { "read", 1, 1, NULL },
    { "show", 0, 0, do_show },
    { "new", 0, 0, do_new },
};

enum { COMMANDS = sizeof commands / sizeof commands[0] };

/* ---- Lines ----------------------------------------------------------- */

static void put_error(struct text *text, uint64_t number, const char *what)
{
    put(text, "error: line ");
    put_number(text, number);
    put(text, ": ");
    put(text, what);
}

/* What is wrong with the words, or a null pointer after carrying them
   out. */
static const char *carry_out_words(struct panel *panel, const struct words *words,
                                   struct text *text)
{
    uint64_t arguments[ARGUMENTS] = { 0 };
    size_t which = 0, count = words->count - 1;
    while (which < COMMANDS && !is_word(words->kept[0], commands[which].name))
        which += 1;
    if (which == COMMANDS)
        return "unknown command";
    if (count != commands[which].few && count != commands[which].many)
        return "wrong number of arguments";
    if (commands[which].carry_out == NULL)
        return do_read(panel, words->kept[1], text);
    for (size_t i = 0; i < count; i++)
        if (!read_number(words->kept[1 + i], &arguments[i]))
            return "not a decimal number of up to 64 bits";
    commands[which].carry_out(panel, arguments, count, text);
    return NULL;
}

void carry_out_line(struct panel *panel, const char *bytes, size_t length,
                    uint64_t number, struct text *answer)
{
    const char *wrong = "line too long";
    answer->length = 0;
    if (length <= LINE_BYTES) {
        if (length > 0 && bytes[length - 1] == '\r')
            length -= 1;
        struct words words = split(bytes, length);
        if (words.count == 0 || words.kept[0].bytes[0] == '#')
            return;
        wrong = carry_out_words(panel, &words, answer);
    }
    if (wrong)
        put_error(answer, number, wrong);
    put_byte(answer, '\n');
}
