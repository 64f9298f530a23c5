/* scripts SEED COUNT: writes a random script of the command language
   (docs/COMMANDS.md) with COUNT lines that are answered, and some that are
   passed over in silence. The same seed gives the same script, and a smaller
   COUNT gives a beginning of it; an odd seed leaves out the last line feed.

   To meet interesting states, the generator carries out what it writes on a
   panel of its own, the picture, and looks there for tags, terminals,
   addresses and moments that matter. */

#include "../../peer/commands.h"
#include "chance.h"
#include "files.h"

#include <stdio.h>
#include <stdlib.h>
#include <string.h>

/* ---- The picture ----------------------------------------------------- */

static struct panel picture;

static uint64_t blinds_present(void)
{
    uint64_t count = 0;
    for (uint64_t tag = 0; tag < TAGS; tag++)
        count += picture.blinds[tag].present;
    return count;
}

/* A present blind, or a null pointer if there is none. */
static const struct blind *some_blind(void)
{
    uint64_t count = blinds_present();
    if (count == 0)
        return NULL;
    uint64_t skip = below(count);
    for (uint64_t tag = 0; tag < TAGS; tag++)
        if (picture.blinds[tag].present && skip-- == 0)
            return &picture.blinds[tag];
    return NULL;
}

static int is_free(uint64_t terminal)
{
    for (uint64_t tag = 0; tag < TAGS; tag++)
        if (picture.blinds[tag].present && picture.blinds[tag].terminal == terminal)
            return 0;
    return 1;
}

/* The lowest terminal in use from t on, or 128. */
static uint64_t next_in_use(uint64_t t)
{
    while (t < TERMINALS && is_free(t))
        t += 1;
    return t;
}

static uint64_t highest_in_use(void)
{
    uint64_t highest = 0;
    for (uint64_t tag = 0; tag < TAGS; tag++)
        if (picture.blinds[tag].present && picture.blinds[tag].terminal > highest)
            highest = picture.blinds[tag].terminal;
    return highest;
}

/* How long until nothing is busy any more. */
static uint64_t until_quiet(void)
{
    uint64_t longest = 0;
    for (uint64_t tag = 0; tag < TAGS; tag++) {
        const struct blind *b = &picture.blinds[tag];
        if (!b->present)
            continue;
        uint64_t time = b->rest;
        if (b->motion != AT_REST)
            time += b->length + b->parameters.rpt;
        if (time > longest)
            longest = time;
    }
    return longest;
}

/* ---- Moods: what a stretch of the script is about -------------------- */

enum style { QUICK, DEFAULTS, LARGEST, MIXED };

enum { POOL = 8 };

static struct {
    uint64_t number; /* how many moods there were */
    uint64_t left;   /* lines until the next one */
    uint64_t tags[POOL], addresses[POOL];
    uint64_t tag_count, address_count;
    enum style style;
    int crowded;     /* many blinds, a table that is filled up and over */
    uint64_t crowd;  /* how many blinds */
    uint64_t burst;  /* edits to come in a quiet moment */
} mood;

static const uint64_t usual_addresses[] = {
    1, 2, 3, 4, 255, 256, 257, 4660, 32767, 32768, 65280, 65534, 65535
};
static const uint64_t usual_tags[] = { 0, 1, 2, 3, 5, 31, 32, 61, 62, 63 };

static void new_mood(void)
{
    static const unsigned styles[] = { 72, 10, 3, 15 };
    mood.crowded = mood.number % 8 == 3;
    mood.crowd = chance(850) ? TAGS : between(10, 50);
    mood.number += 1;
    mood.left = mood.crowded ? between(900, 1600) : between(100, 1000);
    mood.style = mood.crowded ? QUICK : (enum style)by_weight(styles, 4);
    mood.tag_count = between(1, 6);
    for (size_t i = 0; i < mood.tag_count; i++)
        mood.tags[i] = ONE_OF(usual_tags);
    mood.address_count = between(4, POOL);
    for (size_t i = 0; i < mood.address_count; i++)
        mood.addresses[i] = ONE_OF(usual_addresses);
}

/* ---- Words of a line ------------------------------------------------- */

enum { WORDS = 16, WORD_BYTES = 64 };

/* The bytes are kept by whoever adds the word. */
static struct {
    const char *bytes;
    size_t length;
} words[WORDS];
static size_t word_count;

static void add_bytes(const char *bytes, size_t length)
{
    words[word_count].bytes = bytes;
    words[word_count].length = length;
    word_count += 1;
}

static void add(const char *word)
{
    add_bytes(word, strlen(word));
}

static void add_number(uint64_t value)
{
    static char texts[WORDS][WORD_BYTES]; /* by the place in the line */
    char *text = texts[word_count];
    int zeros = chance(8) ? (int)between(1, 24) : 0;
    int length = snprintf(text, WORD_BYTES, "%.*s%llu", zeros,
                          "000000000000000000000000", (unsigned long long)value);
    add_bytes(text, (size_t)length);
}

/* ---- Arguments ------------------------------------------------------- */

static uint64_t or_odd(uint64_t usual)
{
    return chance(15) ? odd_number(usual) : usual;
}

static uint64_t a_tag(void)
{
    const struct blind *b = some_blind();
    if (mood.crowded)
        return b && chance(950) ? (uint64_t)(b - picture.blinds) : below(TAGS);
    if (b && chance(400))
        return (uint64_t)(b - picture.blinds);
    return mood.tags[below(mood.tag_count)];
}

/* A tag without a blind, if there is one in the mood's pool. */
static uint64_t an_absent_tag(void)
{
    for (int tries = 0; tries < 200; tries++) {
        uint64_t tag = mood.crowded ? below(TAGS) : mood.tags[below(mood.tag_count)];
        if (!picture.blinds[tag].present)
            return tag;
    }
    return a_tag();
}

static uint64_t a_terminal(void)
{
    static const uint64_t ends[] = { 0, 1, 2, 3, 124, 125, 126, 127 };
    const struct blind *b = some_blind();
    if (chance(100))
        return ONE_OF(ends);
    if (b && chance(400))
        return (b->terminal + between(0, 2) + TERMINALS - 1) % TERMINALS;
    return below(TERMINALS);
}

static uint64_t a_free_terminal(void)
{
    for (int tries = 0; tries < 20; tries++) {
        uint64_t terminal = a_terminal();
        if (is_free(terminal))
            return terminal;
    }
    return a_terminal();
}

/* The first position where position * 255 / MUDT is a half, or as little below
   one as it gets: what stops there shows how reports are rounded. */
static uint64_t by_a_half(uint64_t mudt)
{
    uint64_t best = 3; /* 510ths of the way; 1 and 509 are kept within 1 to 254 */
    for (uint64_t half = 5; half < 509; half += 2)
        if (half * mudt % 510 < best * mudt % 510)
            best = half;
    return best * mudt / 510;
}

static struct parameters some_parameters(void)
{
    /* with 1020 every fourth position is at a half, with 1093 and 1177 one is
       hardly below it */
    static const uint64_t run[] = { 1000, 1000, 1001, 1020, 1093, 1100, 1177, 1275, 2000 };
    static const uint64_t step[] = { 1, 2, 50, 99, 100, 101, 300, 1000 };
    static const uint64_t pause[] = { 100, 100, 101, 130, 200, 1000 };
    struct parameters p;
    p.mudt = ONE_OF(run), p.sst = ONE_OF(step), p.rpt = ONE_OF(pause);
    p.rwa = below(4), p.rra = below(4), p.rfa = below(4);
    if (mood.style == DEFAULTS)
        p = default_parameters;
    if (mood.style == LARGEST)
        p.mudt = 600000, p.sst = 10000, p.rpt = 10000;
    if (mood.style == MIXED) {
        static const uint64_t runs[] = { 1000, 2550, 9999, 10000, 60000, 599999, 600000 };
        static const uint64_t steps[] = { 1, 200, 999, 1000, 9999, 10000 };
        static const uint64_t pauses[] = { 100, 101, 500, 9999, 10000 };
        p.mudt = ONE_OF(runs), p.sst = ONE_OF(steps), p.rpt = ONE_OF(pauses);
    }
    uint64_t half = by_a_half(p.mudt);
    if (half <= 10000 && chance(200)) /* a step from the top ends there */
        p.sst = half;
    if (chance(60))
        p.sst = p.mudt;
    if (p.sst > p.mudt && chance(800))
        p.sst = p.mudt;
    if (chance(400))
        p.rwa = below(4), p.rra = below(4), p.rfa = below(4);
    return p;
}

static void add_parameters(void)
{
    static const uint64_t outside[6][4] = {
        { 999, 600001, 0, 1000 }, { 0, 10001, 1001, 60001 }, { 99, 10001, 0, 1 },
        { 4, 5, 255, 256 }, { 4, 5, 255, 256 }, { 4, 5, 255, 256 }
    };
    struct parameters p = some_parameters();
    uint64_t values[6] = { p.mudt, p.sst, p.rpt, p.rwa, p.rra, p.rfa };
    if (chance(60)) {
        uint64_t which = below(6);
        values[which] = ONE_OF(outside[which]);
    }
    for (size_t i = 0; i < 6; i++)
        add_number(or_odd(values[i]));
}

/* ---- Links and telegrams --------------------------------------------- */

static const struct link *some_link(void)
{
    return picture.link_count ? &picture.links[below(picture.link_count)] : NULL;
}

/* A link of this kind, or a null pointer if there is none. */
static const struct link *some_link_of_kind(uint64_t kind)
{
    const struct link *chosen = NULL;
    uint64_t seen = 0;
    for (uint64_t i = 0; i < picture.link_count; i++)
        if (picture.links[i].kind == kind && below(++seen) == 0)
            chosen = &picture.links[i];
    return chosen;
}

static const struct link *first_link_of(uint64_t address)
{
    for (uint64_t i = 0; i < picture.link_count; i++)
        if (picture.links[i].address == address)
            return &picture.links[i];
    return NULL;
}

/* Kinds that belong together: one class, or one sort of use. */
static uint64_t a_kind_like(uint64_t use)
{
    static const uint64_t alarms[] = { WA, WA, RA, FA };
    static const uint64_t moves[] = { MUD, MUD, STOP, SSUD };
    static const uint64_t bits[] = { WA, RA, FA, MUD, STOP, SSUD };
    switch (use % 7) {
    case 0: return ONE_OF(alarms);
    case 1: return FO;
    case 2: return ONE_OF(moves);
    case 3: return SAPBP;
    case 4: return MUD;
    case 5: return SSUD;
    default: return ONE_OF(bits);
    }
}

/* Each of the mood's addresses has its own use, so that it collects several
   links; the class of a link that is there already goes before. */
static uint64_t a_kind_for(uint64_t address, uint64_t use)
{
    const struct link *there = first_link_of(address);
    if (chance(100))
        return below(8);
    if (!there)
        return a_kind_like(use);
    if (there->kind == FO || there->kind == SAPBP)
        return there->kind;
    return a_kind_like(chance(500) ? 6 : there->kind <= FA ? 0 : 2);
}

static void add_new_link(void)
{
    uint64_t slot = below(mood.address_count);
    uint64_t address = mood.addresses[slot];
    if (mood.crowded && chance(700)) {
        slot = below(1000);
        address = chance(500) ? 300 + slot : 65535 - slot;
    }
    if (picture.link_count == LINKS && chance(300))
        address = some_link()->address;
    add("link");
    add_number(or_odd(address));
    add_number(or_odd(a_tag()));
    add_number(or_odd(a_kind_for(address, slot)));
}

static void add_old_link(const char *command)
{
    const struct link *link = some_link();
    if (chance(200) && picture.link_count)
        link = chance(500) ? &picture.links[0] : &picture.links[picture.link_count - 1];
    add(command);
    if (!link) {
        add_number(or_odd(mood.addresses[0]));
        add_number(or_odd(a_tag()));
        add_number(or_odd(below(8)));
        return;
    }
    add_number(or_odd(link->address));
    add_number(or_odd(chance(950) ? link->tag : a_tag()));
    add_number(or_odd(chance(950) ? link->kind : below(8)));
}

/* The SAPBP value whose target is where the blind stands, or else the next
   one further down. */
static uint64_t height_of(const struct blind *b)
{
    return (b->position * 255 + b->parameters.mudt - 1) / b->parameters.mudt;
}

/* Whether SAPBP with that value would be a stop: "length 0 is a stop". */
static int stands_at_target(const struct blind *b)
{
    uint64_t v = height_of(b);
    return b->valid && b->motion != AT_REST && v != 0 && v != 255
        && v * b->parameters.mudt / 255 == b->position;
}

/* Whether it rests at the top, and a step down ends by a half. */
static int steps_to_a_half(const struct blind *b)
{
    return b->motion == AT_REST && b->position == 0
        && b->parameters.sst == by_a_half(b->parameters.mudt);
}

static uint64_t a_value_for(uint64_t address)
{
    static const uint64_t outside[] = { 2, 3, 4, 127, 128, 254, 255, 256, 257 };
    static const uint64_t heights[] = { 1, 2, 64, 85, 127, 128, 129, 170, 253, 254 };
    const struct link *link = first_link_of(address);
    if (!link || chance(30))
        return ONE_OF(outside);
    if (link->kind == FO)
        return chance(600) ? below(2) : between(2, 3);
    if (link->kind <= FA)
        return chance(650) ? 0 : 1;
    if (link->kind != SAPBP)
        return below(2);
    if (chance(350))
        return chance(500) ? 0 : 255;
    if (chance(200))
        return height_of(&picture.blinds[link->tag]);
    return chance(600) ? ONE_OF(heights) : below(256);
}

/* The telegram at hand: the last one, or one that is about to follow. */
static struct {
    uint64_t address, value;
    int follows; /* a `why` asked for it already */
} aim;

static void take_aim(void)
{
    const struct link *byte = some_link_of_kind(SAPBP);
    const struct link *step = some_link_of_kind(SSUD);
    if (byte && stands_at_target(&picture.blinds[byte->tag]) && chance(400)) {
        aim.address = byte->address;
        aim.value = height_of(&picture.blinds[byte->tag]);
    } else if (step && steps_to_a_half(&picture.blinds[step->tag]) && chance(200)) {
        aim.address = step->address;
        aim.value = 1;
    } else if (!chance(60)) { /* else the same once more */
        static const unsigned kinds[] = { 12, 8, 8, 12, 18, 8, 16, 22 };
        const struct link *link = some_link_of_kind(by_weight(kinds, 8));
        if (!link)
            link = some_link();
        aim.address = link && chance(950) ? link->address
                                          : mood.addresses[below(mood.address_count)];
        aim.value = a_value_for(aim.address);
    }
}

static void add_telegram(void)
{
    if (!aim.follows)
        take_aim();
    aim.follows = 0;
    add("tel");
    add_number(or_odd(aim.address));
    add_number(or_odd(aim.value));
}

/* ---- Why ------------------------------------------------------------- */

/* A link whose MUD would change the sort of a run and nothing else: the blind
   has just begun a step that is as long as a full run. */
static const struct link *link_to_a_long_step(void)
{
    for (uint64_t i = 0; i < picture.link_count; i++) {
        const struct blind *b = &picture.blinds[picture.links[i].tag];
        if (picture.links[i].kind == MUD && b->motion == RUNNING && b->sort == STEP
            && b->length == b->parameters.mudt)
            return &picture.links[i];
    }
    return NULL;
}

/* As for any telegram, but more often one that changes only a sort, or a run
   to a position where it is not valid. */
static void take_aim_to_ask(void)
{
    const struct link *step = link_to_a_long_step();
    const struct link *byte = some_link_of_kind(SAPBP);
    take_aim();
    if (step && chance(800)) {
        aim.address = step->address;
        aim.value = picture.blinds[step->tag].direction == DOWN;
    } else if (byte && !picture.blinds[byte->tag].valid && chance(350)) {
        aim.address = byte->address;
        aim.value = a_value_for(aim.address);
    }
}

static int is_linked(uint64_t address, uint64_t tag)
{
    for (uint64_t i = 0; i < picture.link_count; i++)
        if (picture.links[i].address == address && picture.links[i].tag == tag)
            return 1;
    return 0;
}

/* Mostly a tag with a link on the address, one with several of them more
   often; else one that is linked elsewhere, or any tag. */
static uint64_t a_tag_to_ask(uint64_t address)
{
    uint64_t tag = a_tag(), seen = 0;
    if (chance(80))
        return below(TAGS);
    if (chance(120))
        return tag;
    for (uint64_t i = 0; i < picture.link_count; i++)
        if (picture.links[i].address == address && below(++seen) == 0)
            tag = picture.links[i].tag;
    return tag;
}

/* The value of the telegram, or another one, also of another class: that more
   often where it goes to other blinds only. */
static uint64_t a_value_to_ask(uint64_t tag)
{
    static const uint64_t others[] = { 2, 3, 4, 127, 128, 254, 255 };
    if (chance(is_linked(aim.address, tag) ? 80 : 400))
        return ONE_OF(others);
    return chance(850) ? aim.value : a_value_for(aim.address);
}

/* Before a telegram, which then follows, or after one. An absent tag comes more
   often with an argument outside its range: there it shows which of the two is
   noticed first. */
static void add_why(void)
{
    static const uint64_t outside[3][2] = { { 64, 255 }, { 0, 65536 }, { 256, 257 } };
    if (chance(600)) {
        take_aim_to_ask();
        aim.follows = 1;
    }
    uint64_t tag = a_tag_to_ask(aim.address);
    uint64_t numbers[3] = { tag, aim.address, a_value_to_ask(tag) };
    if (chance(picture.blinds[tag].present ? 50 : 300)) {
        uint64_t which = below(3);
        numbers[which] = chance(300) ? ONE_OF(outside[which]) : odd_number(numbers[which]);
    }
    add("why");
    for (size_t i = 0; i < 3; i++)
        add_number(numbers[i]);
}

/* ---- Time ------------------------------------------------------------ */

/* When this running blind comes by the target of some SAPBP, if it does. */
static uint64_t at_some_target(const struct blind *b)
{
    uint64_t target = between(1, 254) * b->parameters.mudt / 255;
    if (b->direction == DOWN && target > b->position)
        return target - b->position;
    if (b->direction == UP && target < b->position)
        return b->position - target;
    return b->length;
}

/* When something happens to this blind. */
static uint64_t a_moment_of(const struct blind *b)
{
    uint64_t rpt = b->parameters.rpt;
    if (b->motion == RUNNING && chance(200))
        return at_some_target(b);
    if (b->motion == RUNNING)
        return chance(700) ? b->length : b->length + rpt;
    if (b->motion == WAITING)
        return chance(600) ? b->rest : b->rest + b->length + (chance(500) ? rpt : 0);
    if (b->rest > 0)
        return b->rest;
    return chance(500) ? rpt : b->parameters.sst;
}

/* A moment, and sometimes a millisecond before or after it. */
static uint64_t around(uint64_t moment)
{
    switch (below(4)) {
    case 0: return moment > 0 ? moment - 1 : 0;
    case 1: return moment + 1;
    default: return moment;
    }
}

static uint64_t a_time(void)
{
    static const uint64_t rare[] = { 0, 0, 60000, 60001, 59999, 100, 101, 99 };
    const struct blind *b = some_blind();
    uint64_t time = 1;
    switch (below(16)) {
    case 0: time = ONE_OF(rare); break;
    case 1: case 2: break;
    case 3: case 4: time = below(130); break;
    case 5:
        time = until_quiet();
        mood.burst = between(4, 10);
        break;
    case 6: case 7: case 8: case 9:
        time = b ? below(a_moment_of(b) + 1) : 1;
        break;
    default: time = b ? around(a_moment_of(b)) : 1;
    }
    if (time > 60001 && !chance(20))
        time = chance(800) ? 60000 : below(60000);
    return time;
}

/* ---- Splices --------------------------------------------------------- */

static uint64_t a_splice_place(void)
{
    static const uint64_t ends[] = { 0, 0, 1, 126, 127, 127, 128, 129 };
    const struct blind *b = some_blind();
    if (!b || chance(250))
        return ONE_OF(ends);
    return chance(700) ? around(b->terminal) : below(TERMINALS);
}

static void add_splice_in(void)
{
    uint64_t t = a_splice_place(), n = between(1, 3);
    if (highest_in_use() < 127 && chance(500))
        n = between(1, 127 - highest_in_use());
    else if (chance(250))
        n = around(127 - highest_in_use());
    else if (chance(200) && t <= 128)
        n = around(128 - t);
    add("in");
    add_number(or_odd(t));
    add_number(chance(20) ? 0 - t + below(3) : or_odd(n));
}

static void add_splice_out(void)
{
    uint64_t t = a_splice_place(), n = between(1, 3);
    if (chance(400) && t < TERMINALS)
        n = around(next_in_use(t) - t);
    else if (chance(150) && t <= 128)
        n = around(128 - t);
    add("out");
    add_number(or_odd(t));
    add_number(chance(20) ? 0 - t + below(3) : or_odd(n));
}

/* ---- Plant files ----------------------------------------------------- */

/* Files are read in rows: since a bad one leaves an empty panel, others that
   are damaged cost no more, and the panel's own file ends the row. */
static struct {
    struct file good;
    uint64_t left; /* files of the row to come */
    int look;      /* `show` or `write` is to follow */
} row;

static void begin_row(void)
{
    good_file(&picture, &row.good);
    row.left = chance(150) ? 1 : between(6, 16);
}

/* A file of the row, and seldom none or a second word. */
static void add_read(void)
{
    static struct file file;
    static char word[FILE_WORD_BYTES];
    if (row.left == 0)
        begin_row();
    row.left -= 1;
    file = row.good;
    if (row.left > 0 || chance(50))
        damage_file(&file);
    row.look = chance(row.left > 0 ? 200 : 700);
    add("read");
    if (!chance(10))
        add_bytes(word, pack_file(&file, word));
    if (chance(20))
        add("plant");
}

/* Mostly the whole buffer; else one that is as long, a byte shorter or longer,
   or that is one of these once high bits are lost. */
static void add_write(void)
{
    static const uint64_t lent[] = {
        0, 1, PLANT_BYTES - 1, PLANT_BYTES - 1, PLANT_BYTES, PLANT_BYTES, PLANT_BYTES + 1
    };
    uint64_t bytes = ONE_OF(lent);
    add("write");
    if (chance(300))
        add_number(chance(400) ? odd_number(bytes) : bytes);
}

/* ---- Commands -------------------------------------------------------- */

enum command {
    INSTALL, REMOVE, PARAMS, LINK, UNLINK, IN, OUT, TEL, TIME, STRIP, INV, PERCENT,
    WHY, WRITE, READ, SHOW, NEW, COMMANDS
};

/* How often each command comes, in the order of the list above. */
static const unsigned normally[COMMANDS] =
    { 20, 8, 14, 60, 25, 16, 14, 350, 260, 50, 12, 12, 95, 10, 2, 90, 1 };
static const unsigned in_a_burst[COMMANDS] =
    { 40, 40, 120, 60, 30, 240, 200, 60, 20, 10, 10, 5, 20, 10, 0, 140, 0 };
static const unsigned in_a_crowd[COMMANDS] =
    { 40, 8, 10, 300, 100, 20, 20, 220, 50, 25, 40, 10, 60, 5, 2, 12, 0 };
static const unsigned to_install[COMMANDS] =
    { 900, 5, 5, 30, 5, 5, 5, 10, 10, 5, 10, 5, 10, 10, 1, 10, 0 };
static const unsigned to_link[COMMANDS] =
    { 20, 1, 5, 900, 10, 3, 3, 60, 20, 5, 10, 5, 20, 5, 2, 10, 0 };

static enum command a_command(void)
{
    uint64_t blinds = blinds_present(), links = picture.link_count;
    const unsigned *weights = normally;
    if (aim.follows)
        return TEL;
    if (row.look)
        return chance(500) ? SHOW : WRITE;
    if (row.left > 0)
        return READ;
    if (link_to_a_long_step() && chance(500))
        return WHY;
    if (blinds == TAGS && chance(20))
        return INV;
    if (mood.crowded)
        weights = blinds < mood.crowd ? to_install : links < LINKS ? to_link : in_a_crowd;
    else if (blinds == 0 || (blinds < mood.tag_count && chance(40)))
        weights = to_install;
    else if (links < 4 * blinds && chance(250))
        weights = to_link;
    else if (mood.burst > 0)
        weights = in_a_burst;
    if (mood.burst > 0)
        mood.burst -= 1;
    return (enum command)by_weight(weights, COMMANDS);
}

static void add_install(void)
{
    add("install");
    add_number(or_odd(chance(850) ? an_absent_tag() : a_tag()));
    add_number(or_odd(chance(850) ? a_free_terminal() : a_terminal()));
    if (mood.style != DEFAULTS || chance(300))
        add_parameters();
}

static void add_params(void)
{
    add("params");
    add_number(or_odd(a_tag()));
    if (chance(850))
        add_parameters();
}

/* Mostly a report without its 256; else the first number above, or one that a
   narrow number would take for such a report. */
static void add_percent(void)
{
    uint64_t raw = below(256);
    if (chance(150))
        raw = chance(300) ? 256 : odd_number(raw);
    add("percent");
    add_number(raw);
}

static void add_command(enum command command)
{
    row.look = 0;
    switch (command) {
    case INSTALL: add_install(); break;
    case REMOVE: add("remove"); add_number(or_odd(a_tag())); break;
    case PARAMS: add_params(); break;
    case LINK: chance(60) ? add_old_link("link") : add_new_link(); break;
    case UNLINK: add_old_link("unlink"); break;
    case IN: add_splice_in(); break;
    case OUT: add_splice_out(); break;
    case TEL: add_telegram(); break;
    case TIME: add("time"); add_number(or_odd(a_time())); break;
    case STRIP: add("strip"); break;
    case INV: add("inv"); break;
    case PERCENT: add_percent(); break;
    case WHY: add_why(); break;
    case WRITE: add_write(); break;
    case READ: add_read(); break;
    case SHOW: add("show"); break;
    default: add("new"); break;
    }
}

/* ---- Damaged words --------------------------------------------------- */

static void damage_command(void)
{
    static const char *const names[] = {
        "Install", "NEW", "instal", "installs", "tell", "te", "tel1", "times",
        "i", "in.", "outt", "stripe", "invent", "percen", "percents", "%", "wh",
        "whys", "why?", "Why", "reads", "rea", "Read", "writ", "write1", "wread", "sho",
        "shows", "news", "0", "error:", "quit", "help", "-", "new#", "parameters", "links", "\"inv\""
    };
    const char *name = ONE_OF(names);
    words[0].bytes = name;
    words[0].length = strlen(name);
}

static void damage_number(void)
{
    static const char *const numbers[] = {
        "-1", "+1", "-0", "1a", "a", "0x10", "1.0", "1e3", "1,000", "1_000", "--",
        "#1", "''", "18446744073709551616", "18446744073709551617",
        "18446744073709551620", "18446744073709551625", "18446744073709551679",
        "36893488147419103233", "99999999999999999999", "100000000000000000000",
        "340282366920938463463374607431768211457", "00018446744073709551615",
        "00018446744073709551616", "184467440737095516150", "1844674407370955161",
        "\xef\xbc\x91", "\xb2", ":", "/", "5:", "/5"
    };
    const char *number = ONE_OF(numbers);
    if (word_count < 2)
        return;
    size_t which = (size_t)between(1, word_count - 1);
    words[which].bytes = number;
    words[which].length = strlen(number);
}

static void damage_words(void)
{
    static const char *const more[] = { "0", "1", "7", "x", "#", "# a word", "new" };
    switch (below(5)) {
    case 0: damage_command(); break;
    case 1: case 2: damage_number(); break;
    case 3: word_count -= 1; break;
    default: add(ONE_OF(more));
    }
}

/* ---- Lines ----------------------------------------------------------- */

enum { LONGEST = 140000 };

static char line[LONGEST + 16];
static size_t line_length;

static void append(const char *bytes, size_t length)
{
    memcpy(line + line_length, bytes, length);
    line_length += length;
}

static void append_blanks(int odd)
{
    static const char *const blanks[] = { "  ", "\t", " \t", "\t\t ", "     " };
    const char *some = odd ? ONE_OF(blanks) : " ";
    append(some, strlen(some));
}

static void join_words(void)
{
    int odd = chance(30);
    line_length = 0;
    if (odd && chance(500))
        append_blanks(odd);
    for (size_t i = 0; i < word_count; i++) {
        if (i > 0)
            append_blanks(odd);
        append(words[i].bytes, words[i].length);
    }
    if (odd && chance(500))
        append_blanks(odd);
}

/* Puts a byte somewhere, or takes one away. */
static void damage_bytes(void)
{
    static const char bytes[] = {
        0, 0, 0, 0, 1, '\r', '\v', '\f', 27, 127, '\x80', '\xa0', '\xff', 'a', '0', '-',
        '#', '.', ' ', '\t'
    };
    size_t at = (size_t)below(line_length + 1);
    if (chance(200) && at < line_length) {
        memmove(line + at, line + at + 1, line_length - at - 1);
        line_length -= 1;
    } else {
        memmove(line + at + 1, line + at, line_length - at);
        line[at] = ONE_OF(bytes);
        line_length += 1;
    }
}

/* Mostly short of what a line may have, else around it, else far beyond. */
static size_t a_long_length(void)
{
    static const size_t lengths[] = { 255, 256, 257, 258, 512, 513, 1000, 4096, 4097 };
    static const size_t ends[] = {
        LINE_BYTES - 1, LINE_BYTES, LINE_BYTES, LINE_BYTES + 1, LINE_BYTES + 1, LINE_BYTES + 2
    };
    static const size_t very[] = { 65535, 65536, 65537, 131073, LONGEST };
    if (chance(20))
        return ONE_OF(very);
    return chance(450) ? ONE_OF(ends) : ONE_OF(lengths);
}

/* Stretches the line: blanks before it, within it or after it, or zeros
   before its last number. */
static void stretch(void)
{
    size_t wanted = a_long_length(), at = line_length;
    int how = (int)below(4);
    if (wanted <= line_length)
        return;
    if (how == 0)
        at = 0;
    if (how >= 2)
        while (at > 0 && line[at - 1] != ' ' && line[at - 1] != '\t')
            at -= 1;
    memmove(line + wanted - (line_length - at), line + at, line_length - at);
    memset(line + at, how == 3 ? '0' : chance(800) ? ' ' : '\t', wanted - line_length);
    line_length = wanted;
}

static void silent_line(void)
{
    static const struct {
        const char *bytes;
        size_t length;
    } lines[] = {
        { "", 0 }, { "", 0 }, { " ", 1 }, { "\t", 1 }, { " \t  ", 4 }, { "#", 1 },
        { "# a comment", 11 }, { "#new", 4 }, { " # new", 6 }, { "\t#", 2 },
        { "#\0new", 5 }, { "#\xff\x80", 3 }, { "#\r#", 3 }, { "# time 60000", 12 }
    };
    size_t which = (size_t)below(sizeof lines / sizeof lines[0]);
    line_length = 0;
    append(lines[which].bytes, lines[which].length);
    if (chance(50))
        stretch();
}

static void command_line(void)
{
    word_count = 0;
    if (mood.left == 0) {
        new_mood();
        if (chance(500))
            add("new");
    } else {
        mood.left -= 1;
    }
    if (word_count == 0)
        add_command(a_command());
    int damaged = chance(40);
    if (damaged && chance(700))
        damage_words();
    join_words();
    if (damaged && chance(400))
        damage_bytes();
    if (chance(2))
        stretch();
}

static void a_line(void)
{
    if (chance(12))
        silent_line();
    else
        command_line();
    if (chance(20))
        append("\r", 1);
    if (chance(1))
        append("\r", 1);
}

/* Writes one line and carries it out on the picture; whether it is
   answered. */
static int write_line(uint64_t number)
{
    static struct text answer;
    if (number > 1)
        putchar('\n');
    a_line();
    fwrite(line, 1, line_length, stdout);
    carry_out_line(&picture, line, line_length, number, &answer);
    return answer.length > 0;
}

int main(int count, char **arguments)
{
    if (count != 3) {
        fprintf(stderr, "usage: scripts SEED COUNT\n");
        return 2;
    }
    uint64_t seed = strtoull(arguments[1], NULL, 10);
    uint64_t wanted = strtoull(arguments[2], NULL, 10);
    begin_chance(seed);
    picture = empty_panel();
    for (uint64_t number = 1, answered = 0; answered < wanted; number++)
        answered += (uint64_t)write_line(number);
    if (wanted > 0 && seed % 2 == 0)
        putchar('\n');
    return ferror(stdout) || fflush(stdout) ? 1 : 0;
}
