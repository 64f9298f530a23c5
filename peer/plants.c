/* Plant files: K3's example word for word, the buffer lent, the longest file,
   what is read back, and each sort of bad line. Words in quotation marks are
   those of K3 in document 02. A part of `refusals`. */

#include "plant.h"
#include "refusals.h"

#include <string.h>

static struct panel panel;
static char file[PLANT_BYTES + 1]; /* a byte more than is lent */

/* ---- Reading and writing --------------------------------------------- */

/* Whether all bytes from this one on are as begin() set them. */
static int untouched_from(uint64_t at)
{
    while (at < sizeof file && file[at] == (char)0xa5)
        at += 1;
    return at == sizeof file;
}

static void begin(void)
{
    memset(file, 0xa5, sizeof file);
}

/* "answers the length and leaves the rest" */
static uint64_t write_out(const struct panel *p, const char *what)
{
    begin();
    struct answer answer = write_plant(p, file, PLANT_BYTES);
    expect(answer.number == DONE && answer.count <= PLANT_BYTES, what);
    expect(untouched_from(answer.count), what);
    return answer.count;
}

/* Reads into a panel full of other bytes: what stood there means nothing. */
static uint64_t read_in(const char *bytes, uint64_t length)
{
    memset(&panel, 0xa5, sizeof panel);
    return read_plant(bytes, length, &panel);
}

static int same_wiring_with_fresh_blinds(const struct panel *got, const struct panel *p)
{
    for (uint64_t tag = 0; tag < TAGS; tag++) {
        const struct blind *b = &p->blinds[tag];
        struct blind fresh = fresh_blind(b->terminal, b->parameters);
        if (got->blinds[tag].present != b->present)
            return 0;
        if (b->present && memcmp(&got->blinds[tag], &fresh, sizeof fresh) != 0)
            return 0;
    }
    return got->link_count == p->link_count
        && memcmp(got->links, p->links, sizeof p->links) == 0;
}

/* "What the writer writes reads back as the same wiring with fresh blinds" */
static void expect_read_back(const struct panel *p, const char *what)
{
    uint64_t length = write_out(p, what);
    expect(read_in(file, length) == 0, what);
    expect(same_wiring_with_fresh_blinds(&panel, p), what);
}

/* "every file that reads is what the writer would write" */
static void expect_good(const char *bytes, uint64_t length)
{
    expect(read_in(bytes, length) == 0, bytes);
    expect(write_out(&panel, bytes) == length && memcmp(file, bytes, length) == 0, bytes);
}

/* "the number of the first bad line and leaves an empty panel" */
static void expect_bad(const char *bytes, uint64_t length, uint64_t number)
{
    struct panel empty = empty_panel();
    expect(read_in(bytes, length) == number, bytes);
    expect(memcmp(&panel, &empty, sizeof panel) == 0, bytes);
}

#define GOOD(text) expect_good(text, sizeof(text) - 1)
#define BAD(text, number) expect_bad(text, sizeof(text) - 1, number)

/* ---- The writer ------------------------------------------------------ */

#define FIRST "plant\t1\n"
#define BLIND "blind\t5\t9\t60000\t200\t500\t1\t1\t0\n"
#define LINK "link\t2305\t5\t4\n"

/* "Whole example, with ⇥ for a tab: `plant⇥1`,
   `blind⇥5⇥9⇥60000⇥200⇥500⇥1⇥1⇥0`, `link⇥2305⇥5⇥4`." */
static void example(void)
{
    static const char text[] = FIRST BLIND LINK;
    struct panel p = empty_panel();
    struct parameters parameters = { 60000, 200, 500, 1, 1, 0 };
    install(&p, 5, 9, parameters);
    add_link(&p, 2305, 5, MUD);
    uint64_t length = write_out(&p, "example");
    expect(length == sizeof text - 1 && memcmp(file, text, length) == 0, "example");
    expect_read_back(&p, "example");
}

/* "a shorter buffer is answered 13 (new, checked with 11)" */
static void buffers_lent(void)
{
    static const uint64_t lent[] = {
        0, 1, 8, 16383, 16384, 16385, 1ull << 32, UINT64_MAX
    };
    struct panel p = sound_panel();
    for (size_t i = 0; i < sizeof lent / sizeof lent[0]; i++) {
        begin();
        struct answer answer = write_plant(&p, file, lent[i]);
        if (lent[i] < 16384) {
            expect(answer.number == BUFFER_TOO_SHORT && answer.count == 0, "short buffer");
            expect(untouched_from(0), "short buffer");
        } else {
            expect(answer.number == DONE && answer.count > 0, "long enough buffer");
        }
    }
}

/* The longest file: 64 blinds and 512 links whose numbers have as many digits
   as they can. Its last line is bad without a line feed, and one more link is
   bad behind it. */
static void fullest_panel(void)
{
    static const char more[] = "link\t65535\t63\t7\n";
    struct parameters p = { 600000, 10000, 10000, 3, 3, 3 };
    struct panel full = empty_panel();
    for (uint64_t tag = 0; tag < TAGS; tag++)
        install(&full, tag, tag + TERMINALS - TAGS, p);
    for (uint64_t address = 65535 - LINKS; address < 65535; address++)
        add_link(&full, address, 63, SAPBP);
    expect_read_back(&full, "fullest panel");
    uint64_t length = write_out(&full, "fullest panel"), lines = 1 + TAGS + LINKS;
    expect(length == 10586, "fullest panel");
    expect_bad(file, length - 1, lines);
    memcpy(file + length, more, sizeof more - 1);
    expect_bad(file, length + sizeof more - 1, lines + 1);
}

/* ---- The reader ------------------------------------------------------ */

static void form_of_lines(void)
{
    BAD("", 1);
    BAD("\n", 1);
    BAD("plant\t1", 1);
    BAD("plant\t1\r\n", 1);
    BAD("plant 1\n", 1);
    BAD("plant\t\n", 1);
    BAD("plant\n", 1);
    BAD("plant\t1\t\n", 1);
    BAD("plant\t1\t1\n", 1);
    BAD("plant\t\t1\n", 1);
    BAD("\tplant\t1\n", 1);
    BAD("Plant\t1\n", 1);
    BAD("plant\t01\n", 1);
    BAD("plant\t+1\n", 1);
    BAD("plant\t1\0\n", 1);
    BAD("\0" FIRST, 1);
    BAD(FIRST "\n", 2);
    BAD(FIRST "\n" BLIND, 2);
    BAD(FIRST "\0", 2);
    BAD(FIRST " ", 2);
    BAD(FIRST BLIND LINK "link", 4);
    BAD(FIRST BLIND "link\t2305\t5\t4", 3);
    BAD(FIRST BLIND "link\t2305\t5\n", 3);
    BAD(FIRST BLIND "link\t2305\t5\t4\t0\n", 3);
    BAD(FIRST BLIND "link\t2305\t5\t4\t0\t0\t0\t0\t0\t0\n", 3);
    BAD(FIRST BLIND "links\t2305\t5\t4\n", 3);
    BAD(FIRST BLIND "lin\t2305\t5\t4\n", 3);
    BAD(FIRST BLIND "\t2305\t5\t4\n", 3);
    BAD(FIRST "blind\t5\t9\t60000\t200\t500\t1\t1\n", 2);
    BAD(FIRST "blind\t5\t9\t60000\t200\t500\t1\t1\t0\t0\n", 2);
    BAD(FIRST "blind\t5\t9\t60000\t200\t500\t1\t1\t0\t\n", 2);
    BAD(FIRST "blind\t5\t9\t60000\t200\t500\t1\t1\t00\n", 2);
    BAD(FIRST "blind\t-0\t9\t60000\t200\t500\t1\t1\t0\n", 2);
    BAD(FIRST "blind\t5\t9\t60000\t200\t500\t1\t1\t0 \n", 2);
    BAD(FIRST "blind\t5\t9\t60000\t18446744073709551816\t500\t1\t1\t0\n", 2);
    BAD(FIRST "blind\t5\t9\t60000\t100000000000000000000000200\t500\t1\t1\t0\n", 2);
}

/* Parameters are document 01's, at both ends of their ranges. */
static void ranges(void)
{
    GOOD(FIRST "blind\t0\t0\t1000\t1\t100\t0\t0\t0\n");
    GOOD(FIRST "blind\t63\t127\t600000\t10000\t10000\t3\t3\t3\n");
    GOOD(FIRST BLIND "link\t1\t5\t0\nlink\t65535\t5\t7\n");
    BAD("plant\t0\n", 1);
    BAD("plant\t2\n", 1);
    BAD("plant\t4294967297\n", 1);
    BAD(FIRST "blind\t64\t9\t60000\t200\t500\t1\t1\t0\n", 2);
    BAD(FIRST "blind\t5\t128\t60000\t200\t500\t1\t1\t0\n", 2);
    BAD(FIRST "blind\t5\t9\t999\t200\t500\t1\t1\t0\n", 2);
    BAD(FIRST "blind\t5\t9\t600001\t200\t500\t1\t1\t0\n", 2);
    BAD(FIRST "blind\t5\t9\t60000\t0\t500\t1\t1\t0\n", 2);
    BAD(FIRST "blind\t5\t9\t60000\t10001\t500\t1\t1\t0\n", 2);
    BAD(FIRST "blind\t5\t9\t1000\t1001\t500\t1\t1\t0\n", 2);
    BAD(FIRST "blind\t5\t9\t60000\t200\t99\t1\t1\t0\n", 2);
    BAD(FIRST "blind\t5\t9\t60000\t200\t10001\t1\t1\t0\n", 2);
    BAD(FIRST "blind\t5\t9\t60000\t200\t500\t4\t1\t0\n", 2);
    BAD(FIRST "blind\t5\t9\t60000\t200\t500\t1\t4\t0\n", 2);
    BAD(FIRST "blind\t5\t9\t60000\t200\t500\t1\t1\t4\n", 2);
    BAD(FIRST BLIND "link\t0\t5\t4\n", 3);
    BAD(FIRST BLIND "link\t65536\t5\t4\n", 3);
    BAD(FIRST BLIND "link\t2305\t64\t4\n", 3);
    BAD(FIRST BLIND "link\t2305\t5\t8\n", 3);
}

#define BLIND_6 "blind\t6\t10\t60000\t200\t500\t1\t1\t0\n"

/* "its place in the order", and what "01 forbids [...] beside the lines
   before" */
static void order_of_lines(void)
{
    GOOD(FIRST);
    GOOD(FIRST BLIND);
    GOOD(FIRST BLIND BLIND_6 "link\t7\t5\t4\nlink\t7\t6\t0\nlink\t7\t6\t4\n" LINK);
    BAD(BLIND, 1);
    BAD(LINK, 1);
    BAD(FIRST FIRST, 2);
    BAD(FIRST BLIND FIRST, 3);
    BAD(FIRST BLIND LINK FIRST, 4);
    BAD(FIRST BLIND BLIND, 3);
    BAD(FIRST BLIND_6 BLIND, 3);
    BAD(FIRST BLIND LINK BLIND_6, 4);
    BAD(FIRST LINK BLIND, 2);
    BAD(FIRST BLIND "blind\t6\t9\t60000\t200\t500\t1\t1\t0\n", 3);
    BAD(FIRST BLIND_6 LINK, 3);
    BAD(FIRST BLIND LINK LINK, 4);
    BAD(FIRST BLIND LINK "link\t2304\t5\t4\n", 4);
    BAD(FIRST BLIND BLIND_6 "link\t7\t6\t4\nlink\t7\t5\t4\n", 5);
    BAD(FIRST BLIND LINK "link\t2305\t5\t0\n", 4);
    BAD(FIRST BLIND LINK "link\t2305\t5\t7\n", 4);
}

void plant_files(void)
{
    struct panel p = sound_panel(), empty = empty_panel();
    example();
    buffers_lent();
    fullest_panel();
    expect_read_back(&p, "a panel that moves");
    expect_read_back(&empty, "the empty panel");
    form_of_lines();
    ranges();
    order_of_lines();
}
