/* "Why didn't it move?" Words in quotation marks are those of K1 in document
   02, or document 01's where it says so. It stands above the panel's calls:
   what a link does is tried on a small panel of its own. */

#include "why.h"

/* ---- Answers --------------------------------------------------------- */

static struct explanation refused(enum number number)
{
    struct explanation answer = { number, NO_REASON, 0 };
    return answer;
}

static struct explanation because(enum reason reason)
{
    struct explanation answer = { DONE, reason, 0 };
    return answer;
}

/* "waiting for the pause with the milliseconds left" */
static struct explanation because_it_waits(uint64_t left)
{
    struct explanation answer = { DONE, WAITS_FOR_THE_PAUSE, left };
    return answer;
}

/* ---- Trying a link --------------------------------------------------- */

/* What this one link does to the blind: a telegram to a panel that has nothing
   but the two. A value that is not of the class is answered 6. */
static uint64_t deliver(struct blind *b, struct link link, uint64_t value)
{
    uint16_t cells[TAGS];
    struct panel trial = empty_panel();
    trial.blinds[link.tag] = *b;
    trial.links[0] = link;
    trial.link_count = 1;
    struct answer answer = telegram(&trial, link.address, value, cells, TAGS);
    *b = trial.blinds[link.tag];
    return answer.number;
}

/* ---- The link that is judged ----------------------------------------- */

static int is_between(struct link link, uint64_t address, uint64_t tag)
{
    return link.address == address && link.tag == tag;
}

/* "With several links on the address it speaks of the last in table order".
   The links of other tags speak to other blinds and are passed over.
   link_count if there is no link between the two. */
static uint64_t place_judged(const struct panel *panel, uint64_t address, uint64_t tag)
{
    uint64_t last = panel->link_count;
    for (uint64_t place = 0; place < panel->link_count; place++)
        if (is_between(panel->links[place], address, tag))
            last = place;
    return last;
}

/* "judged after the earlier ones are delivered": the blind as they leave it */
static struct blind as_it_is_judged(const struct panel *panel, uint64_t last,
                                    uint64_t value)
{
    struct link judged = panel->links[last];
    struct blind b = panel->blinds[judged.tag];
    for (uint64_t place = 0; place < last; place++)
        if (is_between(panel->links[place], judged.address, judged.tag))
            deliver(&b, panel->links[place], value);
    return b;
}

/* ---- What holds ------------------------------------------------------ */

/* "under wind, rain, frost or forced (the one that rules)". Document 01: "The
   first of wind, rain, frost that is on and whose reaction is not ignore [...]
   Otherwise forced". */
static enum reason ruler(const struct blind *b)
{
    if (b->wind && b->parameters.rwa != IGNORE)
        return UNDER_WIND;
    if (b->rain && b->parameters.rra != IGNORE)
        return UNDER_RAIN;
    if (b->frost && b->parameters.rfa != IGNORE)
        return UNDER_FROST;
    if (b->forced != NEITHER)
        return UNDER_FORCED;
    return NO_REASON;
}

/* "wrong class (6)" */
static int is_of_another_class(const struct panel *panel, struct link link, uint64_t value)
{
    struct blind b = panel->blinds[link.tag];
    return deliver(&b, link, value) == NOT_OF_THE_CLASS;
}

/* "dropped under": document 01 drops kinds 4 to 7 only */
static int is_dropped(const struct blind *b, uint64_t kind)
{
    return kind > FO && ruler(b) != NO_REASON;
}

/* "dropped for lack of a valid position": document 01 drops a SAPBP other than
   0 and 255 */
static int lacks_position(const struct blind *b, uint64_t kind, uint64_t value)
{
    return kind == SAPBP && value != 0 && value != 255 && !b->valid;
}

static int same_flags(const struct blind *a, const struct blind *b)
{
    return a->wind == b->wind && a->rain == b->rain && a->frost == b->frost
        && a->forced == b->forced;
}

/* At rest there is no order: what stands in its three fields carries
   nothing. */
static int same_order(const struct blind *a, const struct blind *b)
{
    if (a->motion != b->motion)
        return 0;
    if (a->motion == AT_REST)
        return 1;
    return a->direction == b->direction && a->sort == b->sort
        && a->length == b->length;
}

static int same_parameters(const struct parameters *a, const struct parameters *b)
{
    return a->mudt == b->mudt && a->sst == b->sst && a->rpt == b->rpt
        && a->rwa == b->rwa && a->rra == b->rra && a->rfa == b->rfa;
}

/* The opposite of "leaves some blind field changed" */
static int same_blind(const struct blind *a, const struct blind *b)
{
    return a->present == b->present && a->valid == b->valid && a->last == b->last
        && a->rest == b->rest && a->position == b->position
        && a->terminal == b->terminal && same_flags(a, b) && same_order(a, b)
        && same_parameters(&a->parameters, &b->parameters);
}

/* ---- The question ---------------------------------------------------- */

/* The last link alone, on the blind that the earlier ones left: "acts" is
   given "exactly when delivery leaves some blind field changed and no order
   waiting", "waiting" is given "when an order waits after the delivery,
   changed or not", and "Whatever is left is "already so"." */
static struct explanation judge(const struct blind *b, struct link link, uint64_t value)
{
    if (is_dropped(b, link.kind))
        return because(ruler(b));
    if (lacks_position(b, link.kind, value))
        return because(NO_POSITION);
    struct blind after = *b;
    deliver(&after, link, value);
    if (after.motion == WAITING)
        return because_it_waits(after.rest);
    if (!same_blind(b, &after))
        return because(ACTS);
    return because(ALREADY_SO);
}

/* "A bad panel, a bad argument and an absent blind are answered 12, 1 and 2,
   in that order." Then the reasons, "not linked, wrong class (6)" first. */
struct explanation why(const struct panel *panel, uint64_t tag, uint64_t address,
                       uint64_t value)
{
    if (!is_sound(panel))
        return refused(NOT_A_SOUND_PANEL);
    if (tag >= TAGS || address < 1 || address > 65535 || value > 255)
        return refused(OUTSIDE_ITS_RANGE);
    if (!panel->blinds[tag].present)
        return refused(NO_BLIND_WITH_THIS_TAG);
    uint64_t last = place_judged(panel, address, tag);
    if (last == panel->link_count)
        return because(NOT_LINKED);
    if (is_of_another_class(panel, panel->links[last], value))
        return because(WRONG_CLASS);
    struct blind b = as_it_is_judged(panel, last, value);
    return judge(&b, panel->links[last], value);
}
