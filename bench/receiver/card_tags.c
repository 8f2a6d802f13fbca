/* Configurations of the card: tags to plans for drawing; see card.h. */
#include "card.h"

#include <string.h>

/* Slots 0 to 7 are kinds of tags too. */
enum { SHUTTER = 5, INTENSITY = 6, BRUSH = 7, COLOURS = 8, WAVES = 16 };
enum kind {
    COLOUR = 8,
    PREFIXED, /* 5000 */
    PREFIX,
    NOP,
    PRECISION,
    HINT,
    SPACE,
    SKIP,    /* Void, or an unknown tag of group 0.0 */
    NOTHING, /* an unknown tag of group 1.0 */
    IGNORED, /* an unknown tag with an octet */
    REFUSED, /* this and the next end the walk */
    UNDEFINED
};
enum { MOST_OCTETS = 32, MOST_COLOURS = 8 };
/* An unknown tag is open to precision like a signal, but gets into no plan. */
enum { UNPLANNED = MOST_OCTETS, NO_SIGNAL = 0xFF };

/* Where the walk along a dictionary stands. */
struct walk {
    uint8_t slots[MOST_OCTETS], places[MOST_OCTETS], fine[MOST_OCTETS + 1];
    uint32_t seen;    /* bit s: slot s or kind s was met */
    uint8_t signals, colours, width;
    uint8_t open;     /* precision may follow this signal, or UNPLANNED */
    uint8_t prefixed; /* a prefix waits for 5000 */
};

/* Which categories have an octet in the sample, as 003, 3.4.1 has them. */
static const uint8_t takes_octet[16] = {[4] = 1, [5] = 1};

/* A value 10 is reserved in GLIN, CBAL and CTIM, not in CLIN. */
static int space_reserved(uint16_t tag)
{
    return (tag & ~(tag << 1) & 0x8A) != 0;
}

static uint8_t coordinate(uint16_t tag)
{
    switch (tag) {
    case 0x4200: return 0;
    case 0x4210: return 1;
    case 0x4220: return 2;
    case 0x4201: return 3;
    case 0x4211: return 4;
    default: return IGNORED;
    }
}

/* C-16: an unknown tag of a defined group is passed over, but for a few. */
static uint8_t kind_of(uint16_t tag, uint8_t state)
{
    switch (tag >> 8) {
    case 0x00:
        return SKIP; /* by the parameter, whatever the identifier */
    case 0x10:
        /* Break is refused: it is for heads that this card does not have. */
        return tag <= 0x100F ? REFUSED : NOTHING;
    case 0x11:
        return space_reserved(tag) ? REFUSED : SPACE;
    case 0x40:
        return tag == 0x4000 ? NOP : tag == 0x4010 ? PRECISION : IGNORED;
    case 0x41:
        return tag == 0x4100 || (tag == 0x4101 && state == CARD_WAVE) ? HINT
             : tag <= 0x410F ? REFUSED : IGNORED;
    case 0x42:
        return coordinate(tag);
    case 0x50:
        return tag == 0x5000 ? PREFIXED : COLOUR;
    case 0x51: case 0x52: case 0x53:
        return COLOUR;
    case 0x5C:
        return tag == 0x5C00 ? PREFIX : tag == 0x5C10 ? INTENSITY
             : tag == 0x5C20 ? BRUSH : IGNORED;
    default:
        return UNDEFINED;
    }
}

/* Check 10, but for a skip that passes the end. */
static int misplaced(const struct walk *w, uint8_t kind)
{
    if (kind == PRECISION)
        return w->open == NO_SIGNAL;
    return (kind == PREFIXED) != w->prefixed;
}

/* Check 11. */
static int too_many(const struct walk *w, uint8_t kind, uint16_t tag)
{
    const uint32_t once = 0xFF | 1u << HINT | 1u << SPACE;

    return (w->seen & once & 1u << kind) != 0 ||
           ((kind == COLOUR || kind == PREFIXED) && w->colours == MOST_COLOURS) ||
           (takes_octet[tag >> 12] && w->width == MOST_OCTETS);
}

static void add_signal(struct walk *w, uint8_t slot)
{
    w->slots[w->signals] = slot;
    w->places[w->signals] = w->width;
    w->fine[w->signals] = 0;
    w->open = w->signals++;
}

/* What a tag that passed 8 to 11 adds to the walk and the plan. */
static void apply(struct walk *w, uint8_t kind, uint16_t tag, struct card_channel *channel)
{
    struct card_samples *plan = &channel->plan.samples;
    uint8_t open = w->open;

    w->seen |= 1u << kind;
    w->open = NO_SIGNAL;
    if (kind == PRECISION) {
        w->fine[open] = 1;
    } else if (kind <= BRUSH) {
        add_signal(w, kind);
    } else if (kind == PREFIX) {
        w->prefixed = 1;
        add_signal(w, WAVES + w->colours);
    } else if (kind == COLOUR || kind == PREFIXED) {
        w->prefixed = 0;
        plan->row[WAVES + w->colours] = (tag & 0x3FF) * 64;
        add_signal(w, COLOURS + w->colours++);
    } else if (kind == HINT) {
        plan->hint = w->width;
        plan->scales = 0xF0;
        plan->shutter = tag & 1;
    } else if (kind == SPACE) {
        channel->space = tag;
    } else if (kind == IGNORED) {
        w->open = UNPLANNED;
    }
    w->width += takes_octet[tag >> 12];
}

static uint8_t list_of(uint8_t slot, uint8_t fine)
{
    uint8_t list = slot < SHUTTER ? CARD_AXIS
                 : slot == INTENSITY ? CARD_INTENSITY
                 : slot >= COLOURS && slot < WAVES ? CARD_COLOUR : CARD_PLAIN;

    return list + fine;
}

/*
 * The common shape: X and Y with precision, colours of one octet side by side,
 * perhaps a hint and an intensity of one octet. It has a loop of its own.
 * Octets that are ignored may stand anywhere but between the colours.
 */
static void find_common_shape(struct card_samples *plan, uint8_t colours)
{
    const struct card_signal *axis = plan->signals + plan->ends[CARD_AXIS];
    const struct card_signal *colour = plan->signals + plan->ends[CARD_AXIS_FINE];
    const struct card_signal *intensity = plan->signals + plan->ends[CARD_COLOUR_FINE];
    uint8_t y_first = axis[0].slot;

    if (plan->ends[CARD_AXIS] != 0 || plan->ends[CARD_AXIS_FINE] != 2 ||
        plan->ends[CARD_COLOUR] != 2 + colours || plan->ends[CARD_COLOUR_FINE] != 2 + colours ||
        plan->ends[CARD_INTENSITY] != plan->ends[CARD_PLAIN_FINE] ||
        colour[colours - 1].place != colour[0].place + colours - 1)
        return;
    plan->run = colours;
    plan->x = axis[y_first].place;
    plan->y = axis[1 - y_first].place;
    plan->colour = colour[0].place;
    if (plan->ends[CARD_INTENSITY] != 2 + colours) {
        plan->intensity = intensity[0].place;
        plan->intensity_mask = 0xFF;
    }
    plan->scaled = plan->scales != 0 || plan->intensity_mask != 0;
}

/* The signals in their lists, each list in dictionary order. */
static void make_plan(const struct walk *w, struct card_samples *plan)
{
    uint8_t lists[MOST_OCTETS], next[CARD_LISTS + 1] = {0};

    plan->width = w->width;
    plan->reciprocal = UINT32_MAX / w->width + 1;
    plan->row[SHUTTER] = !plan->shutter;
    for (int i = 0; i < w->signals; i++) {
        lists[i] = list_of(w->slots[i], w->fine[i]);
        next[lists[i] + 1]++;
    }
    for (int list = 0; list < CARD_LISTS; list++) {
        next[list + 1] += next[list];
        plan->ends[list] = next[list + 1];
    }
    for (int i = 0; i < w->signals; i++)
        plan->signals[next[lists[i]]++] = (struct card_signal){w->slots[i], w->places[i]};
    find_common_shape(plan, w->colours);
}

uint8_t card_dictionary(uint8_t state, const uint8_t *tags, size_t length,
                        struct card_channel *channel)
{
    const uint32_t needed = 1u << 0 | 1u << 1;
    struct walk w;

    w.seen = w.signals = w.colours = w.width = w.prefixed = 0;
    w.open = NO_SIGNAL;
    for (size_t at = 0; at < length; at += 2) {
        uint16_t tag = (uint16_t)(tags[at] << 8 | tags[at + 1]);
        uint8_t kind = kind_of(tag, state);
        size_t skipped = kind == SKIP ? 2 * (size_t)(tag & 15) : 0;

        if (kind >= REFUSED)
            return kind == REFUSED ? 9 : 8;
        if (misplaced(&w, kind) || skipped > length - at - 2)
            return 10;
        if (too_many(&w, kind, tag))
            return 11;
        apply(&w, kind, tag, channel);
        at += skipped;
    }
    if (w.prefixed)
        return 10;
    if ((w.seen & needed) != needed || w.colours == 0)
        return 12;
    make_plan(&w, &channel->plan.samples);
    return 0;
}
