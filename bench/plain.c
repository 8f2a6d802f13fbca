#include "signals.h"
#include "ways.h"

#include <string.h>

/* One signal: its slot in the row and its first octet in the sample. */
typedef struct {
    uint8_t slot;
    uint8_t place;
} plain_signal;

/*
 * Signals of one kind. Those with precision stand in a list of their own, so
 * that no signal is tested for precision at each point.
 */
typedef struct {
    plain_signal one[24];
    plain_signal two[24];
    uint8_t ones;
    uint8_t twos;
} plain_list;

/* What is worked out once for a call. */
typedef struct {
    int32_t row[MEWKOAST_ROW]; /* every number that no sample changes */
    plain_list coordinates;    /* signed */
    plain_list plain;          /* brush and prefixed wavelengths */
    plain_list intensity;      /* divided by the intensity scale */
    plain_list colours;        /* divided by the colour scale */
    int hint;                  /* the place of the hint, -1 if there is none */
    int shutter;               /* the hint holds the shutter */
    size_t width;
} plain_plan;

static plain_list *list_of(plain_plan *plan, int slot)
{
    if (slot <= LAST_COORDINATE)
        return &plan->coordinates;
    if (slot == INTENSITY)
        return &plan->intensity;
    if (slot >= COLOURS && slot < WAVES)
        return &plan->colours;
    return &plan->plain;
}

static void add_signal(plain_plan *plan, int slot, int place, int precise)
{
    plain_list *list = list_of(plan, slot);
    plain_signal signal = {(uint8_t)slot, (uint8_t)place};

    if (precise)
        list->two[list->twos++] = signal;
    else
        list->one[list->ones++] = signal;
}

/* The octet after a signal is its precision. */
static int is_precise(const mewkoast_sample_layout *layout, int i)
{
    return i + 1 < layout->width &&
           layout->roles[i + 1] == layout->roles[i] + TO_PRECISION;
}

static void make_plan(const mewkoast_sample_layout *layout, plain_plan *plan)
{
    plan->coordinates.ones = plan->coordinates.twos = 0;
    plan->plain.ones = plan->plain.twos = 0;
    plan->intensity.ones = plan->intensity.twos = 0;
    plan->colours.ones = plan->colours.twos = 0;
    plan->hint = hint_of(layout);
    plan->shutter = plan->hint >= 0 && layout->roles[plan->hint] == SHUTTER_HINT;
    plan->width = layout->width;
    memset(plan->row, 0, sizeof plan->row);
    plan->row[SHUTTER] = 1;
    for (int k = 0; k < 8; k++)
        plan->row[WAVES + k] = layout->waves[k] * 64;
    for (int i = 0; i < layout->width; i++) {
        int role = layout->roles[i];

        if (role >= 1 && role <= MEWKOAST_ROW)
            add_signal(plan, role - 1, i, is_precise(layout, i));
    }
}

/*
 * The points of a block are drawn a few signals at a time: slots and places
 * then stay in registers, and the inner loops over points have no test in
 * them. A block of rows, 12 KiB, stays in the nearest cache. With GROUP 1 the
 * signals are drawn one after the other.
 */
enum { BLOCK = 128 };
#ifndef GROUP
#define GROUP 4
#endif

/* What is done with the octets of a signal. */
typedef enum { SIGNED, UNSIGNED, SHUTTER_BIT, SCALED, COLOUR, SCALED_COLOUR } kind;

typedef struct {
    const uint8_t *octets;
    size_t width;
    size_t hint;
    int32_t *rows;
    size_t points;
    int32_t any[BLOCK]; /* the colours of each point, combined by OR */
} block;

/* Every caller gives constants, and gcc makes one loop of each. */
INLINE int32_t value(const uint8_t *octets, int precise, kind k, int shift)
{
    int32_t number = precise ? octets[0] << 8 | octets[1] : octets[0] << 8;

    if (k == SIGNED)
        return (int16_t)number;
    if (k == SHUTTER_BIT)
        return octets[0] & 1;
    return k == UNSIGNED || k == COLOUR ? number : number >> shift;
}

INLINE int shift_of(uint8_t hint, kind k)
{
    return k == SCALED ? intensity_shift(hint) : k == SCALED_COLOUR ? colour_shift(hint) : 0;
}

INLINE void draw_group(const plain_signal *signals, int count, int precise,
                       kind k, block *b)
{
    const uint8_t *restrict octets = b->octets;
    int32_t *restrict row = b->rows;
    size_t width = b->width, hint = b->hint, points = b->points;
    size_t place[GROUP], slot[GROUP];

    for (int i = 0; i < count; i++) {
        place[i] = signals[i].place;
        slot[i] = signals[i].slot;
    }
    for (size_t p = 0; p < points; p++, octets += width, row += MEWKOAST_ROW) {
        int shift = shift_of(octets[hint], k);
        int32_t any = 0;

        for (int i = 0; i < count; i++) {
            int32_t number = value(octets + place[i], precise, k, shift);

            row[slot[i]] = number;
            any |= number;
        }
        if (k == COLOUR || k == SCALED_COLOUR)
            b->any[p] |= any;
    }
}

INLINE void draw_signals(const plain_signal *signals, int count, int precise,
                         kind k, block *b)
{
    for (; count >= GROUP; count -= GROUP, signals += GROUP)
        draw_group(signals, GROUP, precise, k, b);
    if (count == 3)
        draw_group(signals, 3, precise, k, b);
    else if (count == 2)
        draw_group(signals, 2, precise, k, b);
    else if (count == 1)
        draw_group(signals, 1, precise, k, b);
}

INLINE void draw_list(const plain_list *list, kind k, block *b)
{
    draw_signals(list->one, list->ones, 0, k, b);
    draw_signals(list->two, list->twos, 1, k, b);
}

static size_t draw_block(const plain_plan *plan, block *b)
{
    size_t lit = 0;

    for (size_t p = 0; p < b->points; p++)
        memcpy(b->rows + p * MEWKOAST_ROW, plan->row, sizeof plan->row);
    memset(b->any, 0, b->points * sizeof *b->any);
    draw_list(&plan->coordinates, SIGNED, b);
    draw_list(&plan->plain, UNSIGNED, b);
    if (plan->shutter) {
        plain_signal shutter = {SHUTTER, (uint8_t)b->hint};

        draw_group(&shutter, 1, 0, SHUTTER_BIT, b);
    }
    if (plan->hint >= 0) {
        draw_list(&plan->intensity, SCALED, b);
        draw_list(&plan->colours, SCALED_COLOUR, b);
    } else {
        draw_list(&plan->intensity, UNSIGNED, b);
        draw_list(&plan->colours, COLOUR, b);
    }
    for (size_t p = 0; p < b->points; p++)
        lit += b->any[p] != 0;
    return lit;
}

size_t plain_draw(mewkoast_sample_layout layout, const uint8_t *octets,
                  size_t n, int32_t *rows, size_t rows_length)
{
    size_t points = n / layout.width, lit = 0;
    plain_plan plan;
    block b;

    if (rows_length < points * MEWKOAST_ROW)
        return 0;
    make_plan(&layout, &plan);
    b.width = plan.width;
    b.hint = plan.hint >= 0 ? (size_t)plan.hint : 0;
    for (size_t p = 0; p < points; p += BLOCK) {
        b.octets = octets + p * plan.width;
        b.rows = rows + p * MEWKOAST_ROW;
        b.points = points - p < BLOCK ? points - p : BLOCK;
        lit += draw_block(&plan, &b);
    }
    return lit;
}
