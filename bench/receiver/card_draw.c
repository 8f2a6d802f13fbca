/* Samples to rows; see card.h. */
#include "card.h"

#include <string.h>

enum { SHUTTER = 5, INTENSITY = 6, COLOURS = 8 };

#define INLINE static inline __attribute__((always_inline))

INLINE int32_t coarse(const uint8_t *octets)
{
    return octets[0] << 8;
}

INLINE int32_t fine(const uint8_t *octets)
{
    return octets[0] << 8 | octets[1];
}

/*
 * Twice the scales of a hint: a division by 4 is a shift by 2. It is 6 at most,
 * so for a value of one octet it only takes from the shift by 8.
 */
INLINE int colour_shift(uint32_t hint)
{
    return hint >> 5 & 6;
}

INLINE int intensity_shift(uint32_t hint)
{
    return hint >> 3 & 6;
}

/*
 * The common shape. Callers give `colours` and `scaled` as constants, and gcc
 * makes a loop of each without a test in it. Where there is no hint or
 * intensity the masks are 0.
 */
INLINE uint32_t draw_run(const struct card_samples *plan, const uint8_t *octets,
                         uint32_t points, int32_t *restrict row, int colours, int scaled)
{
    const size_t width = plan->width, x = plan->x, y = plan->y;
    const size_t colour = plan->colour, hint = plan->hint, intensity = plan->intensity;
    const uint32_t bits = plan->scales | plan->shutter, open = plan->row[SHUTTER];
    const int32_t mask = plan->intensity_mask;
    int32_t still[CARD_ROW];
    uint32_t lit = 0;

    memcpy(still, plan->row, sizeof still);
    for (; points != 0; points--, octets += width, row += CARD_ROW) {
        uint32_t h = scaled ? octets[hint] & bits : 0;
        int shift = scaled ? 8 - colour_shift(h) : 8;
        int any = 0;

        memcpy(row, still, sizeof still);
        row[0] = (int16_t)fine(octets + x);
        row[1] = (int16_t)fine(octets + y);
        if (scaled) {
            row[SHUTTER] = (int32_t)(open | (h & 1));
            row[INTENSITY] = (octets[intensity] & mask) << (8 - intensity_shift(h));
        }
#pragma GCC unroll 8
        for (int k = 0; k < colours; k++) {
            row[COLOURS + k] = octets[colour + k] << shift;
            any |= octets[colour + k];
        }
        lit += any != 0;
    }
    return lit;
}

INLINE uint32_t draw_common(const struct card_samples *plan, const uint8_t *octets,
                            uint32_t points, int32_t *rows, int scaled)
{
    switch (plan->run) {
    case 1: return draw_run(plan, octets, points, rows, 1, scaled);
    case 2: return draw_run(plan, octets, points, rows, 2, scaled);
    case 3: return draw_run(plan, octets, points, rows, 3, scaled);
    case 4: return draw_run(plan, octets, points, rows, 4, scaled);
    case 5: return draw_run(plan, octets, points, rows, 5, scaled);
    case 6: return draw_run(plan, octets, points, rows, 6, scaled);
    case 7: return draw_run(plan, octets, points, rows, 7, scaled);
    default: return draw_run(plan, octets, points, rows, 8, scaled);
    }
}

/* Any sample: each list in turn. Answers the colours combined by OR. */
INLINE int32_t draw_point(const struct card_samples *plan, const uint8_t *octets,
                          int32_t *restrict row)
{
    const struct card_signal *s = plan->signals;
    const uint8_t *ends = plan->ends;
    uint32_t hint = octets[plan->hint] & (plan->scales | plan->shutter);
    int32_t value, any = 0;

    memcpy(row, plan->row, sizeof plan->row);
    row[SHUTTER] |= hint & 1;
    for (; s < plan->signals + ends[CARD_AXIS]; s++)
        row[s->slot] = (int16_t)coarse(octets + s->place);
    for (; s < plan->signals + ends[CARD_AXIS_FINE]; s++)
        row[s->slot] = (int16_t)fine(octets + s->place);
    for (; s < plan->signals + ends[CARD_COLOUR]; s++) {
        value = octets[s->place] << (8 - colour_shift(hint));
        row[s->slot] = value;
        any |= value;
    }
    for (; s < plan->signals + ends[CARD_COLOUR_FINE]; s++) {
        value = fine(octets + s->place) >> colour_shift(hint);
        row[s->slot] = value;
        any |= value;
    }
    for (; s < plan->signals + ends[CARD_INTENSITY]; s++)
        row[s->slot] = octets[s->place] << (8 - intensity_shift(hint));
    for (; s < plan->signals + ends[CARD_INTENSITY_FINE]; s++)
        row[s->slot] = fine(octets + s->place) >> intensity_shift(hint);
    for (; s < plan->signals + ends[CARD_PLAIN]; s++)
        row[s->slot] = coarse(octets + s->place);
    for (; s < plan->signals + ends[CARD_PLAIN_FINE]; s++)
        row[s->slot] = fine(octets + s->place);
    return any;
}

uint32_t card_draw(const struct card_samples *plan, const uint8_t *samples,
                   uint32_t points, int32_t *rows)
{
    uint32_t lit = 0;

    if (plan->run != 0)
        return plan->scaled ? draw_common(plan, samples, points, rows, 1)
                            : draw_common(plan, samples, points, rows, 0);
    for (; points != 0; points--, samples += plan->width, rows += CARD_ROW)
        lit += draw_point(plan, samples, rows) != 0;
    return lit;
}

int card_lit(const int32_t *row)
{
    int32_t any = 0;

    for (int k = 0; k < 8; k++)
        any |= row[COLOURS + k];
    return any != 0;
}

/* For meters near their limit: nothing that is lent may be written yet. */
uint32_t card_count_lit(const struct card_samples *plan, const uint8_t *samples,
                        uint32_t points)
{
    int32_t row[CARD_ROW];
    uint32_t lit = 0;

    for (; points != 0; points--, samples += plan->width)
        lit += draw_point(plan, samples, row) != 0;
    return lit;
}
