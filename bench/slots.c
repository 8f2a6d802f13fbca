#include "signals.h"
#include "ways.h"

/* Where the octets of each slot stand in a sample; -1 where there is none. */
typedef struct {
    int first[MEWKOAST_ROW];
    int second[MEWKOAST_ROW];
    int hint;
    int shutter;
} slot_places;

static void find_places(const mewkoast_sample_layout *layout, slot_places *places)
{
    for (int slot = 0; slot < MEWKOAST_ROW; slot++)
        places->first[slot] = places->second[slot] = -1;
    places->hint = hint_of(layout);
    places->shutter = places->hint >= 0 && layout->roles[places->hint] == SHUTTER_HINT;
    for (int i = 0; i < layout->width; i++) {
        int role = layout->roles[i];

        if (role >= 1 && role <= MEWKOAST_ROW)
            places->first[role - 1] = i;
        else if (role > TO_PRECISION && role <= TO_PRECISION + MEWKOAST_ROW)
            places->second[role - TO_PRECISION - 1] = i;
    }
}

/* 0 where the signal is absent. */
INLINE int32_t number(const slot_places *places, int slot, const uint8_t *octets)
{
    int first = places->first[slot], second = places->second[slot];

    if (first < 0)
        return 0;
    return octets[first] << 8 | (second < 0 ? 0 : octets[second]);
}

/* Gives the colours of the point, combined by OR. */
INLINE int32_t draw_row(const slot_places *places, const uint16_t *waves,
                        const uint8_t *octets, int32_t *restrict row)
{
    uint8_t hint = places->hint >= 0 ? octets[places->hint] : 0;
    int32_t any = 0;

    for (int slot = 0; slot <= LAST_COORDINATE; slot++)
        row[slot] = (int16_t)number(places, slot, octets);
    row[SHUTTER] = places->shutter ? hint & 1 : 1;
    row[INTENSITY] = number(places, INTENSITY, octets) >> intensity_shift(hint);
    row[BRUSH] = number(places, BRUSH, octets);
    for (int k = 0; k < 8; k++) {
        row[COLOURS + k] = number(places, COLOURS + k, octets) >> colour_shift(hint);
        any |= row[COLOURS + k];
        row[WAVES + k] = places->first[WAVES + k] < 0
                             ? waves[k] * 64
                             : number(places, WAVES + k, octets);
    }
    return any;
}

size_t slots_draw(mewkoast_sample_layout layout, const uint8_t *octets,
                  size_t n, int32_t *rows, size_t rows_length)
{
    size_t points = n / layout.width, lit = 0;
    slot_places places;

    if (rows_length < points * MEWKOAST_ROW)
        return 0;
    find_places(&layout, &places);
    for (size_t p = 0; p < points; p++, octets += layout.width, rows += MEWKOAST_ROW)
        lit += draw_row(&places, layout.waves, octets, rows) != 0;
    return lit;
}
