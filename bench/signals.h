/* What the C decoders share; from document 01, "One row". */
#ifndef SIGNALS_H
#define SIGNALS_H

#include "mewkoast.h"

enum { LAST_COORDINATE = 4, SHUTTER, INTENSITY, BRUSH, COLOURS = 8, WAVES = 16 };

/* Roles of mewkoast_sample_layout. */
enum { FIRST_HINT = 65, SHUTTER_HINT = 66, TO_PRECISION = 32 };

#define INLINE static inline __attribute__((always_inline))

/* The place of the hint, -1 if there is none. */
INLINE int hint_of(const mewkoast_sample_layout *layout)
{
    for (int i = 0; i < layout->width; i++)
        if (layout->roles[i] >= FIRST_HINT)
            return i;
    return -1;
}

/* Twice the scales of a hint, in bits 0-1 and 2-3: 4 to the power c is 2c bits. */
INLINE int colour_shift(uint8_t hint)
{
    return hint >> 5 & 6;
}

INLINE int intensity_shift(uint8_t hint)
{
    return hint >> 3 & 6;
}

#endif
