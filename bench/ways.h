/*
 * C decoders with the interface and the results of mewkoast_draw, to compare
 * with. Each takes layouts that mewkoast_layout gave, and makes what it needs
 * of the layout in each call.
 */
#ifndef WAYS_H
#define WAYS_H

#include "mewkoast.h"

/* Row by row, each of the 24 slots tested. */
size_t slots_draw(mewkoast_sample_layout layout, const uint8_t *octets,
                  size_t n, int32_t *rows, size_t rows_length);

/* Blocks of points, a list of signals for each kind, four at a time. */
size_t plain_draw(mewkoast_sample_layout layout, const uint8_t *octets,
                  size_t n, int32_t *rows, size_t rows_length);

/* The same code, but the signals one after the other; run compiles it. */
size_t blocks_draw(mewkoast_sample_layout layout, const uint8_t *octets,
                   size_t n, int32_t *rows, size_t rows_length);

#endif
