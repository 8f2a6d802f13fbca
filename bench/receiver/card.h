/*
 * A receiver for a card, in plain C, to measure beside the proved one.
 *
 * Written from document 01 and IDN-Stream, Revision 001, alone; what C-12 adds,
 * frames in fragments, and where C-13 puts check 15, with the other receivers at
 * hand; what C-16 adds, unknown tags that are passed over, from the papers by the
 * author of the same change in the Rust receiver. The record is changed in place
 * and can be static: nothing is taken from a heap. What a configuration says is
 * worked out once, when a channel is routed, and kept in the record as a plan for
 * drawing.
 */
#ifndef CARD_H
#define CARD_H

#include <stddef.h>
#include <stdint.h>

enum { CARD_CHANNELS = 64, CARD_ROW = 24, CARD_PLACES = 1024, CARD_RANGES = 32 };

/* Ten million hours in microseconds; the limit of each meter. */
#define CARD_LIMIT UINT64_C(36000000000000000)

/* The most octets of a frame in fragments (check 26). */
#define CARD_LONGEST UINT32_C(1000000000)

/* What a channel is doing; any other value breaks the record (check 1). */
enum card_state {
    CARD_CLOSED,
    CARD_VOID,
    CARD_WAVE,
    CARD_FRAME,
    CARD_EFFECTS,
    CARD_DMX,
    CARD_STATES
};

/* A signal: its slot in the row and its first octet in the sample. */
struct card_signal {
    uint8_t slot, place;
};

/*
 * Signals are kept in lists by what is done with their octets, so that no
 * point asks what a signal is. FINE is the same with a precision octet.
 */
enum card_list {
    CARD_AXIS,
    CARD_AXIS_FINE,
    CARD_COLOUR,
    CARD_COLOUR_FINE,
    CARD_INTENSITY,
    CARD_INTENSITY_FINE,
    CARD_PLAIN, /* brush and prefixed wavelengths */
    CARD_PLAIN_FINE,
    CARD_LISTS
};

/* The plan for the samples of a wave or frame. */
struct card_samples {
    int32_t row[CARD_ROW];                /* what no sample changes */
    struct card_signal signals[CARD_ROW]; /* the lists, end to end */
    uint8_t ends[CARD_LISTS];
    uint32_t reciprocal;    /* 2^32 / width, rounded up: spares a division */
    uint8_t width;
    uint8_t hint;           /* its place; 0 with both masks 0 if there is none */
    uint8_t scales;         /* the bits of the hint that scale */
    uint8_t shutter;        /* the bit of the hint that is the shutter */
    uint8_t run;            /* colours side by side in the common shape, or 0 */
    uint8_t x, y, colour;   /* first octets in the common shape */
    uint8_t intensity;
    uint8_t intensity_mask; /* 0 if there is no intensity */
    uint8_t scaled;         /* the common shape with a hint or intensity */
};

/* Levels that stand side by side in the chunk and in the lent slice. */
struct card_move {
    uint16_t from, to, count;
};

/* The plan for dimmer levels. */
struct card_dimmer {
    struct card_move moves[CARD_RANGES]; /* those of the tags 43, joined */
    uint16_t move_count;
    uint16_t mapped;  /* there are tags 43 */
    uint16_t most;    /* the sum of their counts, or the most levels without */
    uint16_t written; /* how many of the sum are not dropped */
    uint16_t to;      /* without 43: the place of the first level */
    uint16_t dropped; /* without 43: the base is FFFF */
};

struct card_channel {
    uint16_t space; /* the space modifier, 0 if none */
    uint8_t match;  /* SDM */
    union {
        struct card_samples samples;
        struct card_dimmer dimmer;
    } plan;
};

/* The frame that comes in fragments; its octets stand in the assembly slice. */
struct card_gathering {
    uint32_t octets; /* so far */
    uint32_t due;    /* the timestamp of the next sequel */
    uint8_t on;      /* its channel + 1, or 0 if there is none */
};

struct card {
    uint8_t states[CARD_CHANNELS];
    uint64_t lit_time, points, lit_points;
    struct card_gathering gathering;
    struct card_channel channels[CARD_CHANNELS];
};

struct card_reply {
    uint8_t number, channel, chunk_type;
    uint32_t timestamp;
    uint16_t space;
    uint32_t points, lit_points, levels;
};

/* Answers 0, or 23 with all readings 0 where one is above the limit. */
uint8_t card_start(struct card *card, uint64_t lit_time, uint64_t points,
                   uint64_t lit_points);

/*
 * A refused message writes nothing, but for the last fragment of a frame that is
 * refused whole; only 19 closes the channel. The assembly slice is lent
 * unaltered and at one length for as long as a frame is gathered.
 */
struct card_reply card_message(struct card *card, const uint8_t *octets,
                               size_t length, int32_t *rows, size_t row_numbers,
                               uint8_t *levels, size_t level_octets,
                               uint8_t *assembly, size_t assembly_octets);

/* ---- Between the parts of the card ------------------------------------- */

/* What the host lends. */
struct card_lent {
    int32_t *rows;
    size_t row_numbers;
    uint8_t *levels;
    size_t level_octets;
    uint8_t *assembly;
    size_t assembly_octets;
};

/* Checks 6 to 14; the state that the mode gives. The channel comes zeroed. */
uint8_t card_configuration(const uint8_t *octets, uint8_t *state,
                           struct card_channel *next);

/* Checks 8 to 12; the channel comes zeroed. */
uint8_t card_dictionary(uint8_t state, const uint8_t *tags, size_t length,
                        struct card_channel *channel);

/* Checks 13 and 14; the channel comes zeroed. */
uint8_t card_mapping(uint8_t state, const uint8_t *tags, size_t length,
                     struct card_channel *channel);

/* A fragment of a frame. */
struct card_fragment {
    const uint8_t *octets;
    size_t length;
    uint32_t timestamp;
    uint8_t channel;
};

/* A first fragment that passed 19, and check 26; all else is dropped. */
uint8_t card_first(struct card_gathering *gathering,
                   const struct card_fragment *fragment,
                   const struct card_lent *lent);

/* Checks 24 to 26 of a sequel, and its octets behind those before it. */
uint8_t card_sequel(struct card_gathering *gathering,
                    const struct card_fragment *fragment,
                    const struct card_lent *lent);

/* Drops the frame that is gathered on a channel. */
void card_drop(struct card_gathering *gathering, uint8_t channel);

/* Both answer how many points are lit; the second writes nothing. */
uint32_t card_draw(const struct card_samples *plan, const uint8_t *samples,
                   uint32_t points, int32_t *rows);
uint32_t card_count_lit(const struct card_samples *plan, const uint8_t *samples,
                        uint32_t points);

/* Whether a colour of a row is not 0. */
int card_lit(const int32_t *row);

#endif
