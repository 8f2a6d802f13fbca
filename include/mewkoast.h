/*
 * The channel receiver and its tag layer, for C hosts.
 *
 * Sections: 1 refusal numbers of the tag layer, 2 the dictionary check,
 * 3 samples to rows, 4 dimmer levels, 5 the receiver with all 26 numbers.
 * Checks and limits are those of document 01 and of the requests C-11 to C-16;
 * messages and tags are those of IDN-Stream, Revision 001.
 *
 * For x86-64 Linux. Link target/staticlib/libreceiver.a (`tools/build
 * receiver`) for section 5 and libtags.a (`tools/build tags`) for sections 2
 * to 4. Each is one object with all the code that its own calls run and with
 * no other call: a host that needs section 5 alone links libreceiver.a alone,
 * one that needs both links both. Of the C library they take memcpy and memset
 * and nothing else.
 *
 * For every function: the octets and tags lent need not be aligned and need
 * not have been checked; they are not changed, and no pointer is kept. What is
 * written must not overlap anything else that is lent. Results depend on the
 * arguments and what they point to alone, so calls on different memory can run
 * at the same time.
 */
#ifndef MEWKOAST_H
#define MEWKOAST_H

#include <stddef.h>
#include <stdint.h>

#define MEWKOAST_VERSION "0.14.1"

#ifdef __cplusplus
extern "C" {
#endif

/* ---- 1. Refusal numbers ------------------------------------------------ */

/*
 * number   meaning
 *    5     the length of the dictionary is odd or above 1,020
 *    6     the mode is neither 1 nor 2
 *    8     a tag's group is undefined
 *    9     Break (100n), a hint format beyond 1 (4102 to 410F), 4101 in mode
 *          2, or a reserved space value
 *   10     precision, prefix or 5000 is misplaced, or a tag skips words past
 *          the end
 *   11     a signal, hint or space modifier repeats, or it is the 9th colour
 *          or the 33rd octet
 *   12     X (4200), Y (4210) or every colour is missing
 *   13     a dimmer tag is unknown, out of range or passes the end
 *   14     dimmer tags mix, overlap, repeat 42, or are the 33rd 43
 *
 * At each tag 8 to 11 (or 13, 14) are tried in turn, then the next tag
 * follows. A prefix followed wrongly is 10 at the tag after it, after 8 and
 * 9 there. At the end an unfinished prefix is 10; 12 comes last.
 *
 * Any other tag of a defined group that is not known is passed over: in group
 * 0.0 it skips as many words as its parameter says, in 1.0 it does nothing,
 * and in categories 4 and 5 its octet is ignored, with that of one precision
 * directly after it. Ignored octets count in the width.
 */

/* ---- 2. The dictionary check ------------------------------------------- */

/*
 * Checks a tag dictionary for modes 1 and 2.
 *
 * The host lends: `tags` points to `length` octets that can be read during
 * the call.
 *
 * Answers, tried in this order:
 *   106, 105      the mode, then the length is refused;
 *   108 to 112    100 plus the refusal number of the table above;
 *   3 to 32       the dictionary is accepted, and this is the sample's width
 *                 in octets.
 */
uint32_t mewkoast_dictionary(uint32_t mode, const uint8_t *tags, size_t length);

/* ---- 3. Samples to rows ------------------------------------------------ */

/* The numbers of a row; the slots are listed at mewkoast_draw. */
#define MEWKOAST_ROW 24

/*
 * What an accepted dictionary says of a sample.
 *
 *   roles     what octet i of a sample is for:
 *                 0    nothing, it is ignored: NOP, or an unknown tag or its
 *                      precision;
 *             s + 1    the first octet of the signal in slot s;
 *            s + 33    the precision octet of the signal in slot s;
 *                65    the hint of format 0 (4100);
 *                66    the hint of format 1 (4101).
 *             Those after the width are 0.
 *   waves     the wavelength of colour k in nm, 0 where a prefix gives it;
 *             those after the colours are 0.
 *   space     the space modifier word 11pp, 0 if there is none.
 *   width     the octets of a sample, 3 to 32.
 *   colours   the colours, 1 to 8.
 */
typedef struct {
    uint8_t roles[32];
    uint16_t waves[8];
    uint16_t space;
    uint8_t width;
    uint8_t colours;
} mewkoast_sample_layout;

/* `number` is 0, or the refusal 6, 5 or 8 to 12; then the layout is all 0. */
typedef struct {
    uint8_t number;
    mewkoast_sample_layout layout;
} mewkoast_checked_dictionary;

/*
 * Checks a tag dictionary as mewkoast_dictionary does and gives the layout of
 * its samples: refusal 6 for modes but 1 and 2, then 5 for odd lengths or
 * above 1,020, then 8 to 12.
 *
 * The host lends: `tags` points to `length` octets that can be read during
 * the call.
 */
mewkoast_checked_dictionary mewkoast_layout(uint32_t mode, const uint8_t *tags,
                                            size_t length);

/*
 * Draws samples as rows of 24 numbers, one after the other from the start of
 * `rows`, and returns how many of the points are lit: those with a colour
 * slot that is not 0. It is not told whether the samples are a frame's: the
 * receiver never counts a frame's first point as lit, this call does where it
 * has a colour.
 *
 * Slots of a row: 0 X, 1 Y, 2 Z, 3 second X, 4 second Y, 5 shutter,
 * 6 intensity, 7 brush, 8 to 15 the colours in dictionary order, 16 to 23
 * their wavelengths in 1/64 nm. An absent signal is 0, an absent shutter 1.
 * Colours and intensity are already divided by the scales of the hint.
 *
 * The host lends: `octets` points to `n` octets to be read, `rows` to
 * `rows_length` numbers (not rows) to be written, aligned as int32_t is.
 *
 * The points are the whole samples, n / width; octets after the last whole
 * sample are not used. Where rows_length is below points * 24 nothing is
 * written and 0 is returned. Otherwise the first points * 24 numbers are
 * written and all others are unchanged.
 *
 * Any layout is answered, also one that the host made itself: a width above
 * 32 is read as 32 and colours above 8 as 8; with width 0 there are no points;
 * of two octets with one role the first counts, and 66 before 65; a precision
 * octet of a signal without a first octet, a role that is not listed, and one
 * of slot 5 are ignored.
 */
size_t mewkoast_draw(mewkoast_sample_layout layout, const uint8_t *octets,
                     size_t n, int32_t *rows, size_t rows_length);

/* ---- 4. Dimmer levels -------------------------------------------------- */

/* The places of both modes: 0 to 511 for mode 4, 512 to 1,023 for mode 6. */
#define MEWKOAST_PLACES 1024

/*
 * What accepted dimmer tags say.
 *
 *   bases, counts   the tags 43 in order; a base is 1 to 512, or FFFF for
 *                   dropped octets, a count 1 to 255. Those after `count`
 *                   are 0.
 *   base            the base of the tag 42, 0 if there is none.
 *   count           how many tags 43 there are, 0 to 32.
 */
typedef struct {
    uint16_t bases[32];
    uint8_t counts[32];
    uint16_t base;
    uint8_t count;
} mewkoast_dimmer_mapping;

/* `number` is 0, or the refusal 13 or 14; then the mapping is all 0. */
typedef struct {
    uint8_t number;
    mewkoast_dimmer_mapping dimmer;
} mewkoast_checked_mapping;

/*
 * Checks the dimmer tags of mode 4 or 6 and gives the mapping.
 *
 * The host lends: `tags` points to `length` octets that can be read during
 * the call.
 */
mewkoast_checked_mapping mewkoast_mapping(const uint8_t *tags, size_t length);

/*
 * Puts levels to their places: level number b to place b - 1 in mode 4, to
 * place 511 + b in mode 6. Returns how many levels were written; dropped
 * ones do not count. All other places are unchanged.
 *
 * With tags 43 the levels must be as many as the sum of all counts, dropped
 * ones included; without 43, base + n must not pass 513 (a base FFFF
 * excepted; no 42 is base 1). Where that fails (check 21), or fewer than
 * 1,024 places are lent (check 22), nothing is written and 0 is returned.
 *
 * Any mapping is answered, also one that the host made itself: a count above
 * 32 is read as 32; where the base is neither 0, 1 to 512 nor FFFF, or a tag
 * 43 is out of range (base 1 to 512 or FFFF, count 1 to 255, base + count at
 * most 513 unless the base is FFFF), nothing is written and 0 is returned; a
 * base beside tags 43 is not used; of two ranges that overlap the later is
 * written last. Every mode but 6 is taken for 4.
 *
 * The host lends: `octets` points to `n` levels to be read, `levels` to
 * `levels_length` places to be written.
 */
size_t mewkoast_levels(mewkoast_dimmer_mapping dimmer, uint8_t mode,
                       const uint8_t *octets, size_t n, uint8_t *levels,
                       size_t levels_length);

/* ---- 5. The receiver ---------------------------------------------------- */

/*
 * The record of a receiver: three meters, what is known of the frame that is
 * being gathered, and 64 channels, 6,568 octets. The host keeps it between
 * calls and copies it as it likes; nothing is kept elsewhere but the octets of
 * that frame, which stand in the assembly slice. Its inner fields may change
 * with a version: only what the calls below give of it is promised.
 *
 * `gathered` has four numbers: 0 while no frame is gathered, or the frame's
 * channel plus 1; its octets so far; the timestamp of its first fragment; the
 * number of the next sequel, modulo 2 to the power 32.
 *
 * Two kinds of calls do the same. Those in place change the record where the
 * host keeps it: mewkoast_begin, mewkoast_offer, mewkoast_offer_set,
 * mewkoast_readings_of. They copy nothing of it, mewkoast_offer_set apart, which
 * makes one copy of its channels, and take little stack. Those by value take a record and hand
 * back the next: mewkoast_start, mewkoast_message, mewkoast_patch,
 * mewkoast_readings. They may be mixed.
 */
typedef struct {
    uint64_t meters[3];
    uint32_t gathered[4];
    uint8_t channels[6528];
} mewkoast_receiver;

/*
 * The reply to a message. A refusal has 0 in all but the number:
 *
 *    1  the record given breaks the consistency rule (a meter above its
 *       limit; in a channel, open or closed, an unknown state, a size above
 *       32 or above 8 colours; no value in `gathered` does), or its lent
 *       arrays have other lengths; it is left, or handed back, as it came
 *    2  the length is below 8, above 65,280, or not Total Size
 *    3  the top bit of octet 2 is 0
 *    4  the type is not 0x00, 0x01, 0x02, 0x03, 0x18 or 0xC0
 *    5  the configuration header, or with Routing its words, pass the end
 *    6  with Routing, the mode is not 0, 1, 2, 4 or 6
 *    7  the service does not go with the mode
 *    8  a tag's group is undefined
 *    9  Break, a hint format beyond 1, 4101 in mode 2, a reserved space value
 *   10  precision, prefix or 5000 is misplaced, or words are skipped past the
 *       end
 *   11  a signal, hint or space modifier repeats, the 9th colour or 33rd octet
 *   12  X, Y or every colour is missing
 *   13  a dimmer tag is unknown, out of range or passes the end
 *   14  dimmer tags mix, overlap, repeat 42, or are the 33rd 43
 *   15  with Routing to mode 1, another open channel has mode 1
 *   16  without Routing, the channel is closed
 *   17  the type does not go with the mode
 *   18  a Void chunk has data, or another has under 4 octets
 *   19  SCM differs from SDM; the channel is closed, and a frame that is
 *       gathered on it is dropped
 *   20  samples are not whole, a wave has under 20, or a frame has exactly 1
 *   21  the levels do not go with the dimmer tags
 *   22  rows hold under points * 24 numbers, or levels under 1,024 octets
 *   23  a meter would pass its limit of 36,000,000,000,000,000
 *   24  a sequel where no frame is gathered on its channel
 *   25  a sequel with a wrong timestamp; the frame is dropped
 *   26  the assembly slice is too short for the octets of the frame so far, or
 *       they are over 1,000,000,000; any frame that is gathered is dropped
 *
 * They are tried in this order, but 24 and 25 after 16, and 15 and 26 after 19:
 * a message that asks for mode 1 while another channel has it, and whose SCM
 * differs from its SDM, gets 19, and its own channel is closed. Checks 5 and
 * 17 to 19 pass a sequel by; 20 to 23 are asked of the whole frame, at its last
 * fragment. In mode 0 fragments are accepted and ignored.
 *
 * An accepted message has number 0, its channel, chunk type and timestamp, the
 * space modifier in force (0 if none), its points, lit points and the levels
 * written. Of a frame in fragments the accepted last one has the points, lit
 * points, rows and what is added to the meters; those before it have none.
 *
 * A point is lit when a colour slot of its row is not 0. But the first point of
 * a frame, in one message (chunk type 0x02) or in fragments, only moves the
 * mirrors: it counts among the points and never as lit, whatever its row holds,
 * and a frame lit only there adds no time to the meters.
 *
 * A range of levels that is not within 1 to 512, which no dimmer tags give but
 * a record that the host changed may hold, takes its octets from the message
 * like a dropped one: it is passed over and does not count as written.
 */
typedef struct {
    uint8_t number;
    uint8_t channel;
    uint8_t chunk_type;
    uint32_t timestamp;
    uint16_t space;
    uint32_t points;
    uint32_t lit_points;
    uint32_t levels;
} mewkoast_reply;

typedef struct {
    mewkoast_receiver receiver;
    mewkoast_reply reply;
} mewkoast_outcome;

/*
 * The reply to a set of messages. Accepted: number 0, and `place` is how many
 * there were. Refused: the number of the first message that is refused, and
 * `place` is its place in the set, counted from 0.
 */
typedef struct {
    size_t place;
    uint8_t number;
} mewkoast_set_reply;

typedef struct {
    mewkoast_receiver receiver;
    mewkoast_set_reply reply;
} mewkoast_set_outcome;

/* Lit microseconds, points, lit points. */
typedef struct {
    uint64_t lit_time;
    uint64_t points;
    uint64_t lit_points;
} mewkoast_meters;

/* A part of a message: its first octet and its length. */
typedef struct {
    size_t start;
    size_t length;
} mewkoast_span;

/*
 * Frames in fragments. A frame that is too long for one message comes as a
 * first fragment (chunk type 0x03), which has the chunk header and may have
 * configuration, and sequels (0xC0), which have bare octets from octet 8, the
 * timestamp of the first plus their number from 1 (modulo 2 to the power 32),
 * and CCLF set in the last alone. One frame at a time is gathered, header
 * first, at the start of the assembly slice that the host lends. A first
 * fragment accepted in mode 2 on any channel, and on the frame's own channel an
 * accepted routing or close, drops it, as do 19, 25 and 26 above. With its last
 * fragment it is drawn or refused by 20 to 23; then it is gathered no longer.
 *
 * What the host must know of the assembly slice:
 *   - While a frame is gathered it lends the same octets, unaltered, and at the
 *     same length, or the frame that is drawn is another than the one sent, and
 *     the meters count that one. The slice may stand elsewhere if its octets
 *     are copied. With altered octets or another length every call still gets
 *     its reply: check 26 goes by the length lent with the message, and the
 *     last fragment draws the octets that are found.
 *   - Nothing is written to it but the octets of fragments, each where those
 *     before it end: of accepted ones, and of a last one whose frame is refused
 *     by 20 to 23. They stay there; dropping a frame writes nothing.
 *   - It must hold the octets of a whole frame: 4 and the samples. A host that
 *     expects no fragments lends length 0; then every first fragment in mode 2
 *     gets 26.
 */

/*
 * Sets. A show opens its channels together: mewkoast_offer_set and
 * mewkoast_patch take several messages of type 0x00, end to end in one slice,
 * and accept all of them or none.
 *
 *   - Each is judged as if it were offered by itself to the record that the one
 *     before left: 15 and 16 go by the channels as the messages before leave
 *     them, and every number is the one in the table above. But a message of
 *     another type than 0x00 gets 4, also where it could be offered by itself.
 *     With configuration or without, keep-alive messages too.
 *   - A size below 8 or past the end of the slice, or a lone octet, is one more
 *     message, and gets 2; nothing after it is looked at.
 *   - The first refused message ends it: the record is then as it came, octet
 *     for octet. A broken record gets 1 at place 0, before anything else. No
 *     octets at all are a set of no messages, which is accepted.
 *   - No slice is lent: a message of type 0x00 draws nothing and adds nothing to
 *     the meters. A routing or close of an accepted set drops a frame that is
 *     gathered on its channel, as it does by itself; otherwise the assembly
 *     slice is kept for the next fragment, whatever sets come between.
 */

/*
 * In place, on the three arrays of a record. A host uses the four functions
 * after these, which pass the arrays of its record on.
 *
 * The host owes valid pointers and lengths and nothing else: `channels` to
 * `channels_length` octets, `meters` to `meters_length` numbers, aligned as
 * uint64_t is, and `gathered` to `gathered_length` numbers, aligned as uint32_t
 * is, to be read and written; the rest as at mewkoast_offer. No two of them
 * share memory. Arrays of other lengths than 6,528, 3 and 4 get number 1, and
 * nothing is written.
 */
mewkoast_reply mewkoast_begin_on(uint8_t *channels, size_t channels_length,
                                 uint64_t *meters, size_t meters_length,
                                 uint32_t *gathered, size_t gathered_length,
                                 uint64_t lit_time, uint64_t points,
                                 uint64_t lit_points);
mewkoast_reply mewkoast_offer_on(uint8_t *channels, size_t channels_length,
                                 uint64_t *meters, size_t meters_length,
                                 uint32_t *gathered, size_t gathered_length,
                                 const uint8_t *octets, size_t length,
                                 int32_t *rows, size_t rows_length,
                                 uint8_t *levels, size_t levels_length,
                                 uint8_t *assembly, size_t assembly_length);
/* The meters are only read. */
mewkoast_set_reply mewkoast_patch_on(uint8_t *channels, size_t channels_length,
                                     const uint64_t *meters,
                                     size_t meters_length, uint32_t *gathered,
                                     size_t gathered_length,
                                     const uint8_t *octets, size_t length);
/* The three readings as they stand; a meter that is not lent is read as 0. */
mewkoast_meters mewkoast_readings_on(const uint64_t *meters,
                                     size_t meters_length);

/*
 * Starts a receiver with three readings, every channel closed and no frame
 * gathered, whatever the record held before. The reply is 0 in all but the
 * number, which is 0, or 23 where a reading is above the limit: then all three
 * are 0.
 */
static inline mewkoast_reply
mewkoast_begin(mewkoast_receiver *receiver, uint64_t lit_time, uint64_t points,
               uint64_t lit_points)
{
    return mewkoast_begin_on(receiver->channels, sizeof receiver->channels,
                             receiver->meters, 3, receiver->gathered, 4,
                             lit_time, points, lit_points);
}

/*
 * Offers one message to the receiver, which is left as the next one, and gives
 * the reply. After a refusal the meters, the channels (19 apart, which closes
 * one) and the lent rows and levels hold what they held; after an acceptance
 * the decoded points from the start of `rows`, 24 numbers each, or the levels
 * in their places, and nothing else new. The assembly slice gets the octets of
 * fragments and nothing else, as above.
 *
 * The host owes valid pointers and lengths and nothing else: `octets` to
 * `length` octets to be read, `rows` to `rows_length` numbers and `levels` to
 * `levels_length` octets to be written, `assembly` to `assembly_length` octets
 * to be read and written, no two of them nor the record sharing memory. Any
 * message, of any length and any octets, any record and any assembly slice get
 * a reply.
 */
static inline mewkoast_reply
mewkoast_offer(mewkoast_receiver *receiver, const uint8_t *octets,
               size_t length, int32_t *rows, size_t rows_length,
               uint8_t *levels, size_t levels_length, uint8_t *assembly,
               size_t assembly_length)
{
    return mewkoast_offer_on(receiver->channels, sizeof receiver->channels,
                             receiver->meters, 3, receiver->gathered, 4, octets,
                             length, rows, rows_length, levels, levels_length,
                             assembly, assembly_length);
}

/*
 * Offers the messages of a set, end to end in `length` octets, to the receiver:
 * all are accepted, and it is left as the last one leaves it, or it is left as
 * it came. The host owes a valid pointer and length and nothing else.
 */
static inline mewkoast_set_reply
mewkoast_offer_set(mewkoast_receiver *receiver, const uint8_t *octets,
                  size_t length)
{
    return mewkoast_patch_on(receiver->channels, sizeof receiver->channels,
                             receiver->meters, 3, receiver->gathered, 4, octets,
                             length);
}

/* The three readings of a record as they stand. */
static inline mewkoast_meters
mewkoast_readings_of(const mewkoast_receiver *receiver)
{
    return mewkoast_readings_on(receiver->meters, 3);
}

/* By value: what mewkoast_begin does to a record, as the record handed back. */
mewkoast_outcome mewkoast_start(uint64_t lit_time, uint64_t points,
                                uint64_t lit_points);

/*
 * By value: what mewkoast_offer does to the record given, with the next one
 * beside the reply; the one given stays as it is. A host that keeps two
 * outcomes by turns, each in a local variable, can spare a copy a message: gcc
 * then has the call write the outcome where it is kept.
 */
mewkoast_outcome mewkoast_message(mewkoast_receiver receiver,
                                  const uint8_t *octets, size_t length,
                                  int32_t *rows, size_t rows_length,
                                  uint8_t *levels, size_t levels_length,
                                  uint8_t *assembly, size_t assembly_length);

/*
 * By value: what mewkoast_offer_set does to the record given, with the next one
 * beside the reply; the one given stays as it is.
 */
mewkoast_set_outcome mewkoast_patch(mewkoast_receiver receiver,
                                    const uint8_t *octets, size_t length);

/* By value: what mewkoast_readings_of gives. */
mewkoast_meters mewkoast_readings(mewkoast_receiver receiver);

/*
 * Where the data section of a message stands: from octet 8, 12 or
 * 12 + 4 * SCWC to the end, of a sequel (0xC0) always from octet 8; start 0 and
 * length 0 where 2, 3 or 5 applies, of which 5 never does to a sequel.
 */
mewkoast_span mewkoast_data_section(const uint8_t *octets, size_t length);

#ifdef __cplusplus
}
#endif

#endif
