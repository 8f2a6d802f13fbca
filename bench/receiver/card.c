/* Messages, channels and meters of the card; see card.h. */
#include "card.h"

#include <string.h>

enum { HEADER = 8, CONFIGURED = 12, LARGEST = 65280, CHUNK_HEADER = 4 };
enum { TYPE_VOID = 0x00, TYPE_WAVE = 0x01, TYPE_FRAME = 0x02, TYPE_LEVELS = 0x18 };
/* C-12: a frame in fragments. */
enum { TYPE_FIRST = 0x03, TYPE_SEQUEL = 0xC0 };

/* A message that passed checks 2 to 5. */
struct message {
    const uint8_t *octets, *data;
    size_t length;
    uint8_t channel, type, routing, closing;
    uint8_t held; /* another channel has the mode that it routes to */
};

static uint32_t word_at(const uint8_t *octets)
{
    return (uint32_t)octets[0] << 24 | (uint32_t)octets[1] << 16 |
           (uint32_t)octets[2] << 8 | octets[3];
}

static struct card_reply refusal(uint8_t number)
{
    return (struct card_reply){.number = number};
}

uint8_t card_start(struct card *card, uint64_t lit_time, uint64_t points,
                   uint64_t lit_points)
{
    memset(card, 0, sizeof *card);
    if (lit_time > CARD_LIMIT || points > CARD_LIMIT || lit_points > CARD_LIMIT)
        return 23;
    card->lit_time = lit_time;
    card->points = points;
    card->lit_points = lit_points;
    return 0;
}

/* Check 1. Eight states are looked at together; all are below 6. */
static int consistent(const struct card *card)
{
    const uint64_t top = UINT64_C(0x8080808080808080);
    const uint64_t room = UINT64_C(0x0101010101010101) * (0x80 - CARD_STATES);
    uint64_t bad = 0, eight;

    for (int i = 0; i < CARD_CHANNELS; i += 8) {
        memcpy(&eight, card->states + i, sizeof eight);
        bad |= eight | (eight + room);
    }
    return (bad & top) == 0 && card->lit_time <= CARD_LIMIT &&
           card->points <= CARD_LIMIT && card->lit_points <= CARD_LIMIT;
}

/* Checks 2 to 5. */
static uint8_t read_header(const uint8_t *octets, size_t length, struct message *m)
{
    size_t start = HEADER;

    if (length < HEADER || length > LARGEST ||
        length != (size_t)(octets[0] << 8 | octets[1]))
        return 2;
    if (!(octets[2] & 0x80))
        return 3;
    m->type = octets[3];
    if (m->type > TYPE_FIRST && m->type != TYPE_LEVELS && m->type != TYPE_SEQUEL)
        return 4;
    m->routing = m->closing = m->held = 0;
    /* In a sequel the bit marks the last one. */
    if (octets[2] & 0x40 && m->type != TYPE_SEQUEL) {
        start = CONFIGURED;
        if (length < CONFIGURED)
            return 5;
        m->routing = octets[9] & 1;
        m->closing = octets[9] & 2;
        if (m->routing)
            start += 4 * (size_t)octets[8];
        if (start > length)
            return 5;
    }
    m->octets = octets;
    m->data = octets + start;
    m->length = length - start;
    m->channel = octets[2] & 0x3F;
    return 0;
}

/* Check 23 where it hangs on the lit points: they are counted beforehand. */
static int passes_limit(const struct card *card, const struct card_samples *plan,
                        const uint8_t *samples, uint32_t points, uint32_t duration)
{
    uint32_t lit = card_count_lit(plan, samples, points);

    return (lit != 0 && card->lit_time + duration > CARD_LIMIT) ||
           card->lit_points + lit > CARD_LIMIT;
}

/* Checks 20, 22 and 23 of a wave or frame, then its points and the meters. */
static uint8_t take_samples(struct card *card, const struct card_samples *plan,
                            const struct message *m, const struct card_lent *lent,
                            struct card_reply *reply)
{
    uint32_t octets = (uint32_t)(m->length - CHUNK_HEADER);
    uint32_t points = (uint32_t)((uint64_t)octets * plan->reciprocal >> 32);
    uint32_t duration = word_at(m->data) & 0xFFFFFF;
    const uint8_t *samples = m->data + CHUNK_HEADER;
    /* C-11: the first point of a frame is never lit. */
    uint32_t start = m->type == TYPE_FRAME && points != 0;
    uint32_t lit;

    if (points * plan->width != octets ||
        (m->type == TYPE_WAVE ? points < 20 : points == 1))
        return 20;
    if (lent->row_numbers < (size_t)points * CARD_ROW)
        return 22;
    if (card->points + points > CARD_LIMIT)
        return 23;
    /* With every point lit the meters still fit, but for the last hours. */
    if ((card->lit_time + duration > CARD_LIMIT ||
         card->lit_points + points > CARD_LIMIT) &&
        passes_limit(card, plan, samples + start * plan->width, points - start, duration))
        return 23;
    lit = card_draw(plan, samples, points, lent->rows);
    lit -= start != 0 && card_lit(lent->rows);
    card->lit_time += lit != 0 ? duration : 0;
    card->points += points;
    card->lit_points += lit;
    reply->points = points;
    reply->lit_points = lit;
    return 0;
}

/* Checks 21 and 22 of dimmer levels, then the levels. */
static uint8_t take_levels(const struct card_dimmer *plan, const struct message *m,
                           const struct card_lent *lent, struct card_reply *reply)
{
    size_t count = m->length - CHUNK_HEADER;
    const uint8_t *from = m->data + CHUNK_HEADER;

    if (plan->mapped ? count != plan->most : count > plan->most)
        return 21;
    if (lent->level_octets < CARD_PLACES)
        return 22;
    if (plan->mapped) {
        for (int i = 0; i < plan->move_count; i++) {
            struct card_move move = plan->moves[i];

            memcpy(lent->levels + move.to, from + move.from, move.count);
        }
        reply->levels = plan->written;
    } else if (!plan->dropped) {
        memcpy(lent->levels + plan->to, from, count);
        reply->levels = (uint32_t)count;
    }
    return 0;
}

static struct card_fragment fragment_of(const struct message *m)
{
    return (struct card_fragment){m->data, m->length, word_at(m->octets + 4), m->channel};
}

/* Checks 24 to 26; the frame so far is left in `whole`. */
static uint8_t take_sequel(struct card *card, const struct message *m,
                           const struct card_lent *lent, struct message *whole)
{
    struct card_fragment fragment = fragment_of(m);
    uint8_t number = card_sequel(&card->gathering, &fragment, lent);

    *whole = *m;
    whole->type = TYPE_FRAME;
    whole->data = lent->assembly;
    whole->length = card->gathering.octets;
    return number;
}

static uint8_t take_first(struct card *card, const struct message *m,
                          const struct card_lent *lent)
{
    struct card_fragment fragment = fragment_of(m);

    return card_first(&card->gathering, &fragment, lent);
}

/* Checks 17 to 19. */
static uint8_t match_chunk(uint8_t state, const struct card_channel *channel,
                           const struct message *m)
{
    static const uint8_t type_of[CARD_STATES] = {
        [CARD_WAVE] = TYPE_WAVE,
        [CARD_FRAME] = TYPE_FRAME,
        [CARD_EFFECTS] = TYPE_LEVELS,
        [CARD_DMX] = TYPE_LEVELS,
    };

    if (m->type != type_of[state] && (m->type != TYPE_FIRST || state != CARD_FRAME))
        return 17;
    if (m->length < CHUNK_HEADER)
        return 18;
    return (m->data[0] >> 4 & 3) != channel->match ? 19 : 0;
}

/*
 * Checks 15 and 17 to 26. One place takes the samples of a frame in one message and of
 * one in fragments, so that the reply stays in registers.
 */
static uint8_t read_chunk(struct card *card, uint8_t state,
                          const struct card_channel *channel, const struct message *m,
                          const struct card_lent *lent, struct card_reply *reply)
{
    struct message whole;
    uint8_t number;

    if (state == CARD_VOID)
        return 0;
    if (m->type == TYPE_VOID)
        return m->length != 0 ? 18 : m->held ? 15 : 0;
    if (m->type == TYPE_SEQUEL) {
        number = take_sequel(card, m, lent, &whole);
        if (number != 0 || !(m->octets[2] & 0x40))
            return number;
        card->gathering.on = 0;
        m = &whole;
    } else {
        number = match_chunk(state, channel, m);
        if (number != 0)
            return number;
        if (m->held)
            return 15;
        if (m->type == TYPE_LEVELS)
            return take_levels(&channel->plan.dimmer, m, lent, reply);
        if (m->type == TYPE_FIRST)
            return take_first(card, m, lent);
    }
    return take_samples(card, &channel->plan.samples, m, lent, reply);
}

/* The chunk, then Close; also where SCM tells that a configuration was lost. */
static struct card_reply take_chunk(struct card *card, uint8_t state,
                                    const struct card_channel *channel,
                                    const struct message *m, const struct card_lent *lent)
{
    struct card_reply reply = {
        .channel = m->channel,
        .chunk_type = m->type,
        .timestamp = word_at(m->octets + 4),
        .space = channel->space,
    };
    uint8_t number = read_chunk(card, state, channel, m, lent, &reply);

    if (number == 19 || (number == 0 && m->closing)) {
        card->states[m->channel] = CARD_CLOSED;
        card_drop(&card->gathering, m->channel);
    }
    return number == 0 ? reply : refusal(number);
}

/* Check 15, which C-13 puts behind 19. */
static int another_wave(const struct card *card, uint8_t channel)
{
    int found = 0;

    for (int c = 0; c < CARD_CHANNELS; c++)
        found |= (card->states[c] == CARD_WAVE) & (c != channel);
    return found;
}

/*
 * The new configuration governs the message, and it is kept only when the
 * message is accepted. Out of line: its plan is not on the stack of the others.
 */
static __attribute__((noinline)) struct card_reply
route(struct card *card, struct message *m, const struct card_lent *lent)
{
    struct card_channel next;
    struct card_reply reply;
    uint8_t state, number;

    memset(&next, 0, sizeof next);
    number = card_configuration(m->octets, &state, &next);
    if (number != 0)
        return refusal(number);
    m->held = state == CARD_WAVE && another_wave(card, m->channel);
    reply = take_chunk(card, state, &next, m, lent);
    /* A routing drops what was gathered, but not what it began itself. */
    if (reply.number == 0 && (m->type != TYPE_FIRST || state != CARD_FRAME))
        card_drop(&card->gathering, m->channel);
    if (reply.number == 0 && !m->closing) {
        card->channels[m->channel] = next;
        card->states[m->channel] = state;
    }
    return reply;
}

struct card_reply card_message(struct card *card, const uint8_t *octets,
                               size_t length, int32_t *rows, size_t row_numbers,
                               uint8_t *levels, size_t level_octets,
                               uint8_t *assembly, size_t assembly_octets)
{
    struct card_lent lent = {rows, row_numbers, levels, level_octets,
                             assembly, assembly_octets};
    struct message m;
    uint8_t number, state;

    if (!consistent(card))
        return refusal(1);
    number = read_header(octets, length, &m);
    if (number != 0)
        return refusal(number);
    if (m.routing)
        return route(card, &m, &lent);
    state = card->states[m.channel];
    if (state == CARD_CLOSED)
        return refusal(16);
    return take_chunk(card, state, &card->channels[m.channel], &m, &lent);
}
