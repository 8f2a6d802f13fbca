/* Dimmer tags of the card: ranges to moves of levels; see card.h. */
#include "card.h"

enum { UNIVERSE = 512, DROPPED = 0xFFFF, TAG_BASE = 0x42, TAG_RANGE = 0x43 };

/* Where the walk along the dimmer tags stands. */
struct walk {
    uint64_t taken[UNIVERSE / 64]; /* a bit for each mapped level */
    uint8_t bases, ranges;
};

/* Marks a range; answers whether one of its levels was mapped already. */
static int overlaps(struct walk *w, uint32_t first, uint32_t count)
{
    uint32_t end = first + count;

    while (first < end) {
        uint32_t bit = first % 64, run = 64 - bit;
        uint64_t mask;

        if (run > end - first)
            run = end - first;
        mask = (UINT64_MAX >> (64 - run)) << bit;
        if (w->taken[first / 64] & mask)
            return 1;
        w->taken[first / 64] |= mask;
        first += run;
    }
    return 0;
}

/* Ranges that follow one another on both sides become one move. */
static void add_move(struct card_dimmer *plan, uint16_t to, uint16_t count)
{
    struct card_move *last = plan->moves + plan->move_count;

    if (plan->move_count != 0 && last[-1].to + last[-1].count == to &&
        last[-1].from + last[-1].count == plan->most) {
        last[-1].count += count;
        return;
    }
    *last = (struct card_move){plan->most, to, count};
    plan->move_count++;
}

/* Tag 42; the place of level 1 is `origin`. */
static uint8_t take_base(struct walk *w, uint16_t base, uint16_t origin,
                         struct card_dimmer *plan)
{
    if (base == 0 || (base > UNIVERSE && base != DROPPED))
        return 13;
    if (w->bases || w->ranges)
        return 14;
    w->bases = 1;
    plan->dropped = base == DROPPED;
    plan->to = plan->dropped ? 0 : origin + base - 1;
    plan->most = plan->dropped ? UINT16_MAX : UNIVERSE + 1 - base;
    return 0;
}

/* Tag 43. */
static uint8_t take_range(struct walk *w, uint16_t base, uint8_t count,
                          uint16_t origin, struct card_dimmer *plan)
{
    int dropped = base == DROPPED;

    if (count == 0 || base == 0 || (!dropped && base + count > UNIVERSE + 1))
        return 13;
    if (w->bases || w->ranges == CARD_RANGES)
        return 14;
    if (!dropped && overlaps(w, base - 1u, count))
        return 14;
    if (w->ranges++ == 0) {
        plan->mapped = 1;
        plan->most = 0;
    }
    if (!dropped) {
        add_move(plan, origin + base - 1, count);
        plan->written += count;
    }
    plan->most += count;
    return 0;
}

uint8_t card_mapping(uint8_t state, const uint8_t *tags, size_t length,
                     struct card_channel *channel)
{
    struct card_dimmer *plan = &channel->plan.dimmer;
    uint16_t origin = state == CARD_DMX ? UNIVERSE : 0;
    struct walk w = {{0}, 0, 0};

    plan->most = UNIVERSE;
    plan->to = origin;
    for (size_t at = 0; at < length;) {
        uint8_t tag = tags[at], number = 0;
        size_t data = tag & 15;

        if ((tag >> 4 != 0 && tag != TAG_BASE && tag != TAG_RANGE) ||
            data > length - at - 1)
            return 13;
        if (tag == TAG_BASE)
            number = take_base(&w, tags[at + 1] << 8 | tags[at + 2], origin, plan);
        else if (tag == TAG_RANGE)
            number = take_range(&w, tags[at + 1] << 8 | tags[at + 2], tags[at + 3],
                                origin, plan);
        if (number != 0)
            return number;
        at += 1 + data;
    }
    return 0;
}
