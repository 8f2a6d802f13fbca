/* What a routing makes of a channel; see card.h. */
#include "card.h"

enum { CONFIGURED = 12 };

uint8_t card_configuration(const uint8_t *octets, uint8_t *state,
                           struct card_channel *next)
{
    static const uint8_t state_of[7] = {
        CARD_VOID, CARD_WAVE, CARD_FRAME, CARD_CLOSED, CARD_EFFECTS, CARD_CLOSED, CARD_DMX,
    };
    /* Bit s is set where service s goes with the state. */
    static const uint8_t services[CARD_STATES] = {0, 7, 3, 3, 3, 5};
    size_t length = 4 * (size_t)octets[8];
    uint8_t service = octets[10], mode = octets[11];

    *state = mode < sizeof state_of ? state_of[mode] : (uint8_t)CARD_CLOSED;
    if (*state == CARD_CLOSED)
        return 6;
    if (service > 2 || !(services[*state] >> service & 1))
        return 7;
    next->match = octets[9] >> 4 & 3;
    if (*state == CARD_VOID)
        return 0;
    if (*state <= CARD_FRAME)
        return card_dictionary(*state, octets + CONFIGURED, length, next);
    return card_mapping(*state, octets + CONFIGURED, length, next);
}
