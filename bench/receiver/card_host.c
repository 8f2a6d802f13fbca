/* What a host that is not C needs of card.h beside its calls. */
#include "card.h"

size_t card_octets(void);
void card_readings(const struct card *card, uint64_t readings[3]);

size_t card_octets(void)
{
    return sizeof(struct card);
}

void card_readings(const struct card *card, uint64_t readings[3])
{
    readings[0] = card->lit_time;
    readings[1] = card->points;
    readings[2] = card->lit_points;
}
