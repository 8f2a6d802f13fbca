/* Frames in fragments (C-12); see card.h. */
#include "card.h"

#include <string.h>

/* Check 26, then the octets. */
static uint8_t append(struct card_gathering *gathering,
                      const struct card_fragment *fragment,
                      const struct card_lent *lent)
{
    size_t end = gathering->octets + fragment->length;

    if (end > lent->assembly_octets || end > CARD_LONGEST) {
        gathering->on = 0;
        return 26;
    }
    if (fragment->length != 0)
        memcpy(lent->assembly + gathering->octets, fragment->octets, fragment->length);
    gathering->octets = (uint32_t)end;
    gathering->due++;
    return 0;
}

uint8_t card_first(struct card_gathering *gathering,
                   const struct card_fragment *fragment,
                   const struct card_lent *lent)
{
    gathering->octets = 0;
    gathering->due = fragment->timestamp;
    gathering->on = fragment->channel + 1;
    return append(gathering, fragment, lent);
}

uint8_t card_sequel(struct card_gathering *gathering,
                    const struct card_fragment *fragment,
                    const struct card_lent *lent)
{
    if (gathering->on != fragment->channel + 1)
        return 24;
    if (gathering->due != fragment->timestamp) {
        gathering->on = 0;
        return 25;
    }
    return append(gathering, fragment, lent);
}

void card_drop(struct card_gathering *gathering, uint8_t channel)
{
    if (gathering->on == channel + 1)
        gathering->on = 0;
}
