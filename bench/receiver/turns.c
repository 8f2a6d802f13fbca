/*
 * A C host that keeps the receiver in two variables of its own by turns. gcc
 * has the call write the outcome where it is kept, so that one copy of the
 * record is made for each message, the argument. A host that keeps it in one
 * place, as examples/host.c does, makes another. The same for sets.
 */
#include "mewkoast.h"

/* What is offered, and what is lent with it. */
struct turn_message {
    const uint8_t *octets;
    size_t length;
};

struct turn_lent {
    int32_t *rows;
    size_t rows_length;
    uint8_t *levels;
    size_t levels_length;
    uint8_t *assembly;
    size_t assembly_length;
};

void offer_in_turns(mewkoast_outcome *kept, size_t times,
                    const struct turn_message *messages, size_t count,
                    const struct turn_lent *lent);
void patch_in_turns(mewkoast_set_outcome *kept, size_t times,
                    const uint8_t *octets, size_t length);

#define NEXT(from)                                                             \
    mewkoast_message((from).receiver, messages[place].octets,                  \
                     messages[place].length, lent->rows, lent->rows_length,    \
                     lent->levels, lent->levels_length, lent->assembly,        \
                     lent->assembly_length)

/* All the messages in order, so many times. */
void offer_in_turns(mewkoast_outcome *kept, size_t times,
                    const struct turn_message *messages, size_t count,
                    const struct turn_lent *lent)
{
    mewkoast_outcome a = *kept;
    mewkoast_outcome b;
    size_t place = 0;

    for (times *= count; times >= 2; times -= 2) {
        b = NEXT(a);
        place = place + 1 == count ? 0 : place + 1;
        a = NEXT(b);
        place = place + 1 == count ? 0 : place + 1;
    }
    if (times == 1) {
        b = NEXT(a);
        a = b;
    }
    *kept = a;
}

/* A set, so many times. */
void patch_in_turns(mewkoast_set_outcome *kept, size_t times,
                    const uint8_t *octets, size_t length)
{
    mewkoast_set_outcome a = *kept;
    mewkoast_set_outcome b;

    for (; times >= 2; times -= 2) {
        b = mewkoast_patch(a.receiver, octets, length);
        a = mewkoast_patch(b.receiver, octets, length);
    }
    if (times == 1) {
        b = mewkoast_patch(a.receiver, octets, length);
        a = b;
    }
    *kept = a;
}
