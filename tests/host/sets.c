/*
 * Offers sets made by hand through the two ways of the header, in place and by
 * value, and compares places, numbers and records; after a refusal the record
 * must be as it was. What is expected is written from document 02, C-14. Prints
 * each difference, then "CASES FAILED" as two numbers.
 */
#include "mewkoast.h"

#include <stdio.h>
#include <string.h>

enum { MOST = 3 };

/* Messages that are joined to a set, each by its name; NULL ends them. */
typedef struct {
    const char *names[MOST + 1];
    size_t place;
    unsigned number;
} set_case;

typedef struct {
    const char *name;
    size_t length;
    uint8_t octets[20];
} part;

static const part parts[] = {
    {"frames on 5", 20, {0, 20, 0xC5, 0, 0, 0, 0, 0, 2, 1, 0, 2,
                         0x42, 0, 0x42, 0x10, 0x52, 0x7E, 0, 0}},
    {"waves on 5", 20, {0, 20, 0xC5, 0, 0, 0, 0, 0, 2, 1, 0, 1,
                        0x42, 0, 0x42, 0x10, 0x52, 0x7E, 0, 0}},
    {"waves on 6", 20, {0, 20, 0xC6, 0, 0, 0, 0, 0, 2, 1, 0, 1,
                        0x42, 0, 0x42, 0x10, 0x52, 0x7E, 0, 0}},
    {"close 5", 12, {0, 12, 0xC5, 0, 0, 0, 0, 0, 0, 2, 0, 0}},
    {"alive 5", 8, {0, 8, 0x85, 0}},
    {"alive 6", 8, {0, 8, 0x86, 0}},
    {"no colour on 6", 16, {0, 16, 0xC6, 0, 0, 0, 0, 0, 1, 1, 0, 2,
                            0x42, 0, 0x42, 0x10}},
    {"a frame on 5", 12, {0, 12, 0x85, 2}},
    {"top bit 0", 8, {0, 8, 0x05, 2}},
    {"lone octet", 1, {0}},
    {"size 7", 8, {0, 7, 0x85, 0}},
    {"size 9 of 8", 8, {0, 9, 0x85, 0}},
};

/* In order, on one record: channel 5 or 6 is open as the sets before leave it. */
static const set_case cases[] = {
    {{NULL}, 0, 0},
    {{"lone octet"}, 0, 2},
    {{"alive 5", "frames on 5"}, 0, 16},
    {{"frames on 5", "alive 6"}, 1, 16},
    {{"alive 5"}, 0, 16},
    {{"frames on 5", "alive 5"}, 2, 0},
    {{"alive 5", "a frame on 5"}, 1, 4},
    {{"top bit 0"}, 0, 3},
    {{"alive 5", "size 7", "alive 5"}, 1, 2},
    {{"alive 5", "alive 5", "size 9 of 8"}, 2, 2},
    {{"alive 5", "alive 5", "lone octet"}, 2, 2},
    {{"waves on 5", "waves on 6"}, 1, 15},
    {{"waves on 5", "close 5", "waves on 6"}, 3, 0},
    {{"alive 5"}, 0, 16},
    {{"waves on 5"}, 0, 15},
    {{"frames on 5", "no colour on 6", "lone octet"}, 1, 12},
    {{"close 5"}, 0, 16},
    {{"alive 6", "alive 6", "alive 6"}, 3, 0},
};

static int count, failed;

static size_t add(uint8_t *set, size_t length, const char *name)
{
    for (size_t i = 0; i < sizeof parts / sizeof *parts; i++)
        if (strcmp(parts[i].name, name) == 0) {
            memcpy(set + length, parts[i].octets, parts[i].length);
            return length + parts[i].length;
        }
    printf("sets: no message has the name %s\n", name);
    failed++;
    return length;
}

static void offer(mewkoast_receiver *receiver, size_t which)
{
    const set_case *expected = &cases[which];
    uint8_t set[MOST * 20];
    size_t length = 0;
    mewkoast_receiver before = *receiver;
    mewkoast_set_outcome next;
    mewkoast_set_reply reply;

    for (size_t i = 0; expected->names[i] != NULL; i++)
        length = add(set, length, expected->names[i]);
    next = mewkoast_patch(before, set, length);
    reply = mewkoast_offer_set(receiver, set, length);
    count++;
    if (reply.place == expected->place && reply.number == expected->number &&
        next.reply.place == reply.place && next.reply.number == reply.number &&
        memcmp(&next.receiver, receiver, sizeof before) == 0 &&
        (reply.number == 0 || memcmp(&before, receiver, sizeof before) == 0))
        return;
    failed++;
    printf("sets, case %zu: number %u at %zu in place, %u at %zu by value, "
           "expected %u at %zu\n", which, reply.number, reply.place,
           next.reply.number, next.reply.place, expected->number, expected->place);
}

int main(void)
{
    static mewkoast_receiver receiver;

    mewkoast_begin(&receiver, 1, 2, 3);
    for (size_t i = 0; i < sizeof cases / sizeof *cases; i++)
        offer(&receiver, i);
    /* Check 1 comes first: a meter above its limit, and no message at all. */
    receiver.meters[1] = UINT64_C(36000000000000001);
    for (size_t length = 0; length < 2; length++) {
        mewkoast_set_reply reply = mewkoast_offer_set(&receiver, parts[0].octets, length);

        count++;
        if (reply.place == 0 && reply.number == 1)
            continue;
        failed++;
        printf("sets, broken record: number %u at %zu\n", reply.number, reply.place);
    }
    printf("%d %d\n", count, failed);
    return failed == 0 ? 0 : 1;
}
