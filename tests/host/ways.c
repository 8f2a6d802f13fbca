/*
 * Offers messages made by hand through the two ways of the header, in place
 * and by value, and compares replies, records, readings and the slices lent.
 * What the replies must be is the other tests' part; here the numbers are
 * expected. Prints each difference, then "CASES FAILED" as two numbers.
 */
#include "mewkoast.h"

#include <stdio.h>
#include <string.h>

typedef struct {
    unsigned number;
    uint8_t octets[46];
} way_case;

/* Document 01, "Bench table", a; then what the number says. */
static const way_case cases[] = {
    {16, {0x00, 0x08, 0x85}},
    {0, {0x00, 0x2E, 0xC5, 0x02, 0, 0, 0, 0, 0x04, 0x11, 0x01, 0x02,
         0x42, 0x00, 0x40, 0x10, 0x42, 0x10, 0x40, 0x10, 0x52, 0x7E, 0x52, 0x14,
         0x51, 0xCC, 0, 0, 0x10, 0, 0, 0x64, 0x80, 0, 0, 0x01,
         0, 0, 0, 0x7F, 0xFF, 0xFF, 0xFF, 0, 0x80, 0}},
    {0, {0x00, 0x08, 0x85}},
    {18, {0x00, 0x09, 0x85}},
    /* A frame of two points in three fragments, and one dropped by 25. */
    {0, {0x00, 0x0D, 0x85, 0x03, 0xFF, 0xFF, 0xFF, 0xFF, 0x10, 0, 0, 0x64, 0x80}},
    {0, {0x00, 0x0A, 0x85, 0xC0, 0, 0, 0, 0, 0x11, 0x22}},
    {0, {0x00, 0x13, 0xC5, 0xC0, 0, 0, 0, 1, 0x33, 0x44, 0x55, 0x66,
         0x77, 0x88, 0x99, 0xAA, 0xBB, 0xCC, 0xDD}},
    {24, {0x00, 0x08, 0x85, 0xC0, 0, 0, 0, 2}},
    {0, {0x00, 0x0C, 0x85, 0x03, 0, 0, 0, 0, 0x10, 0, 0, 0x64}},
    {25, {0x00, 0x08, 0x85, 0xC0, 0, 0, 0, 2}},
    /* 32 octets are lent, so one more is too many. */
    {26, {0x00, 0x29, 0x85, 0x03, 0, 0, 0, 0, 0x10}},
    {0, {0x00, 0x17, 0xC6, 0x18, 0, 0, 0, 1, 0x01, 0x01, 0x01, 0x04,
         0x42, 0x01, 0xFE, 0, 0, 0, 0, 0, 0xAA, 0xBB, 0xCC}},
    {19, {0x00, 0x1A, 0x85, 0x02}},
    {16, {0x00, 0x08, 0x85}},
};

typedef struct {
    mewkoast_receiver receiver;
    mewkoast_reply reply;
    mewkoast_meters meters;
    int32_t rows[48];
    uint8_t levels[MEWKOAST_PLACES];
    uint8_t assembly[32];
} host;

static host in_place, by_value;
static int count, failed;

/* Field by field: the octets between the fields of a reply may differ. */
static int same_replies(mewkoast_reply a, mewkoast_reply b)
{
    return a.number == b.number && a.channel == b.channel &&
           a.chunk_type == b.chunk_type && a.timestamp == b.timestamp &&
           a.space == b.space && a.points == b.points &&
           a.lit_points == b.lit_points && a.levels == b.levels;
}

static void expect(unsigned number, const char *what)
{
    host *a = &in_place, *b = &by_value;

    a->meters = mewkoast_readings_of(&a->receiver);
    b->meters = mewkoast_readings(b->receiver);
    count++;
    if (a->reply.number == number && same_replies(a->reply, b->reply) &&
        memcmp(&a->receiver, &b->receiver, sizeof a->receiver) == 0 &&
        memcmp(&a->meters, &b->meters, sizeof a->meters) == 0 &&
        memcmp(a->rows, b->rows, sizeof a->rows) == 0 &&
        memcmp(a->levels, b->levels, sizeof a->levels) == 0 &&
        memcmp(a->assembly, b->assembly, sizeof a->assembly) == 0)
        return;
    failed++;
    printf("ways, %s: number %u in place, %u by value, expected %u\n", what,
           a->reply.number, b->reply.number, number);
}

static void start(uint64_t lit_time, unsigned number)
{
    mewkoast_outcome started = mewkoast_start(lit_time, 5, 6);

    memset(&in_place.receiver, 0x5A, sizeof in_place.receiver);
    in_place.reply = mewkoast_begin(&in_place.receiver, lit_time, 5, 6);
    by_value.receiver = started.receiver;
    by_value.reply = started.reply;
    expect(number, "start");
}

static void offer(const uint8_t *octets)
{
    size_t length = (size_t)octets[0] << 8 | octets[1];
    host *a = &in_place, *b = &by_value;
    mewkoast_outcome next = mewkoast_message(
        b->receiver, octets, length, b->rows, 48, b->levels, sizeof b->levels,
        b->assembly, sizeof b->assembly);

    b->receiver = next.receiver;
    b->reply = next.reply;
    a->reply = mewkoast_offer(&a->receiver, octets, length, a->rows, 48,
                              a->levels, sizeof a->levels, a->assembly,
                              sizeof a->assembly);
}

int main(void)
{
    char what[32];

    start(UINT64_C(36000000000000001), 23);
    start(4, 0);
    for (size_t i = 0; i < sizeof cases / sizeof *cases; i++) {
        snprintf(what, sizeof what, "message %zu", i);
        offer(cases[i].octets);
        expect(cases[i].number, what);
    }
    printf("%d %d\n", count, failed);
    return failed == 0 ? 0 : 1;
}
