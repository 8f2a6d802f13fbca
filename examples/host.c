/*
 * host [--size]
 *
 * Reads messages end to end from standard input, offers each one to a
 * receiver started at 0 0 0, and prints the reply to each on a line:
 *
 *     channel 5 type 2 number 0 time 0 space 0 points 2 lit 1 levels 0
 *
 * At the end it prints "meters" and the three readings: lit microseconds,
 * points, lit points. A size below 8 or past the end, or a lone octet, prints
 * "cut" and the count of octets from there to the end of the input instead;
 * then only the meters follow.
 *
 * With --size it prints how many octets the receiver takes, and reads nothing.
 */
#include "mewkoast.h"

#include <inttypes.h>
#include <stdio.h>
#include <string.h>

/* What is lent with each message: rows of 500 points, and every level. */
enum { NUMBERS = 500 * MEWKOAST_ROW, LEVELS = MEWKOAST_PLACES };

/* And room for a frame that comes in fragments. */
enum { ASSEMBLY = 65536 };

/*
 * Total Size has 16 bits, so no message is longer. Those above 65,280 octets
 * are offered as well: refusing them is the receiver's part.
 */
enum { LONGEST = 65535, SHORTEST = 8 };

static uint8_t message[LONGEST];
static int32_t rows[NUMBERS];
static uint8_t levels[LEVELS];

/*
 * A frame's octets stand here from its first fragment to its last, so this is
 * lent with every message, unaltered and at one length.
 */
static uint8_t assembly[ASSEMBLY];

/*
 * The receiver, which each call changes in place. mewkoast_message takes it by
 * value instead and hands back the next one; it copies the record and needs
 * more stack.
 */
static mewkoast_receiver receiver;

/* Counts what is left of the input, so that "cut" can tell it. */
static uint64_t count_rest(void)
{
    uint8_t octets[4096];
    uint64_t count = 0;
    size_t got;

    while ((got = fread(octets, 1, sizeof octets, stdin)) > 0)
        count += got;
    return count;
}

/*
 * Reads the next message. Gives its length, or 0 at the end of the input;
 * then `cut` holds the octets that are no whole message.
 */
static size_t read_message(uint64_t *cut)
{
    size_t got = fread(message, 1, 2, stdin);
    size_t size;

    *cut = got;
    if (got < 2)
        return 0;
    size = (size_t)message[0] << 8 | message[1];
    if (size < SHORTEST) {
        *cut += count_rest();
        return 0;
    }
    got = fread(message + 2, 1, size - 2, stdin);
    if (got < size - 2) {
        *cut += got;
        return 0;
    }
    return size;
}

static void print_reply(mewkoast_reply reply)
{
    printf("channel %u type %u number %u time %" PRIu32 " space %u points %" PRIu32
           " lit %" PRIu32 " levels %" PRIu32 "\n",
           reply.channel, reply.chunk_type, reply.number, reply.timestamp,
           reply.space, reply.points, reply.lit_points, reply.levels);
}

/*
 * Offers every message. A card would use the rows or levels of an accepted
 * message here: reply.points rows from the start of `rows`, or the levels in
 * their places. A refused message has left both as they were, and so has a
 * fragment that is not the last of its frame.
 */
static void run(void)
{
    mewkoast_meters meters;
    uint64_t cut;
    size_t length;

    /* 0 0 0 is within the limit, so the reply is no refusal. */
    mewkoast_begin(&receiver, 0, 0, 0);
    while ((length = read_message(&cut)) > 0)
        print_reply(mewkoast_offer(&receiver, message, length, rows, NUMBERS,
                                   levels, LEVELS, assembly, ASSEMBLY));
    if (cut > 0)
        printf("cut %" PRIu64 "\n", cut);
    meters = mewkoast_readings_of(&receiver);
    printf("meters %" PRIu64 " %" PRIu64 " %" PRIu64 "\n", meters.lit_time,
           meters.points, meters.lit_points);
}

int main(int argc, char **argv)
{
    if (argc == 2 && strcmp(argv[1], "--size") == 0) {
        printf("%zu\n", sizeof(mewkoast_receiver));
        return 0;
    }
    if (argc != 1) {
        fprintf(stderr, "usage: host [--size]\n");
        return 2;
    }
    run();
    /* A message that could not be read is not one that was not sent. */
    if (ferror(stdin) || fflush(stdout) != 0) {
        perror("host");
        return 1;
    }
    return 0;
}
