/*
 * patch [CHANNEL]
 *
 * Opens 64 channels in one call: channel 0 for waves, and then by turns one for
 * frames and one for dimmer levels. Prints what the set was answered with, and
 * how many channels are open then:
 *
 *     set of 64 messages: number 0, place 64
 *     64 channels are open
 *
 * With CHANNEL, 0 to 63, the message of that channel asks for mode 1 as channel
 * 0 does (0 itself asks for a mode that there is not), so that the set is
 * refused at that place and no channel is open.
 */
#include "mewkoast.h"

#include <stdio.h>
#include <stdlib.h>
#include <string.h>

enum { CHANNELS = 64, VOID = 0x00, ROUTING = 0x01 };

/* X, Y and three colours, as source document 003 has them in 3.4.11. */
static const uint8_t signals[] = {0x42, 0x00, 0x42, 0x10, 0x52, 0x7E,
                                  0x52, 0x14, 0x51, 0xCC, 0x00, 0x00};

/* Levels from number 1 on, filled up with tags that say nothing. */
static const uint8_t levels_from_1[] = {0x42, 0x00, 0x01, 0x00};

/* The messages end to end; none is longer than 12 octets and its tags. */
static uint8_t set[CHANNELS * (12 + sizeof signals)];
static size_t length;

/* A message of type 0x00 with Routing and these tags, behind those before. */
static void add(uint8_t channel, uint8_t mode, const uint8_t *tags, size_t octets)
{
    const uint8_t head[12] = {0, (uint8_t)(12 + octets), (uint8_t)(0xC0 | channel),
                              VOID, 0, 0, 0, 0, (uint8_t)(octets / 4), ROUTING, 0, mode};

    memcpy(set + length, head, sizeof head);
    memcpy(set + length + sizeof head, tags, octets);
    length += sizeof head + octets;
}

/* Channel 0 has waves, for only one channel can; -1 is no wrong channel. */
static void build(int wrong)
{
    for (int channel = 0; channel < CHANNELS; channel++) {
        uint8_t mode = channel == 0 ? 1 : channel % 2 == 1 ? 2 : 4;

        if (channel == wrong)
            mode = channel == 0 ? 99 : 1;
        if (mode == 4)
            add((uint8_t)channel, mode, levels_from_1, sizeof levels_from_1);
        else
            add((uint8_t)channel, mode, signals, sizeof signals);
    }
}

/* A Void chunk without data is accepted where its channel is open. */
static int open_channels(mewkoast_receiver *receiver)
{
    int count = 0;

    for (int channel = 0; channel < CHANNELS; channel++) {
        const uint8_t message[8] = {0, 8, (uint8_t)(0x80 | channel), VOID};

        if (mewkoast_offer(receiver, message, sizeof message, NULL, 0, NULL, 0,
                           NULL, 0).number == 0)
            count++;
    }
    return count;
}

int main(int argc, char **argv)
{
    static mewkoast_receiver receiver;
    mewkoast_set_reply reply;
    char *end = NULL;
    long wrong = argc == 2 ? strtol(argv[1], &end, 10) : -1;

    if (argc > 2 || (argc == 2 && (end == argv[1] || *end != '\0' || wrong < 0 ||
                                   wrong >= CHANNELS))) {
        fprintf(stderr, "usage: patch [CHANNEL]\n");
        return 2;
    }
    build((int)wrong);
    /* 0 0 0 is within the limit, so the reply is no refusal. */
    mewkoast_begin(&receiver, 0, 0, 0);
    reply = mewkoast_offer_set(&receiver, set, length);
    printf("set of %d messages: number %u, place %zu\n", CHANNELS, reply.number,
           reply.place);
    printf("%d channels are open\n", open_channels(&receiver));
    return 0;
}
