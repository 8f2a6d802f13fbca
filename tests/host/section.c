/*
 * Calls mewkoast_data_section on messages made by hand and compares the part
 * it gives with document 01, "One message" and checks 2, 3 and 5, and request
 * C-12. Prints each difference, then "CASES FAILED" as two numbers.
 */
#include "mewkoast.h"

#include <stdio.h>
#include <string.h>

typedef struct {
    const char *hex;
    size_t start;
    size_t length;
    const char *why;
} section_case;

static const section_case cases[] = {
    /* "without CCLF it starts at octet 8" */
    {"0008 8000 00000000", 8, 0, "no configuration, no data"},
    {"000C 8502 00000000 10000064", 8, 4, "no configuration, data"},
    {"000D BF18 FFFFFFFF FF01FFFFAA", 8, 5, "what looks like a header is data"},
    /* "Without Routing, SCWC, SDM, service and mode are ignored and the data
     * section starts at octet 12" */
    {"0010 C502 00000000 04000102 10000064", 12, 4, "no Routing, 4 words pass the end"},
    {"0014 C502 00000000 01000102 10000064 AABBCCDD", 12, 8, "no Routing, 1 word is data"},
    {"000C C500 00000000 FFFEFFFF", 12, 0, "every flag but Routing"},
    /* "With Routing set, SCWC words follow, then the data section." */
    {"002EC502 00000000 04110102 42004010 42104010 527E5214 51CC0000"
     "10000064 80000001000000 7FFFFFFF008000", 28, 18, "bench table, a"},
    {"000C C500 00000000 00010000", 12, 0, "Routing, no words, no data"},
    {"000D C500 00000000 00FF0000 AA", 12, 1, "Routing, no words, every flag"},
    {"0010 C500 00000000 01010000 00000000", 16, 0, "the words end the message"},
    {"0011 C500 00000000 01010000 00000000 AA", 16, 1, "one octet after the words"},
    /* C-12: "Sequels carry bare octets from octet 8"; "checks 5 and 17 to 19
     * pass it by". A first fragment is like a frame. */
    {"000A 85C0 00000000 AABB", 8, 2, "a sequel"},
    {"0008 85C0 00000000", 8, 0, "a sequel without octets"},
    {"0012 C5C0 00000000 01010102 00000000 AABB", 8, 10, "the last, what looks like a word"},
    {"0008 C5C0 00000000", 8, 0, "the last, without octets"},
    {"000B C5C0 00000000 AABBCC", 8, 3, "the last, shorter than a header"},
    {"000C C5C0 00000000 FF010000", 8, 4, "the last, what looks like 255 words"},
    {"000E 8503 00000000 10000064 AABB", 8, 6, "a first fragment"},
    {"0012 C503 00000000 04000102 10000064 AABB", 12, 6, "a first fragment, no Routing"},
    {"0016 C503 00000000 01010102 00000000 10000064 AABB", 16, 6, "a first fragment with Routing"},
    /* Only 2, 3 and 5 give the empty part; 4, 6 and later checks do not. */
    {"000A 8504 00000000 AABB", 8, 2, "unknown type 04"},
    {"000A 85C1 00000000 AABB", 8, 2, "unknown type C1"},
    {"0012 C5FF 00000000 01010102 00000000 AABB", 16, 2, "unknown type with Routing"},
    {"000D C502 00000000 0001FFFF AA", 12, 1, "unknown service and mode"},
    {"0011 C502 00000000 01010102 3000 0000 AA", 16, 1, "a tag that 8 refuses"},
    /* 2 */
    {"", 0, 0, "no octet"},
    {"00", 0, 0, "one octet"},
    {"0007 8500 000000", 0, 0, "7 octets, Total Size 7"},
    {"0008 8500 000000", 0, 0, "7 octets, Total Size 8"},
    {"0009 8500 00000000", 0, 0, "Total Size is one more"},
    {"0007 8500 00000000", 0, 0, "Total Size is one less"},
    {"0800 8500 00000000", 0, 0, "Total Size little-endian"},
    /* 3 */
    {"0008 0500 00000000", 0, 0, "top bit 0"},
    {"000C 7F02 00000000 10000064", 0, 0, "top bit 0, CCLF 1"},
    {"000A 0504 00000000 AABB", 0, 0, "top bit 0, unknown type"},
    {"000A 45C0 00000000 AABB", 0, 0, "top bit 0, a sequel"},
    /* 5 */
    {"0008 C500 00000000", 0, 0, "no configuration header"},
    {"000B C500 00000000 000000", 0, 0, "3 octets of the header"},
    {"000C C500 00000000 01010000", 0, 0, "no octet of the word"},
    {"000F C500 00000000 01010000 000000", 0, 0, "3 octets of the word"},
    {"0010 C500 00000000 FF010000 00000000", 0, 0, "1 of 255 words"},
    {"000C C504 00000000 01010000", 0, 0, "words pass the end, unknown type"},
    {"000C C503 00000000 01010000", 0, 0, "words pass the end, a first fragment"},
    {"000B C503 00000000 000000", 0, 0, "3 octets of the header, a first fragment"},
    {"000C C5C1 00000000 01010000", 0, 0, "words pass the end, unknown type C1"},
};

/* Messages of one length: a header, then zeros. */
typedef struct {
    const char *hex;
    size_t octets;
    size_t start;
    size_t length;
    const char *why;
} long_case;

static const long_case long_cases[] = {
    {"FF00 8500 00000000", 65280, 8, 65272, "the longest message"},
    {"FF00 C5C0 00000000", 65280, 8, 65272, "the longest sequel"},
    {"FF01 8500 00000000", 65281, 0, 0, "one octet above the longest"},
    {"FF00 8500 00000000", 65281, 0, 0, "longer than Total Size"},
    {"0000 8500 00000000", 65536, 0, 0, "65,536 octets, Total Size 0"},
    {"0008 8500 00000000", 65544, 0, 0, "65,544 octets, Total Size 8"},
    {"0408 C500 00000000 FF010000", 1032, 1032, 0, "255 words"},
    {"0409 C500 00000000 FF010000", 1033, 1032, 1, "255 words and an octet"},
    {"0407 C500 00000000 FF010000", 1031, 0, 0, "an octet below 255 words"},
};

static uint8_t octets[65544];
static int count, failed;

/* Writes hexadecimal digits as octets and gives how many; the rest is 0. */
static size_t write_octets(const char *hex)
{
    const char *digits = "0123456789ABCDEF";
    size_t nibbles = 0;

    memset(octets, 0, sizeof octets);
    for (; *hex != '\0'; hex++) {
        const char *digit = strchr(digits, *hex);

        if (digit == NULL)
            continue;
        octets[nibbles / 2] = (uint8_t)(octets[nibbles / 2] * 16 + (digit - digits));
        nibbles++;
    }
    return nibbles / 2;
}

static void expect(size_t n, size_t start, size_t length, const char *why)
{
    mewkoast_span span = mewkoast_data_section(octets, n);

    count++;
    if (span.start == start && span.length == length)
        return;
    failed++;
    printf("section, %s: %zu and %zu, expected %zu and %zu\n", why, span.start,
           span.length, start, length);
}

int main(void)
{
    for (size_t i = 0; i < sizeof cases / sizeof *cases; i++) {
        size_t n = write_octets(cases[i].hex);

        expect(n, cases[i].start, cases[i].length, cases[i].why);
    }
    for (size_t i = 0; i < sizeof long_cases / sizeof *long_cases; i++) {
        const long_case *one = &long_cases[i];

        write_octets(one->hex);
        expect(one->octets, one->start, one->length, one->why);
    }
    printf("%d %d\n", count, failed);
    return failed == 0 ? 0 : 1;
}
