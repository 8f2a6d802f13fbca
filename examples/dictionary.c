/*
 * dictionary MODE HEX...
 *
 * Checks a tag dictionary given in hexadecimal and prints "width N", or
 * "refused N" with the number of the check that refuses it. Several HEX
 * arguments are joined; spaces between digits are left out.
 */
#include "mewkoast.h"

#include <ctype.h>
#include <inttypes.h>
#include <stdio.h>
#include <stdlib.h>
#include <string.h>

static int usage(void)
{
    fprintf(stderr, "usage: dictionary MODE HEX...\n");
    return 2;
}

/* Reads a decimal number of 32 bits; gives 0 if the text is no such number. */
static int read_mode(const char *text, uint32_t *mode)
{
    uint64_t value = 0;

    if (*text == '\0')
        return 0;
    for (; *text != '\0'; text++) {
        if (*text < '0' || *text > '9')
            return 0;
        value = value * 10 + (uint64_t)(*text - '0');
        if (value > UINT32_MAX)
            return 0;
    }
    *mode = (uint32_t)value;
    return 1;
}

/* The value of a hexadecimal digit, or -1. */
static int digit_value(char digit)
{
    const char *digits = "0123456789abcdef";
    const char *found = strchr(digits, tolower((unsigned char)digit));

    return found == NULL || digit == '\0' ? -1 : (int)(found - digits);
}

/*
 * Appends the digits of a text to the octets; `count` counts digits. Gives 0
 * if the text holds anything but digits and spaces.
 */
static int append(const char *text, uint8_t *octets, size_t *count)
{
    for (; *text != '\0'; text++) {
        int value = digit_value(*text);

        if (*text == ' ')
            continue;
        if (value < 0)
            return 0;
        octets[*count / 2] = (uint8_t)(octets[*count / 2] * 16 + value);
        ++*count;
    }
    return 1;
}

int main(int argc, char **argv)
{
    uint32_t mode, answer;
    size_t room = 1, count = 0;
    uint8_t *octets;
    int good;

    if (argc < 3 || !read_mode(argv[1], &mode))
        return usage();
    for (int i = 2; i < argc; i++)
        room += strlen(argv[i]);
    octets = calloc(room, 1);
    if (octets == NULL) {
        fprintf(stderr, "dictionary: out of memory\n");
        return 1;
    }
    good = 1;
    for (int i = 2; good && i < argc; i++)
        good = append(argv[i], octets, &count);
    if (!good || count % 2 != 0) {
        free(octets);
        return usage();
    }
    answer = mewkoast_dictionary(mode, octets, count / 2);
    free(octets);
    if (answer >= 100)
        printf("refused %" PRIu32 "\n", answer - 100);
    else
        printf("width %" PRIu32 "\n", answer);
    return 0;
}
