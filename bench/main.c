/*
 * Measures mewkoast_draw, C decoders and a memset of the same rows in one run,
 * and prints nanoseconds a point. The exit status is not 0 only if the outputs
 * differ or a file cannot be written; no time is judged.
 *
 * usage: draw [FILE]
 *
 * The times are also written to FILE in the form that picture.rs reads.
 */
#define _POSIX_C_SOURCE 199309L

#include "ways.h"

#include <stdio.h>
#include <string.h>
#include <time.h>

enum { MOST_POINTS = 1000, MOST_TAGS = 40 };

/* A run is shorter than a turn of the scheduler, so that some are undisturbed. */
enum { RUNS = 500, POINTS_A_RUN = 20000 };

/* Every decoder writes at least these octets. */
static size_t write_zeros(mewkoast_sample_layout layout, const uint8_t *octets,
                          size_t n, int32_t *rows, size_t rows_length)
{
    (void)octets, (void)n, (void)layout;
    memset(rows, 0, rows_length * sizeof *rows);
    return 0;
}

/* The ways that are compared. */
enum { SLOTS, PROVED, LISTS, BLOCKS, FLOOR, WAYS };

static const struct {
    const char *name;
    size_t (*draw)(mewkoast_sample_layout layout, const uint8_t *octets,
                   size_t n, int32_t *rows, size_t rows_length);
} ways[WAYS] = {
    [SLOTS] = {"C slots", slots_draw},
    [PROVED] = {"proved", mewkoast_draw},
    [LISTS] = {"C lists", plain_draw},
    [BLOCKS] = {"C blocks", blocks_draw},
    [FLOOR] = {"floor", write_zeros},
};

typedef struct {
    const char *name;
    uint16_t tags[MOST_TAGS];
} dictionary;

static const dictionary dictionaries[] = {
    /* IDN-Stream, 3.4.11: X and Y with precision, three colours. */
    {"sparse", {0x4200, 0x4010, 0x4210, 0x4010, 0x527E, 0x5214, 0x51CC}},
    /* The same with five colours and a hint. */
    {"hint", {0x4101, 0x4200, 0x4010, 0x4210, 0x4010, 0x527E, 0x5214, 0x51CC,
              0x51BD, 0x5241}},
    /* 3.4.10 without the second X: hint, intensity, six colours, X and Y. */
    {"usual", {0x4101, 0x5C10, 0x527E, 0x5214, 0x51CC, 0x51BD, 0x5241, 0x51E8,
               0x4200, 0x4010, 0x4210, 0x4010}},
    /* The same with Z, and precision for each. */
    {"precise", {0x4101, 0x5C10, 0x4010, 0x527E, 0x4010, 0x5214, 0x4010, 0x51CC,
                 0x4010, 0x51BD, 0x4010, 0x5241, 0x4010, 0x51E8, 0x4010, 0x4200,
                 0x4010, 0x4210, 0x4010, 0x4220, 0x4010}},
    /* Every signal, eight colours, four of them with a precise prefix. */
    {"full", {0x4101, 0x4200, 0x4010, 0x4210, 0x4010, 0x4220, 0x4010, 0x4201,
              0x4010, 0x4211, 0x4010, 0x5C10, 0x4010, 0x5C20, 0x527E, 0x4010,
              0x5214, 0x4010, 0x51CC, 0x51BD, 0x5C00, 0x4010, 0x5000, 0x5C00,
              0x4010, 0x5000, 0x5C00, 0x4010, 0x5000, 0x5C00, 0x4010, 0x5000}},
};

/* X, Y and colours, and one thing more in each: they show what it costs. */
static const dictionary parts[] = {
    {"1 colour", {0x4200, 0x4210, 0x5001}},
    {"+ 5 NOP", {0x4200, 0x4210, 0x5001, 0x4000, 0x4000, 0x4000, 0x4000, 0x4000}},
    {"8 colours", {0x4200, 0x4210, 0x5001, 0x5002, 0x5003, 0x5004, 0x5005,
                   0x5006, 0x5007, 0x5008}},
    {"+ hint", {0x4100, 0x4200, 0x4210, 0x5001, 0x5002, 0x5003, 0x5004, 0x5005,
                0x5006, 0x5007, 0x5008}},
    {"+ 8 4010", {0x4200, 0x4210, 0x5001, 0x4010, 0x5002, 0x4010, 0x5003, 0x4010,
                  0x5004, 0x4010, 0x5005, 0x4010, 0x5006, 0x4010, 0x5007, 0x4010,
                  0x5008, 0x4010}},
    {"+ 8 5C00", {0x4200, 0x4210, 0x5C00, 0x5000, 0x5C00, 0x5000, 0x5C00, 0x5000,
                  0x5C00, 0x5000, 0x5C00, 0x5000, 0x5C00, 0x5000, 0x5C00, 0x5000,
                  0x5C00, 0x5000}},
};

typedef struct {
    mewkoast_sample_layout layout;
    uint8_t octets[MOST_POINTS * 32];
    size_t n;
    size_t points;
} chunk;

static int32_t rows[MOST_POINTS * MEWKOAST_ROW];
static int32_t other_rows[MOST_POINTS * MEWKOAST_ROW];

/* A fixed sequence, so that every run measures the same samples. */
static uint32_t next_random(void)
{
    static uint32_t state = 0x2545F491;

    state ^= state << 13;
    state ^= state >> 17;
    state ^= state << 5;
    return state;
}

/* Random samples with stretches of dark points between them. */
static void fill(chunk *c)
{
    int dark = 0;

    for (size_t p = 0; p < MOST_POINTS; p++) {
        if (next_random() % 20 == 0)
            dark = !dark;
        for (size_t i = 0; i < c->layout.width; i++) {
            int slot = (c->layout.roles[i] - 1) % 32;
            int colour = c->layout.roles[i] <= 64 && slot >= 8 && slot < 16;
            uint8_t octet = (uint8_t)(next_random() >> 11);

            c->octets[p * c->layout.width + i] = dark && colour ? 0 : octet;
        }
    }
}

/* Makes the chunk of a dictionary; gives 0 if the dictionary is refused. */
static int make(chunk *c, const dictionary *d)
{
    uint8_t octets[MOST_TAGS * 2];
    size_t length = 0;
    mewkoast_checked_dictionary checked;

    for (; length / 2 < MOST_TAGS && d->tags[length / 2] != 0; length += 2) {
        octets[length] = (uint8_t)(d->tags[length / 2] >> 8);
        octets[length + 1] = (uint8_t)d->tags[length / 2];
    }
    checked = mewkoast_layout(1, octets, length);
    c->layout = checked.layout;
    if (checked.number == 0)
        fill(c);
    return checked.number == 0;
}

static size_t call(int way, const chunk *c, int32_t *out)
{
    return ways[way].draw(c->layout, c->octets, c->n, out, c->points * MEWKOAST_ROW);
}

/* True if the decoders agree on 0 to all points. */
static int equal(chunk *c)
{
    for (c->points = 0; c->points <= MOST_POINTS; c->points++) {
        size_t lit;

        c->n = c->points * c->layout.width;
        memset(rows, 0x55, sizeof rows);
        lit = call(PROVED, c, rows);
        for (int way = 0; way < FLOOR; way++) {
            memset(other_rows, 0x55, sizeof other_rows);
            if (call(way, c, other_rows) != lit ||
                memcmp(rows, other_rows, sizeof rows) != 0)
                return 0;
        }
    }
    return 1;
}

static double seconds(void)
{
    struct timespec now;

    clock_gettime(CLOCK_MONOTONIC, &now);
    return (double)now.tv_sec + (double)now.tv_nsec * 1e-9;
}

/* Nanoseconds a point, over many calls on the same chunk. */
static double measure(int way, const chunk *c)
{
    size_t calls = POINTS_A_RUN / c->points;
    double start = seconds();

    for (size_t i = 0; i < calls; i++) {
        size_t lit = call(way, c, rows);

        /* The rows count as read, so that no call can be left out. */
        __asm__ volatile("" : : "r"(rows), "r"(lit) : "memory");
    }
    return (seconds() - start) * 1e9 / (double)(calls * c->points);
}

/* Prints a line and, where there is a file, writes it too. */
static void compare(const char *name, chunk *c, size_t points, FILE *times)
{
    double best[WAYS];

    c->points = points;
    c->n = points * c->layout.width;
    /* The ways alternate, so that a slow moment does not meet one alone. */
    for (int run = 0; run <= RUNS; run++)
        for (int way = 0; way < WAYS; way++) {
            double time = measure(way, c);

            /* Run 0 warms up. */
            if (run == 1 || (run > 1 && time < best[way]))
                best[way] = time;
        }
    printf("%-9s %6d %6zu", name, c->layout.width, points);
    for (int way = 0; way < WAYS; way++)
        printf(" %8.2f", best[way]);
    printf(" %13.2f %12.2f\n", best[PROVED] / best[BLOCKS], best[PROVED] / best[LISTS]);
    if (times == NULL)
        return;
    fprintf(times, "case\t%s, %d octets", name, c->layout.width);
    for (int way = 0; way < WAYS; way++)
        fprintf(times, "\t%.3f", best[way]);
    fputc('\n', times);
}

static void head(const char *title, FILE *times)
{
    printf("%s\nlayout    octets points", title);
    for (int way = 0; way < WAYS; way++)
        printf(" %8s", ways[way].name);
    printf(" proved/blocks proved/lists\n");
    if (times != NULL)
        fprintf(times, "panel\t%s\n", title);
}

/* Prints a line for each dictionary; 0 if one differs. */
static int table(const char *title, const dictionary *list, size_t count,
                 size_t points, FILE *times)
{
    static chunk c;

    head(title, times);
    for (size_t i = 0; i < count; i++) {
        if (!make(&c, &list[i]) || !equal(&c)) {
            printf("%s: the outputs differ\n", list[i].name);
            return 0;
        }
        compare(list[i].name, &c, points, times);
    }
    printf("\n");
    return 1;
}

static int tables(FILE *times)
{
    size_t count = sizeof dictionaries / sizeof *dictionaries;

    printf("ns a point, best of %d alternating runs\n\n", RUNS);
    return table("chunks of 100 points", dictionaries, count, 100, times) &&
           table("chunks of 1,000 points", dictionaries, count, MOST_POINTS, times) &&
           table("100 points, one thing more in each", parts, sizeof parts / sizeof *parts,
                 100, times);
}

int main(int argc, char **argv)
{
    FILE *times = argc > 1 ? fopen(argv[1], "w") : NULL;
    int done;

    if (argc > 1 && times == NULL) {
        perror(argv[1]);
        return 1;
    }
    if (times != NULL) {
        fputs("ways", times);
        for (int way = 0; way < WAYS; way++)
            fprintf(times, "\t%s", ways[way].name);
        fputc('\n', times);
    }
    done = tables(times);
    if (times != NULL && fclose(times) != 0)
        return 1;
    return done ? 0 : 1;
}
