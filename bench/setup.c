/*
 * Times the reading of setup headers, side by side in one run: builds of this library, and libtheora.
 *
 *   setup NAME=LIBRARY.so.. RECORDING.ogv..
 *
 * Each build is called in turn, many calls at a time, round after round, and its fastest round counts. One line of a
 * table for each recording: the bytes of its setup header; microseconds of a setup call, which reads the header and fills
 * table memory, by each build and by libtheora's own header call; microseconds of the test of table memory by each build.
 * All builds must fill table memory alike.
 */
#define _POSIX_C_SOURCE 200809L
#include "common.h"
#include "wedgepetal.h"

#include <dlfcn.h>
#include <theora/theoradec.h>

enum { MOST_BUILDS = 8, CALLS = 40 };
static const double ENOUGH_SECONDS = 1.5;

/* Builds from before places were answered take no list for them, and do not look at one. */
typedef uint32_t setup_call(const uint8_t *packet, size_t bytes, uint8_t *table, size_t length, uint64_t *place,
                            size_t places);
typedef uint32_t table_call(const uint8_t *table, size_t length);

struct build {
    const char *name;
    setup_call *setup;
    table_call *test;
};

static struct build builds[MOST_BUILDS];
static int count;

static void *found(void *library, const char *name)
{
    void *f = dlsym(library, name);
    if (f == NULL) {
        fail(name);
    }
    return f;
}

static void add_build(char *word)
{
    char *is = strchr(word, '=');
    void *library = dlopen(is + 1, RTLD_NOW | RTLD_LOCAL);
    if (library == NULL || count == MOST_BUILDS) {
        fail(word);
    }
    *is = '\0';
    builds[count].name = word;
    *(void **)&builds[count].setup = found(library, "wedgepetal_setup");
    *(void **)&builds[count].test = found(library, "wedgepetal_table");
    count++;
}

static double setup_round(const struct build *b, const struct recording *r, uint8_t *table)
{
    uint64_t place;
    double start = now();
    for (int k = 0; k < CALLS; k++) {
        if (b->setup(r->packets[2], r->lengths[2], table, WEDGEPETAL_TABLE_BYTES, &place, 1) != 0) {
            fail("a setup header is refused");
        }
    }
    return (now() - start) / CALLS;
}

static double test_round(const struct build *b, const uint8_t *table)
{
    double start = now();
    for (int k = 0; k < CALLS; k++) {
        if (b->test(table, WEDGEPETAL_TABLE_BYTES) != 0) {
            fail("table memory is refused");
        }
    }
    return (now() - start) / CALLS;
}

/* libtheora's call for the third header; the first two are read before, and what it makes is given back after. */
static double theora_round(const struct recording *r)
{
    th_info info;
    th_comment comment;
    th_setup_info *made[CALLS] = {NULL};
    ogg_packet p = {.packet = r->packets[0], .bytes = (long)r->lengths[0], .b_o_s = 1};
    double start;
    th_info_init(&info);
    th_comment_init(&comment);
    if (th_decode_headerin(&info, &comment, &made[0], &p) <= 0) {
        fail("libtheora refuses a header");
    }
    p = (ogg_packet){.packet = r->packets[1], .bytes = (long)r->lengths[1], .packetno = 1};
    if (th_decode_headerin(&info, &comment, &made[0], &p) <= 0) {
        fail("libtheora refuses a header");
    }
    p = (ogg_packet){.packet = r->packets[2], .bytes = (long)r->lengths[2], .packetno = 2};
    start = now();
    for (int k = 0; k < CALLS; k++) {
        if (th_decode_headerin(&info, &comment, &made[k], &p) <= 0) {
            fail("libtheora refuses a header");
        }
    }
    start = now() - start;
    for (int k = 0; k < CALLS; k++) {
        th_setup_free(made[k]);
    }
    th_comment_clear(&comment);
    th_info_clear(&info);
    return start / CALLS;
}

static double less(double a, double b)
{
    return a < b ? a : b;
}

static void compare(const char *path)
{
    struct recording r = read_recording(path);
    uint8_t *table = memory(WEDGEPETAL_TABLE_BYTES), *other = memory(WEDGEPETAL_TABLE_BYTES);
    double setup[MOST_BUILDS], test[MOST_BUILDS], theora = 1e9, began = now();
    for (int k = 0; k < count; k++) {
        setup[k] = test[k] = 1e9;
        setup_round(&builds[0], &r, table);
        setup_round(&builds[k], &r, other);
        if (memcmp(table, other, WEDGEPETAL_TABLE_BYTES) != 0) {
            fail("two builds fill table memory differently");
        }
    }
    while (now() - began < ENOUGH_SECONDS) {
        for (int k = 0; k < count; k++) {
            setup[k] = less(setup[k], setup_round(&builds[k], &r, table));
            test[k] = less(test[k], test_round(&builds[k], table));
        }
        theora = less(theora, theora_round(&r));
    }
    printf("| %s | %zu |", base_name(path), r.lengths[2]);
    for (int k = 0; k < count; k++) {
        printf(" %.1f |", setup[k] * 1e6);
    }
    printf(" %.0f |", theora * 1e6);
    for (int k = 0; k < count; k++) {
        printf(" %.1f |", test[k] * 1e6);
    }
    printf("\n");
    fflush(stdout);
    free(table);
    free(other);
    forget(&r);
}

int main(int words, char **word)
{
    int k = 1;
    for (; k < words && strchr(word[k], '=') != NULL; k++) {
        add_build(word[k]);
    }
    printf("| recording | bytes |");
    for (int j = 0; j < count; j++) {
        printf(" setup, µs: %s |", builds[j].name);
    }
    printf(" libtheora |");
    for (int j = 0; j < count; j++) {
        printf(" table test, µs: %s |", builds[j].name);
    }
    printf("\n|---|---|");
    for (int j = 0; j < 2 * count + 1; j++) {
        printf("---|");
    }
    printf("\n");
    for (; k < words; k++) {
        compare(word[k]);
    }
    return 0;
}
