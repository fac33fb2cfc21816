/*
 * A frame whose luma plane has more than two gigabytes, decoded and checked sample by sample.
 *
 *   large [ACROSS UP]     in macro blocks; 2897 by 2897 if none is given
 *
 * The program makes its own headers and packets. In the intra frame each block has one token, plus or minus 1 by a
 * random bit; DC prediction makes a landscape of it. What each block must be is worked out here, row by row, from the
 * same bits. The second packet is an inter frame that codes no block: it must give the first frame again.
 * Memory: two plane buffers and work memory, together about 281 bytes for each block (14.2 GB for 2897 by 2897).
 */
#define _POSIX_C_SOURCE 199309L
#include "wedgepetal.h"

#include <stdio.h>
#include <stdlib.h>
#include <string.h>
#include <time.h>

static void fail(const char *what)
{
    fprintf(stderr, "large: %s\n", what);
    exit(1);
}

static void *memory(size_t bytes)
{
    void *m = malloc(bytes > 0 ? bytes : 1);
    if (m == NULL) {
        fail("not enough memory");
    }
    return m;
}

static double now(void)
{
    struct timespec t;
    clock_gettime(CLOCK_MONOTONIC, &t);
    return (double)t.tv_sec + (double)t.tv_nsec * 1e-9;
}

/* ---- packets, bit by bit */

struct packet {
    uint8_t *bytes;
    size_t room, bits;
};

static void put(struct packet *p, uint64_t value, int width)
{
    while (width-- > 0) {
        if (p->bits / 8 == p->room) {
            fail("a packet is longer than was reckoned");
        }
        if (value >> width & 1) {
            p->bytes[p->bits / 8] |= (uint8_t)(128 >> p->bits % 8);
        }
        p->bits++;
    }
}

static struct packet packet_of(size_t room)
{
    struct packet p = {memory(room), room, 0};
    memset(p.bytes, 0, room);
    return p;
}

static size_t length_of(const struct packet *p)
{
    return (p->bits + 7) / 8;
}

static void put_type(struct packet *p, int type)
{
    put(p, (uint64_t)type, 8);
    for (const char *c = "theora"; *c; c++) {
        put(p, (uint64_t)*c, 8);
    }
}

static struct packet identification(uint64_t across, uint64_t up)
{
    struct packet p = packet_of(42);
    put_type(&p, 0x80);
    put(&p, 0x030201, 24);
    put(&p, across, 16);
    put(&p, up, 16);
    put(&p, 16 * across, 24);
    put(&p, 16 * up, 24);
    put(&p, 0, 16);
    put(&p, 1, 32);
    put(&p, 1, 32);
    put(&p, 0, 24 + 24 + 8); /* PARN, PARD, CS */
    put(&p, 0, 24 + 6);             /* NOMBR, QUAL */
    put(&p, 6, 5);                  /* KFGSHIFT: with 0 every inter frame is refused by 17 */
    put(&p, 0, 2 + 3);              /* PF 0 (4:2:0), zeros */
    return p;
}

/* Loop limits 0; every matrix value 16 where it matters; DC tokens 9 and 10 (1 and -1) by one bit, all other codes end the block. */
enum { QUANTIZER = 16 };

static struct packet setup(void)
{
    struct packet p = packet_of(1024);
    put_type(&p, 0x82);
    put(&p, 0, 3);
    for (int k = 0; k < 2; k++) { /* AC scale, DC scale: 64 times 100 in 7 bits */
        put(&p, 6, 4);
        for (int q = 0; q < 64; q++) {
            put(&p, 100, 7);
        }
    }
    put(&p, 0, 9); /* one base matrix, all 4 */
    for (int c = 0; c < 64; c++) {
        put(&p, 4, 8);
    }
    put(&p, 62, 6); /* one range of 63 for intra Y', the same for the five others */
    put(&p, 0, 1);
    put(&p, 0, 1);
    for (int k = 0; k < 3; k++) {
        put(&p, 0, 2);
    }
    for (int t = 0; t < 16; t++) {
        put(&p, 0, 1);
        put(&p, 1, 1);
        put(&p, 9, 5);
        put(&p, 1, 1);
        put(&p, 10, 5);
    }
    for (int t = 16; t < 80; t++) {
        put(&p, 1, 1);
        put(&p, 0, 5);
    }
    return p;
}

/* ---- planes of blocks, 4:2:0 */

struct plane {
    size_t across, up, first; /* first: blocks of the planes before it */
};

static uint64_t seed = 0x9E3779B97F4A7C15u;

static int random_bit(void)
{
    seed ^= seed << 13;
    seed ^= seed >> 7;
    seed ^= seed << 17;
    return (int)(seed >> 40 & 1);
}

static const int CURVE[16][2] = {{0, 0}, {1, 0}, {1, 1}, {0, 1}, {0, 2}, {0, 3}, {1, 3}, {1, 2},
                                 {2, 2}, {2, 3}, {3, 3}, {3, 2}, {3, 1}, {2, 1}, {2, 0}, {3, 0}};

/* A random bit for each block in coded order, into the packet and, by raster number, into minus. */
static void put_signs(struct packet *p, const struct plane *q, uint8_t *minus)
{
    for (size_t v = 0; v < q->up; v += 4) {
        for (size_t u = 0; u < q->across; u += 4) {
            for (int k = 0; k < 16; k++) {
                size_t x = u + (size_t)CURVE[k][0], y = v + (size_t)CURVE[k][1];
                if (x < q->across && y < q->up) {
                    int bit = random_bit();
                    put(p, (uint64_t)bit, 1);
                    minus[q->first + y * q->across + x] = (uint8_t)bit;
                }
            }
        }
    }
}

/* A string of n zeros as long runs; after a run of 4129 the bit is sent anew. */
static void put_zeros(struct packet *p, uint64_t n)
{
    if (n > 0) {
        put(p, 0, 1);
    }
    while (n > 4129) {
        put(p, 63, 6);
        put(p, 4129 - 34, 12);
        put(p, 0, 1);
        n -= 4129;
    }
    if (n >= 34) {
        put(p, 63, 6);
        put(p, n - 34, 12);
        if (n == 4129) {
            return;
        }
    } else if (n > 0) {
        fail("a short rest is not foreseen: choose another size");
    }
}

/* ---- what the frame must be */

static int far_from(int value, int from)
{
    return value - from > 128 || from - value > 128;
}

/* The predictor of block x, by the row below and the row itself. In an intra frame every neighbour inside the plane counts:
 * L, DL and D, or D alone in the first column, or L alone in the lowest row, or nothing. */
static int predicted(const int *row, const int *below, size_t x)
{
    int l = x > 0 ? row[x - 1] : 0, d = below != NULL ? below[x] : 0, dl, value;
    if (x == 0 || below == NULL) {
        return below != NULL ? d : l;
    }
    dl = below[x - 1];
    value = (29 * l - 26 * dl + 29 * d) / 32;
    return far_from(value, d) ? d : far_from(value, l) ? l : far_from(value, dl) ? dl : value;
}

static void check_plane(const struct plane *q, const uint8_t *minus, const uint8_t *samples)
{
    int *row = memory(q->across * sizeof *row), *below = NULL, *spare = memory(q->across * sizeof *row);
    for (size_t y = 0; y < q->up; y++) {
        for (size_t x = 0; x < q->across; x++) {
            const uint8_t *block = samples + q->first * 64 + y * 64 * q->across + x * 8;
            int value, sample;
            value = predicted(row, below, x) + (minus[q->first + y * q->across + x] ? -1 : 1);
            row[x] = value;
            sample = 128 + ((value * QUANTIZER + 15) >> 5);
            sample = sample < 0 ? 0 : sample > 255 ? 255 : sample;
            for (size_t r = 0; r < 8; r++) {
                for (size_t c = 0; c < 8; c++) {
                    if (block[r * 8 * q->across + c] != sample) {
                        fail("a sample is wrong");
                    }
                }
            }
        }
        below = row;
        row = spare;
        spare = below;
    }
    free(row);
    free(spare);
}

int main(int count, char **words)
{
    uint64_t across = count == 3 ? strtoull(words[1], NULL, 10) : 2897, up = count == 3 ? strtoull(words[2], NULL, 10) : 2897;
    uint64_t session[WEDGEPETAL_SESSION_NUMBERS], sizes[WEDGEPETAL_SIZE_NUMBERS], lengths[WEDGEPETAL_LENGTH_NUMBERS];
    uint64_t answer[WEDGEPETAL_ANSWER_NUMBERS], place[1];
    uint8_t *table = memory(WEDGEPETAL_TABLE_BYTES), *frame[2], *minus;
    struct packet id = identification(across, up), tables = setup(), intra, inter;
    struct wedgepetal_work work;
    struct plane planes[3];
    double start;
    if (wedgepetal_identification(id.bytes, length_of(&id), session, WEDGEPETAL_SESSION_NUMBERS,
                                  place, 1) != 0 ||
        wedgepetal_setup(tables.bytes, length_of(&tables), table, WEDGEPETAL_TABLE_BYTES, place, 1) != 0 ||
        wedgepetal_sizes(session, WEDGEPETAL_SESSION_NUMBERS, sizes, WEDGEPETAL_SIZE_NUMBERS) != 0 ||
        wedgepetal_work_lengths(session, WEDGEPETAL_SESSION_NUMBERS, lengths, WEDGEPETAL_LENGTH_NUMBERS) != 0) {
        fail("a header is refused");
    }
    for (int k = 0; k < 3; k++) {
        const uint64_t *q = sizes + WEDGEPETAL_PLANE_Y + 4 * k;
        planes[k] = (struct plane){q[0], q[1], q[2] / 64};
    }
    printf("luma plane %llu bytes, buffer %llu bytes, work memory %llu bytes\n",
           (unsigned long long)sizes[WEDGEPETAL_PLANE_Y + 3], (unsigned long long)sizes[WEDGEPETAL_BUFFER],
           (unsigned long long)lengths[WEDGEPETAL_WORK_BYTES]);
    minus = memory(sizes[WEDGEPETAL_NBS]);
    frame[0] = memory(sizes[WEDGEPETAL_BUFFER]);
    frame[1] = memory(sizes[WEDGEPETAL_BUFFER]);
    work = wedgepetal_work_in(memory(lengths[WEDGEPETAL_WORK_BYTES]), lengths);

    intra = packet_of(sizes[WEDGEPETAL_NBS] / 8 + 64);
    put(&intra, 0, 12 + 8);
    for (int k = 0; k < 3; k++) {
        put_signs(&intra, &planes[k], minus);
    }
    put(&intra, 0, 8);

    start = now();
    if (wedgepetal_frame_in(&work, session, intra.bytes, length_of(&intra), table, frame[0], frame[0], frame[1],
                            sizes[WEDGEPETAL_BUFFER], answer) != 0) {
        fail("the intra frame is refused");
    }
    printf("intra frame of %zu bytes decoded in %.1f s\n", length_of(&intra), now() - start);
    for (int k = 0; k < 3; k++) {
        check_plane(&planes[k], minus, frame[1]);
    }
    printf("every sample is as it must be\n");

    inter = packet_of(sizes[WEDGEPETAL_NSBS] / 512 + 64);
    put(&inter, 1, 2);
    put(&inter, 0, 6 + 1);
    put_zeros(&inter, sizes[WEDGEPETAL_NSBS]);
    put_zeros(&inter, sizes[WEDGEPETAL_NSBS]);
    put(&inter, 7, 3);
    put(&inter, 0, 1 + 16);
    start = now();
    if (wedgepetal_frame_in(&work, session, inter.bytes, length_of(&inter), table, frame[1], frame[1], frame[0],
                            sizes[WEDGEPETAL_BUFFER], answer) != 0 ||
        answer[WEDGEPETAL_KIND] != WEDGEPETAL_INTER) {
        fail("the inter frame is refused");
    }
    printf("inter frame of %zu bytes decoded in %.1f s\n", length_of(&inter), now() - start);
    if (memcmp(frame[0], frame[1], sizes[WEDGEPETAL_BUFFER]) != 0) {
        fail("the inter frame is not the frame before");
    }
    printf("it is the frame before, byte for byte\n");
    return 0;
}
