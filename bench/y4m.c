/*
 * Times writing and reading streams of frames beside memcpy of as many bytes.
 *
 *   y4m
 *
 * Each goes over the same bytes in turn, several rounds, by processor time, and its fastest round counts. Frames of three
 * sizes: one fits into a core's own memory, one into the processor's, one into neither.
 */
#define _POSIX_C_SOURCE 199309L
#include "wedgepetal.h"

#include <stdio.h>
#include <stdlib.h>
#include <string.h>
#include <time.h>

enum { ROUNDS = 60, S = WEDGEPETAL_SESSION_NUMBERS };

static void *memory(size_t bytes)
{
    void *m = calloc(bytes, 1);
    if (m == NULL) {
        fputs("y4m: no memory\n", stderr);
        exit(1);
    }
    return m;
}

static double now(void)
{
    struct timespec t;
    clock_gettime(CLOCK_PROCESS_CPUTIME_ID, &t);
    return (double)t.tv_sec + (double)t.tv_nsec * 1e-9;
}

static void accepted(uint32_t answer)
{
    if (answer != 0) {
        fprintf(stderr, "y4m: refused by %u\n", (unsigned)answer);
        exit(1);
    }
}

static void measure(uint64_t w, uint64_t h, uint64_t pf, size_t frames)
{
    static const char *const NAMES[] = {"4:2:0", "", "4:2:2", "4:4:4"};
    uint64_t session[S] = {0, w, h, 0, 0, 0, 0, 25, 1, 1, 1, 0, 0, 0, 0, pf, 0, 0, 0};
    uint64_t sizes[WEDGEPETAL_SIZE_NUMBERS], written[1], film[WEDGEPETAL_FILM_NUMBERS];
    double best[4] = {1e9, 1e9, 1e9, 1e9};
    accepted(wedgepetal_sizes(session, S, sizes, WEDGEPETAL_SIZE_NUMBERS));
    const size_t buffer = sizes[WEDGEPETAL_BUFFER], length = frames * buffer;
    const size_t room = WEDGEPETAL_Y4M_HEADER_BYTES + frames * (6 + buffer);
    uint8_t *planes = memory(length), *out = memory(room);
    for (size_t i = 0; i < length; i++) {
        planes[i] = (uint8_t)(i * 2654435761u >> 24);
    }
    for (int round = 0; round < ROUNDS; round++) {
        double t[5];
        t[0] = now();
        memcpy(out, planes, length);
        /* so that the copy is not left out */
        __asm__ volatile("" : : "r"(out) : "memory");
        t[1] = now();
        for (size_t i = 0; i < frames; i++) {
            accepted(wedgepetal_y4m_frame(session, S, planes + i * buffer, buffer, out + i * (6 + buffer), 6 + buffer, written, 1));
        }
        t[2] = now();
        accepted(wedgepetal_y4m_write(session, S, planes, length, out, room, written, 1));
        t[3] = now();
        accepted(wedgepetal_y4m_read(out, written[0], planes, length, film, WEDGEPETAL_FILM_NUMBERS));
        t[4] = now();
        for (int i = 0; i < 4; i++) {
            best[i] = t[i + 1] - t[i] < best[i] ? t[i + 1] - t[i] : best[i];
        }
    }
    printf("%llu x %llu, %s, %zu frames, %.1f MB: GB/s memcpy %.1f, frame by frame %.1f, whole %.1f, read %.1f\n",
           (unsigned long long)(16 * w), (unsigned long long)(16 * h), NAMES[pf], frames, (double)length * 1e-6,
           (double)length * 1e-9 / best[0], (double)length * 1e-9 / best[1], (double)length * 1e-9 / best[2],
           (double)length * 1e-9 / best[3]);
    free(planes);
    free(out);
}

int main(void)
{
    printf("the fastest of %d rounds, processor time\n", ROUNDS);
    for (uint64_t pf = 0; pf <= 3; pf++) {
        if (pf != 1) {
            measure(4, 4, pf, 40);
            measure(22, 18, pf, 8);
            measure(120, 68, pf, 8);
            measure(512, 512, pf, 1);
        }
    }
    return 0;
}
