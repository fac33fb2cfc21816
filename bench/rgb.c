/*
 * Times the conversion of a frame to red, green and blue beside swscale's, fast and accurate (one thread each), and says how
 * far swscale's bytes lie from ours, which is a rough judgement only: swscale rounds otherwise.
 *
 *   rgb [ACROSS UP]      the frame in macro blocks; 120 by 68 (1920 by 1088) if not given
 *
 * Two pictures: one in the legal range (waves in all three planes, some noise), one of random bytes. Each converter goes over
 * the same planes in turn, several rounds, and its fastest round counts. swscale gets no filter for chroma (SWS_POINT), and
 * the planes with their rows turned, by strides below 0.
 */
#define _POSIX_C_SOURCE 199309L
#include "wedgepetal.h"

#include <libavutil/pixfmt.h>
#include <libswscale/swscale.h>
#include <stdio.h>
#include <stdlib.h>
#include <time.h>

enum { ROUNDS = 40 };

static void *memory(size_t bytes)
{
    void *m = calloc(bytes, 1);
    if (m == NULL) {
        fputs("rgb: no memory\n", stderr);
        exit(1);
    }
    return m;
}

static double now(void)
{
    struct timespec t;
    clock_gettime(CLOCK_PROCESS_CPUTIME_ID, &t);
    return (double)t.tv_sec * 1e3 + (double)t.tv_nsec * 1e-6;
}

static unsigned draw(void)
{
    static unsigned state = 8;
    state = state * 1664525u + 1013904223u;
    return state >> 16;
}

/* A wave from low to high over a plane. */
static void wave(uint8_t *plane, size_t width, size_t height, unsigned low, unsigned high)
{
    for (size_t y = 0; y < height; y++) {
        for (size_t x = 0; x < width; x++) {
            unsigned n = (unsigned)(x / 3 + y / 2) % (2 * (high - low - 4));
            plane[y * width + x] = (uint8_t)(low + (n < high - low - 4 ? n : 2 * (high - low - 4) - n) + draw() % 5);
        }
    }
}

static struct SwsContext *scaler(int width, int height, enum AVPixelFormat from, int flags)
{
    struct SwsContext *c = sws_getContext(width, height, from, width, height, AV_PIX_FMT_RGB24, flags, NULL, NULL, NULL);
    if (c == NULL) {
        fputs("rgb: no swscale for this\n", stderr);
        exit(1);
    }
    sws_setColorspaceDetails(c, sws_getCoefficients(SWS_CS_ITU601), 0, sws_getCoefficients(SWS_CS_ITU601), 1, 0, 1 << 16, 1 << 16);
    return c;
}

/* The fastest round of swscale, and the largest and mean difference of its bytes from ours. */
static void beside(const char *name, struct SwsContext *c, const uint8_t *const *planes, const int *strides, int height,
                   uint8_t *out, int stride, const uint8_t *ours, size_t length)
{
    double best = 1e9, sum = 0;
    unsigned most = 0;
    for (int i = 0; i < ROUNDS; i++) {
        double t = now();
        sws_scale(c, planes, strides, 0, height, &out, &stride);
        t = now() - t;
        best = t < best ? t : best;
    }
    for (size_t i = 0; i < length; i++) {
        unsigned d = (unsigned)abs(out[i] - ours[i]);
        most = d > most ? d : most;
        sum += d;
    }
    printf("  %s %.2f ms (differs by %u at most, %.3f on the mean)", name, best, most, sum / (double)length);
}

static void compare(uint64_t w, uint64_t h, int pf, int legal)
{
    static const enum AVPixelFormat FORMATS[] = {AV_PIX_FMT_YUV420P, AV_PIX_FMT_NONE, AV_PIX_FMT_YUV422P, AV_PIX_FMT_YUV444P};
    static const char *const NAMES[] = {"4:2:0", "", "4:2:2", "4:4:4"};
    const size_t width = 16 * w, height = 16 * h, cw = pf == 3 ? width : width / 2, ch = pf == 0 ? height / 2 : height;
    const size_t luma = width * height, chroma = cw * ch, length = 3 * luma;
    uint64_t session[WEDGEPETAL_SESSION_NUMBERS] = {0, w, h, width, height, 0, 0, 25, 1, 1, 1, 1, 0, 0, 0, (uint64_t)pf, 0, 0, 0};
    uint64_t written[1];
    uint8_t *planes = memory(luma + 2 * chroma), *ours = memory(length), *out = memory(length);
    double best = 1e9;

    for (size_t i = 0; i < luma + 2 * chroma; i++) {
        planes[i] = (uint8_t)draw();
    }
    if (legal) {
        wave(planes, width, height, 60, 190);
        wave(planes + luma, cw, ch, 108, 148);
        wave(planes + luma + chroma, cw, ch, 112, 144);
    }
    for (int i = 0; i < ROUNDS; i++) {
        double t = now();
        uint32_t answer = wedgepetal_rgb(session, WEDGEPETAL_SESSION_NUMBERS, planes, luma + 2 * chroma, ours, length, written, 1);
        t = now() - t;
        if (answer != 0) {
            fprintf(stderr, "rgb: refused by %u\n", (unsigned)answer);
            exit(1);
        }
        best = t < best ? t : best;
    }
    printf("%s %s: ours %.2f ms", NAMES[pf], legal ? "legal" : "random", best);
    const uint8_t *tops[4] = {planes + luma - width, planes + luma + chroma - cw, planes + luma + 2 * chroma - cw, NULL};
    const int strides[4] = {-(int)width, -(int)cw, -(int)cw, 0};
    struct SwsContext *fast = scaler((int)width, (int)height, FORMATS[pf], SWS_POINT);
    struct SwsContext *accurate =
        scaler((int)width, (int)height, FORMATS[pf], SWS_POINT | SWS_ACCURATE_RND | SWS_FULL_CHR_H_INT | SWS_FULL_CHR_H_INP);
    beside("swscale fast", fast, tops, strides, (int)height, out, 3 * (int)width, ours, length);
    beside("accurate", accurate, tops, strides, (int)height, out, 3 * (int)width, ours, length);
    puts("");
    sws_freeContext(fast);
    sws_freeContext(accurate);
    free(planes);
    free(ours);
    free(out);
}

int main(int argc, char **argv)
{
    const uint64_t w = argc == 3 ? strtoull(argv[1], NULL, 10) : 120, h = argc == 3 ? strtoull(argv[2], NULL, 10) : 68;
    static const int FORMATS[] = {0, 2, 3};
    printf("%llu by %llu macro blocks, the fastest of %d rounds, processor time\n", (unsigned long long)w, (unsigned long long)h, ROUNDS);
    for (int legal = 1; legal >= 0; legal--) {
        for (int i = 0; i < 3; i++) {
            compare(w, h, FORMATS[i], legal);
        }
    }
    return 0;
}
