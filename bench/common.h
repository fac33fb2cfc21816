/* What the programs of this folder share: the clock, and the packets of a recording's Theora stream, which are read into
 * memory before anything is timed. Each program defines _POSIX_C_SOURCE first. */
#ifndef COMMON_H
#define COMMON_H

#include <ogg/ogg.h>
#include <stdio.h>
#include <stdlib.h>
#include <string.h>
#include <time.h>

/* FFmpeg reads past the end of its packets: so many bytes stand behind each. */
enum { HEADERS = 3, BEHIND = 64 };

struct recording {
    unsigned char **packets;
    size_t *lengths;
    size_t count;
};

static void fail(const char *what)
{
    fprintf(stderr, "bench: %s\n", what);
    exit(1);
}

static void *memory(size_t bytes)
{
    void *m = calloc(bytes > 0 ? bytes : 1, 1);
    if (m == NULL) {
        fail("no memory");
    }
    return m;
}

/* Processor time of this thread, in seconds: what else the machine does is not in it. */
static double now(void)
{
    struct timespec t;
    clock_gettime(CLOCK_THREAD_CPUTIME_ID, &t);
    return (double)t.tv_sec + (double)t.tv_nsec * 1e-9;
}

static const char *base_name(const char *path)
{
    const char *slash = strrchr(path, '/');
    return slash == NULL ? path : slash + 1;
}

static void add_packet(struct recording *r, const ogg_packet *p)
{
    size_t n = r->count + 1;
    r->packets = realloc(r->packets, n * sizeof *r->packets);
    r->lengths = realloc(r->lengths, n * sizeof *r->lengths);
    if (r->packets == NULL || r->lengths == NULL) {
        fail("no memory");
    }
    r->packets[r->count] = memory((size_t)p->bytes + BEHIND);
    memcpy(r->packets[r->count], p->packet, (size_t)p->bytes);
    r->lengths[r->count] = (size_t)p->bytes;
    r->count = n;
}

static struct recording read_recording(const char *path)
{
    struct recording r = {0};
    ogg_sync_state sync;
    ogg_stream_state stream;
    ogg_page page;
    ogg_packet packet;
    int have = 0;
    size_t got;
    FILE *in = fopen(path, "rb");
    if (in == NULL) {
        fail(path);
    }
    ogg_sync_init(&sync);
    do {
        got = fread(ogg_sync_buffer(&sync, 65536), 1, 65536, in);
        ogg_sync_wrote(&sync, (long)got);
        while (ogg_sync_pageout(&sync, &page) == 1) {
            if (!have && ogg_page_bos(&page) && page.body_len >= 7 && memcmp(page.body, "\200theora", 7) == 0) {
                have = 1;
                ogg_stream_init(&stream, ogg_page_serialno(&page));
            }
            if (have && ogg_stream_pagein(&stream, &page) == 0) {
                while (ogg_stream_packetout(&stream, &packet) == 1) {
                    add_packet(&r, &packet);
                }
            }
        }
    } while (got > 0);
    fclose(in);
    if (have) {
        ogg_stream_clear(&stream);
    }
    ogg_sync_clear(&sync);
    if (r.count <= HEADERS) {
        fail("no Theora stream");
    }
    return r;
}

static void forget(struct recording *r)
{
    for (size_t i = 0; i < r->count; i++) {
        free(r->packets[i]);
    }
    free(r->packets);
    free(r->lengths);
}

#endif
