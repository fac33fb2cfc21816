#include "recording.h"

#include <ogg/ogg.h>
#include <stdio.h>
#include <stdlib.h>
#include <string.h>

enum { CHUNK = 65536 };

struct recording {
    FILE *file;
    int is_ogg;
    /* of an Ogg file */
    ogg_sync_state sync;
    ogg_stream_state stream;
    int begun, ended; /* whether the stream's first and last pages were there */
    /* of a packet file */
    uint8_t *packet;
    size_t room;
};

static const char first_bytes[] = "\200theora";

/* The next page of the file. 1: a page, 0: the end of the file. */
static int next_page(struct recording *r, ogg_page *page)
{
    while (ogg_sync_pageout(&r->sync, page) != 1) {
        char *room = ogg_sync_buffer(&r->sync, CHUNK);
        size_t got = room == NULL ? 0 : fread(room, 1, CHUNK, r->file);
        if (got == 0) {
            return 0;
        }
        ogg_sync_wrote(&r->sync, (long)got);
    }
    return 1;
}

/* Whether this is the first page of the stream that is read. */
static int begins(struct recording *r, ogg_page *page)
{
    return !r->begun && ogg_page_bos(page) && page->body_len >= 7 && memcmp(page->body, first_bytes, 7) == 0;
}

static int next_of_ogg(struct recording *r, const uint8_t **packet, size_t *length)
{
    ogg_packet found;
    ogg_page page;
    int answer;
    while (!r->begun || (answer = ogg_stream_packetout(&r->stream, &found)) == 0) {
        if (!next_page(r, &page)) {
            int whole = r->ended;
            r->ended = 1; /* said once */
            return whole ? 0 : -1;
        }
        if (begins(r, &page)) {
            r->begun = ogg_stream_init(&r->stream, ogg_page_serialno(&page)) == 0;
        }
        if (r->begun && ogg_stream_pagein(&r->stream, &page) == 0 && ogg_page_eos(&page)) {
            r->ended = 1;
        }
    }
    *packet = found.packet;
    *length = (size_t)found.bytes;
    return answer;
}

static int next_of_packet_file(struct recording *r, const uint8_t **packet, size_t *length)
{
    uint8_t said[4];
    size_t got = fread(said, 1, 4, r->file);
    if (got < 4) {
        return got == 0 ? 0 : -1;
    }
    *length = said[0] | (size_t)said[1] << 8 | (size_t)said[2] << 16 | (size_t)said[3] << 24;
    if (*length > r->room) {
        uint8_t *larger = (uint8_t *)realloc(r->packet, *length);
        if (larger == NULL) {
            return -1;
        }
        r->packet = larger;
        r->room = *length;
    }
    *packet = r->packet;
    return fread(r->packet, 1, *length, r->file) == *length ? 1 : -1;
}

struct recording *recording_open(const char *path)
{
    char first[11] = {0};
    struct recording *r = (struct recording *)calloc(1, sizeof *r);
    if (r == NULL) {
        return NULL;
    }
    ogg_sync_init(&r->sync);
    r->room = 1;
    r->packet = (uint8_t *)malloc(r->room);
    r->file = fopen(path, "rb");
    if (r->packet != NULL && r->file != NULL && fread(first, 1, 11, r->file) == 11) {
        r->is_ogg = memcmp(first, "OggS", 4) == 0;
        rewind(r->file);
        if (r->is_ogg || memcmp(first + 4, first_bytes, 7) == 0) {
            return r;
        }
    }
    recording_close(r);
    return NULL;
}

int recording_next(struct recording *r, const uint8_t **packet, size_t *length)
{
    return r->is_ogg ? next_of_ogg(r, packet, length) : next_of_packet_file(r, packet, length);
}

void recording_close(struct recording *r)
{
    if (r->begun) {
        ogg_stream_clear(&r->stream);
    }
    ogg_sync_clear(&r->sync);
    if (r->file != NULL) {
        fclose(r->file);
    }
    free(r->packet);
    free(r);
}
