/*
 * What libtheora makes of a recording, as text (see README.md):
 *
 *   decode RECORDING.ogv
 *   decode FILE.packets
 *
 * or its packets in hex, one in a line, for tests/streams/store:
 *
 *   decode --packets RECORDING.ogv
 *
 * or its frames as a YUV4MPEG2 stream, whole and not cropped, for tests/scoring:
 *
 *   decode --y4m RECORDING.ogv
 *   decode --y4m FILE.packets
 */
#include "hash.h"

#include <inttypes.h>
#include <ogg/ogg.h>
#include <stdio.h>
#include <stdlib.h>
#include <string.h>
#include <theora/theoradec.h>

static ogg_sync_state sync_state;
static ogg_stream_state stream;
static int have_stream = 0;
static th_info info;
static th_comment comment;
static th_setup_info *setup = NULL;
static th_dec_ctx *decoder = NULL;
static long packets = 0;
static enum { TEXT, PACKETS, FILM } form = TEXT;

static void fail(const char *what)
{
    fprintf(stderr, "decode: %s\n", what);
    exit(1);
}

/* The fields as the identification header has them: there PICY counts from below. */
static void print_fields(void)
{
    printf("VREV %u\n", info.version_subminor);
    printf("FMBW %u\nFMBH %u\n", info.frame_width / 16, info.frame_height / 16);
    printf("PICW %u\nPICH %u\nPICX %u\nPICY %u\n", info.pic_width, info.pic_height, info.pic_x,
           info.frame_height - info.pic_height - info.pic_y);
    printf("FRN %u\nFRD %u\n", info.fps_numerator, info.fps_denominator);
    printf("PARN %u\nPARD %u\n", info.aspect_numerator, info.aspect_denominator);
    printf("CS %d\nNOMBR %d\nQUAL %d\n", (int)info.colorspace, info.target_bitrate, info.quality);
    printf("KFGSHIFT %d\nPF %d\n", info.keyframe_granule_shift, (int)info.pixel_fmt);
}

/* The hash of the whole coded frame. */
static uint64_t hash_frame(th_ycbcr_buffer planes)
{
    uint64_t hash = HASH_START;
    for (int p = 0; p < 3; p++) {
        hash = hash_plane(hash, planes[p].data, planes[p].stride, (size_t)planes[p].width,
                          (size_t)planes[p].height);
    }
    return hash;
}

/* The kind and the qi list, read from the packet itself. */
static void print_frame_header(const ogg_packet *packet)
{
    const unsigned char *b = packet->packet;
    if (packet->bytes == 0) {
        printf("repeat -");
        return;
    }
    printf("%s %d", b[0] & 0x40 ? "inter" : "intra", b[0] & 0x3F);
    if (packet->bytes > 2 && b[1] & 0x80) {
        printf(",%d", b[1] >> 1 & 0x3F);
        if (b[1] & 1) {
            printf(",%d", b[2] >> 2);
        }
    }
}

static void print_frame(ogg_packet *packet)
{
    th_ycbcr_buffer planes;
    int answer = th_decode_packetin(decoder, packet, NULL);
    printf("frame %ld ", packets);
    if (answer < 0) {
        printf("refused %d\n", answer);
        return;
    }
    print_frame_header(packet);
    if (th_decode_ycbcr_out(decoder, planes) != 0) {
        fail("no planes");
    }
    printf(" %016" PRIx64 "\n", hash_frame(planes));
}

/* The first line of a film. */
static void write_film_header(void)
{
    static const char *const FORMATS[] = {"420jpeg", "", "422", "444"};
    int known = info.aspect_numerator != 0 && info.aspect_denominator != 0;
    printf("YUV4MPEG2 W%u H%u F%u:%u Ip A%u:%u C%s\n", info.frame_width, info.frame_height,
           info.fps_numerator, info.fps_denominator, known ? info.aspect_numerator : 0,
           known ? info.aspect_denominator : 0, FORMATS[info.pixel_fmt]);
}

/* A frame of a film, unless the packet is refused. */
static void write_film_frame(ogg_packet *packet)
{
    th_ycbcr_buffer planes;
    if (th_decode_packetin(decoder, packet, NULL) < 0) {
        return;
    }
    if (th_decode_ycbcr_out(decoder, planes) != 0) {
        fail("no planes");
    }
    printf("FRAME\n");
    for (int p = 0; p < 3; p++) {
        for (int row = 0; row < planes[p].height; row++) {
            fwrite(planes[p].data + (ptrdiff_t)row * planes[p].stride, 1, (size_t)planes[p].width, stdout);
        }
    }
}

static void print_packet(const ogg_packet *packet)
{
    for (long i = 0; i < packet->bytes; i++) {
        printf("%02x", packet->packet[i]);
    }
    printf("\n");
}

/* A packet of the Theora stream. */
static void decode_packet(ogg_packet *packet)
{
    if (form == TEXT) {
        printf("packet %ld %ld %016" PRIx64 "\n", packets, packet->bytes,
               hash_bytes(HASH_START, packet->packet, (size_t)packet->bytes));
    }
    if (packets < 3) {
        if (th_decode_headerin(&info, &comment, &setup, packet) <= 0) {
            fail("a header is refused");
        }
        if (packets == 2) {
            if (form == TEXT) {
                print_fields();
            } else {
                write_film_header();
            }
            decoder = th_decode_alloc(&info, setup);
            if (decoder == NULL) {
                fail("no decoder");
            }
        }
    } else if (form == TEXT) {
        print_frame(packet);
    } else {
        write_film_frame(packet);
    }
}

static void take_packet(ogg_packet *packet)
{
    if (form == PACKETS) {
        print_packet(packet);
    } else {
        decode_packet(packet);
    }
    packets++;
}

/* Whether a stream's first page holds an identification header. */
static int is_theora(ogg_page *page)
{
    return page->body_len >= 7 && page->body[0] == 0x80 && page->body[1] == 't' &&
           page->body[2] == 'h' && page->body[3] == 'e' && page->body[4] == 'o' &&
           page->body[5] == 'r' && page->body[6] == 'a';
}

static void take_page(ogg_page *page)
{
    ogg_packet packet;
    if (!have_stream && ogg_page_bos(page) && is_theora(page)) {
        have_stream = 1;
        ogg_stream_init(&stream, ogg_page_serialno(page));
    }
    if (!have_stream || ogg_stream_pagein(&stream, page) != 0) {
        return;
    }
    while (ogg_stream_packetout(&stream, &packet) == 1) {
        take_packet(&packet);
    }
}

/* A packet file: each packet as its length (4 bytes, the least significant first) and its bytes. */
static void take_packet_file(FILE *in)
{
    unsigned char length[4];
    while (fread(length, 1, 4, in) == 4) {
        ogg_packet packet = {0};
        packet.bytes = (long)length[0] | (long)length[1] << 8 | (long)length[2] << 16 | (long)length[3] << 24;
        packet.packet = malloc((size_t)packet.bytes + 1);
        packet.b_o_s = packets == 0;
        packet.granulepos = -1;
        packet.packetno = packets;
        if (packet.packet == NULL ||
            fread(packet.packet, 1, (size_t)packet.bytes, in) != (size_t)packet.bytes) {
            fail("a packet is cut");
        }
        take_packet(&packet);
        free(packet.packet);
    }
}

static void take_recording(FILE *in)
{
    ogg_page page;
    size_t got;
    ogg_sync_init(&sync_state);
    do {
        char *buffer = ogg_sync_buffer(&sync_state, 65536);
        got = fread(buffer, 1, 65536, in);
        ogg_sync_wrote(&sync_state, (long)got);
        while (ogg_sync_pageout(&sync_state, &page) == 1) {
            take_page(&page);
        }
    } while (got > 0);
    if (have_stream) {
        ogg_stream_clear(&stream);
    }
    ogg_sync_clear(&sync_state);
}

int main(int count, char **words)
{
    FILE *in;
    const char *ending;
    if (count == 3) {
        form = strcmp(words[1], "--packets") == 0 ? PACKETS : strcmp(words[1], "--y4m") == 0 ? FILM : TEXT;
    }
    if (count != 2 + (form != TEXT)) {
        fail("usage: decode [--packets | --y4m] RECORDING.ogv | decode [--y4m] FILE.packets");
    }
    in = fopen(words[count - 1], "rb");
    if (in == NULL) {
        fail(words[count - 1]);
    }
    th_info_init(&info);
    th_comment_init(&comment);
    ending = strrchr(words[count - 1], '.');
    if (ending != NULL && strcmp(ending, ".packets") == 0) {
        take_packet_file(in);
    } else {
        take_recording(in);
    }
    fclose(in);
    th_decode_free(decoder);
    th_setup_free(setup);
    th_comment_clear(&comment);
    th_info_clear(&info);
    if (packets < 3) {
        fail("no Theora stream");
    }
    return 0;
}
