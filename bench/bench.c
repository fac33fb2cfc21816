/*
 * Times the decoding of recordings, side by side in one run: this decoder, libtheora, FFmpeg (one thread each).
 *
 *   bench [--turns] RECORDING.ogv..
 *
 * All packets are read into memory first; only decoding is timed, by the processor's time. This decoder has three ways: the whole recording
 * in one shot call, a shot call for each packet, a frame call for each packet. In a pass each way and each decoder in turn goes over the
 * whole recording several times, of which the fastest counts: so each is measured as it decodes a long recording, and not as it comes in
 * behind another one to cold caches. Of the passes the median counts. With --turns it is as it comes in behind another one: each goes over
 * the recording once, then the next one, and of all these rounds the median counts. One line of a table for each recording: the frame's
 * size in macro blocks, the number of frames, microseconds per frame, the ratios, and which share of the frame calls' time the test of
 * table memory and the clearing of work memory take.
 */
#define _POSIX_C_SOURCE 200809L
#include "common.h"
#include "wedgepetal.h"

#include <libavcodec/avcodec.h>
#include <theora/theoradec.h>

enum { PASSES = 5, LEAST_ROUNDS = 3, MOST_TURNS = 401, LEAST_TURNS = 5 };
_Static_assert(AV_INPUT_BUFFER_PADDING_SIZE <= BEHIND, "FFmpeg reads further");
static const double ENOUGH_SECONDS = 0.1, ENOUGH_FOR_TURNS = 2;

/* ---- this decoder */

/* What a caller lends for a recording's frames. The three buffers are handed on by number. */
struct lent {
    uint64_t session[WEDGEPETAL_SESSION_NUMBERS], sizes[WEDGEPETAL_SIZE_NUMBERS], lengths[WEDGEPETAL_LENGTH_NUMBERS];
    uint8_t *table, *planes[3];
    void *memory;
};

/* Memory as a caller has it who lends it again and again. The first touch of a page is the system's time; the others touch theirs when they
 * are opened, which is not timed. */
static void *touched(size_t bytes)
{
    return memset(memory(bytes), 1, bytes);
}

static struct lent lend(const struct recording *r)
{
    struct lent l;
    uint64_t place[1];
    l.table = memory(WEDGEPETAL_TABLE_BYTES);
    if (wedgepetal_identification(r->packets[0], r->lengths[0], l.session, WEDGEPETAL_SESSION_NUMBERS,
                                  place, 1) != 0 ||
        wedgepetal_setup(r->packets[2], r->lengths[2], l.table, WEDGEPETAL_TABLE_BYTES, place, 1) != 0 ||
        wedgepetal_sizes(l.session, WEDGEPETAL_SESSION_NUMBERS, l.sizes, WEDGEPETAL_SIZE_NUMBERS) != 0 ||
        wedgepetal_work_lengths(l.session, WEDGEPETAL_SESSION_NUMBERS, l.lengths, WEDGEPETAL_LENGTH_NUMBERS) != 0) {
        fail("a header is refused");
    }
    l.memory = touched(l.lengths[WEDGEPETAL_WORK_BYTES]);
    for (int p = 0; p < 3; p++) {
        l.planes[p] = touched(l.sizes[WEDGEPETAL_BUFFER]);
    }
    return l;
}

static void give_back(struct lent *l)
{
    free(l->table);
    free(l->memory);
    for (int p = 0; p < 3; p++) {
        free(l->planes[p]);
    }
}

/* A shot of so many packets, joined together, whose session, names and buffers go on from the one before. */
static void play(const struct lent *l, const struct wedgepetal_work *w, uint64_t *session, uint64_t *names, const uint64_t *lengths, size_t count,
                 const uint8_t *packets, size_t bytes, uint64_t *answers)
{
    const uint64_t *n = w->lengths;
    size_t buffer = l->sizes[WEDGEPETAL_BUFFER];
    if (wedgepetal_shot(session, WEDGEPETAL_SESSION_NUMBERS, names, WEDGEPETAL_NAME_NUMBERS, lengths, count, packets, bytes, l->table,
                        WEDGEPETAL_TABLE_BYTES, w->records, n[WEDGEPETAL_RECORDS], w->coded, n[WEDGEPETAL_CODED], w->coefs, n[WEDGEPETAL_COEFS],
                        w->dc, n[WEDGEPETAL_DC], w->lasts, n[WEDGEPETAL_LASTS], w->flags, n[WEDGEPETAL_FLAGS], w->bits, n[WEDGEPETAL_BITS],
                        w->supers, n[WEDGEPETAL_SUPERS], w->modes, n[WEDGEPETAL_MODES], w->active, n[WEDGEPETAL_ACTIVE], l->planes[0], buffer,
                        l->planes[1], buffer, l->planes[2], buffer, answers, WEDGEPETAL_ANSWER_NUMBERS * count) != 0) {
        fail("a shot is refused");
    }
}

/* Decodes the whole recording by one shot call, or by one for each packet. */
static double shots_round(const struct recording *r, size_t at_once)
{
    struct lent l = lend(r);
    struct wedgepetal_work work = wedgepetal_work_in(l.memory, l.lengths);
    size_t count = r->count - HEADERS, bytes = 0, at = 0;
    uint64_t names[WEDGEPETAL_NAME_NUMBERS] = {WEDGEPETAL_NO_BUFFER, WEDGEPETAL_NO_BUFFER};
    uint64_t *lengths = memory(count * sizeof *lengths), *answers = memory(count * WEDGEPETAL_ANSWER_NUMBERS * sizeof *answers);
    uint8_t *joined;
    double start;
    for (size_t i = 0; i < count; i++) {
        bytes += lengths[i] = r->lengths[HEADERS + i];
    }
    joined = memory(bytes);
    for (size_t i = 0; i < count; i++) {
        memcpy(joined + at, r->packets[HEADERS + i], lengths[i]);
        at += lengths[i];
    }
    at = 0;
    start = now();
    for (size_t i = 0; i < count; i += at_once) {
        play(&l, &work, l.session, names, lengths + i, at_once, joined + at, bytes - at, answers + WEDGEPETAL_ANSWER_NUMBERS * i);
        for (size_t k = i; k < i + at_once; k++) {
            at += lengths[k];
        }
    }
    start = now() - start;
    free(lengths);
    free(answers);
    free(joined);
    give_back(&l);
    return start;
}

static double shot_round(const struct recording *r)
{
    return shots_round(r, r->count - HEADERS);
}

static double single_round(const struct recording *r)
{
    return shots_round(r, 1);
}

/* Decodes the whole recording by one frame call for each packet. */
static double frame_round(const struct recording *r)
{
    struct lent l = lend(r);
    struct wedgepetal_work work = wedgepetal_work_in(l.memory, l.lengths);
    uint64_t answer[WEDGEPETAL_ANSWER_NUMBERS];
    int golden = 0, previous = 1;
    double start = now();
    for (size_t i = HEADERS; i < r->count; i++) {
        int new = 0;
        while (new == golden || new == previous) {
            new++;
        }
        if (wedgepetal_frame_in(&work, l.session, r->packets[i], r->lengths[i], l.table, l.planes[golden],
                                l.planes[previous], l.planes[new], l.sizes[WEDGEPETAL_BUFFER], answer) == 0) {
            previous = new;
            golden = answer[WEDGEPETAL_KIND] == WEDGEPETAL_INTRA ? new : golden;
        }
    }
    start = now() - start;
    give_back(&l);
    return start;
}

/* What every frame call pays before its first block, by itself: the exact test of table memory, and the clearing of work memory. */
struct shares {
    double table, clearing;
};

static struct shares call_shares(const struct recording *r)
{
    struct lent l = lend(r);
    struct shares best = {1e9, 1e9};
    double began = now();
    for (int round = 0; round < LEAST_ROUNDS || now() - began < ENOUGH_SECONDS; round++) {
        double start = now(), middle;
        if (wedgepetal_table(l.table, WEDGEPETAL_TABLE_BYTES) != 0) {
            fail("table memory is refused");
        }
        middle = now();
        memset(l.memory, 0, l.lengths[WEDGEPETAL_WORK_BYTES]);
        /* the compiler must not take the clearing for useless */
        __asm__ volatile("" : : "r"(l.memory) : "memory");
        best.clearing = now() - middle < best.clearing ? now() - middle : best.clearing;
        best.table = middle - start < best.table ? middle - start : best.table;
    }
    give_back(&l);
    return best;
}

/* ---- libtheora */

static double theora_round(const struct recording *r)
{
    th_info info;
    th_comment comment;
    th_setup_info *setup = NULL;
    th_dec_ctx *decoder;
    th_ycbcr_buffer planes;
    double start;
    th_info_init(&info);
    th_comment_init(&comment);
    for (size_t i = 0; i < HEADERS; i++) {
        ogg_packet p = {.packet = r->packets[i], .bytes = (long)r->lengths[i], .b_o_s = i == 0, .packetno = (long)i};
        if (th_decode_headerin(&info, &comment, &setup, &p) <= 0) {
            fail("libtheora refuses a header");
        }
    }
    decoder = th_decode_alloc(&info, setup);
    start = now();
    for (size_t i = HEADERS; i < r->count; i++) {
        ogg_packet p = {.packet = r->packets[i], .bytes = (long)r->lengths[i], .packetno = (long)i, .granulepos = -1};
        if (th_decode_packetin(decoder, &p, NULL) >= 0) {
            th_decode_ycbcr_out(decoder, planes);
        }
    }
    start = now() - start;
    th_decode_free(decoder);
    th_setup_free(setup);
    th_comment_clear(&comment);
    th_info_clear(&info);
    return start;
}

/* ---- FFmpeg: the three headers, each behind its length in two bytes, are its extradata. It is given no empty packet: to it that is the end. */

static double ffmpeg_round(const struct recording *r)
{
    AVCodecContext *c = avcodec_alloc_context3(avcodec_find_decoder(AV_CODEC_ID_THEORA));
    AVPacket *packet = av_packet_alloc();
    AVFrame *frame = av_frame_alloc();
    size_t size = 0, at = 0;
    double start;
    for (size_t i = 0; i < HEADERS; i++) {
        size += 2 + r->lengths[i];
    }
    c->extradata = av_mallocz(size + AV_INPUT_BUFFER_PADDING_SIZE);
    c->extradata_size = (int)size;
    for (size_t i = 0; i < HEADERS; i++) {
        c->extradata[at++] = (uint8_t)(r->lengths[i] >> 8);
        c->extradata[at++] = (uint8_t)r->lengths[i];
        memcpy(c->extradata + at, r->packets[i], r->lengths[i]);
        at += r->lengths[i];
    }
    c->thread_count = 1;
    if (avcodec_open2(c, c->codec, NULL) < 0) {
        start = -1; /* it refuses some setups */
    } else {
        start = now();
        for (size_t i = HEADERS; i < r->count; i++) {
            if (r->lengths[i] > 0) {
                packet->data = r->packets[i];
                packet->size = (int)r->lengths[i];
                avcodec_send_packet(c, packet);
                while (avcodec_receive_frame(c, frame) == 0) {
                    av_frame_unref(frame);
                }
            }
        }
        start = now() - start;
    }
    av_frame_free(&frame);
    packet->data = NULL;
    packet->size = 0;
    av_packet_free(&packet);
    avcodec_free_context(&c);
    return start;
}

/* ---- side by side */

enum { SHOT, SINGLE, FRAME, THEORA, FFMPEG, WAYS };
static double (*const rounds[WAYS])(const struct recording *) = {shot_round, single_round, frame_round, theora_round, ffmpeg_round};

static int by_size(const void *a, const void *b)
{
    double x = *(const double *)a, y = *(const double *)b;
    return (x > y) - (x < y);
}

static void ratio(double ours, double other)
{
    if (other < 0) {
        printf(" - |");
    } else {
        printf(" %.2f |", ours / other);
    }
}

/* The fastest of several rounds of one way, one after the other. */
static double fastest(int way, const struct recording *r)
{
    double best = rounds[way](r), began = now();
    for (int round = 1; round < LEAST_ROUNDS || now() - began < ENOUGH_SECONDS; round++) {
        double time = rounds[way](r);
        best = time < best ? time : best;
    }
    return best;
}

/* The times of all ways, in passes or in turns, and how many there are. */
static int measure(const struct recording *r, int turns, double times[WAYS][MOST_TURNS])
{
    double began = now();
    int count = 0;
    while (turns ? count < LEAST_TURNS || (count < MOST_TURNS && now() - began < ENOUGH_FOR_TURNS) : count < PASSES) {
        for (int k = 0; k < WAYS; k++) {
            times[k][count] = turns ? rounds[k](r) : fastest(k, r);
        }
        count++;
    }
    return count;
}

static void compare(const char *path, int turns)
{
    static double times[WAYS][MOST_TURNS];
    struct recording r = read_recording(path);
    double median[WAYS], frames = (double)(r.count - HEADERS);
    struct shares shares = call_shares(&r);
    const unsigned char *id = r.packets[0];
    int count = measure(&r, turns, times);
    printf("| %s | %d × %d | %.0f |", base_name(path), id[10] << 8 | id[11], id[12] << 8 | id[13], frames);
    for (int k = 0; k < WAYS; k++) {
        qsort(times[k], (size_t)count, sizeof times[k][0], by_size);
        median[k] = times[k][count / 2];
        printf(median[k] < 0 ? " - |" : " %.1f |", median[k] / frames * 1e6);
    }
    ratio(median[SHOT], median[FRAME]);
    ratio(median[SHOT], median[THEORA]);
    ratio(median[SHOT], median[FFMPEG]);
    ratio(median[FRAME], median[THEORA]);
    ratio(median[FRAME], median[FFMPEG]);
    printf(" %.0f | %.0f |\n", 100 * shares.table * frames / median[FRAME], 100 * shares.clearing * frames / median[FRAME]);
    fflush(stdout);
    forget(&r);
}

int main(int count, char **words)
{
    av_log_set_level(AV_LOG_QUIET);
    printf("| recording | macro blocks | frames | shot, µs a frame | a packet a shot | frame calls | libtheora | FFmpeg | shot / frame calls "
           "| shot / libtheora | shot / FFmpeg | frame calls / libtheora | frame calls / FFmpeg | table test, %% of frame calls | clearing, %% |\n");
    printf("|---|---|---|---|---|---|---|---|---|---|---|---|---|---|---|\n");
    int turns = count > 1 && strcmp(words[1], "--turns") == 0;
    for (int k = 1 + turns; k < count; k++) {
        compare(words[k], turns);
    }
    return 0;
}
