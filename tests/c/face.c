/* The C header and the static library together: reads headers, asks for sizes,
 * limits and matrices, decodes frames. */
#include "wedgepetal.h"

#include <stdio.h>
#include <stdlib.h>
#include <string.h>

/* 320 by 240 samples in 4:2:0. */
static const uint8_t packet[42] = {
    0x80, 't', 'h', 'e', 'o', 'r', 'a', 3, 2, 1, /* version 3.2.1 */
    0, 20, 0, 15,                                /* macro blocks */
    0, 1, 64, 0, 0, 240, 0, 0,                   /* picture */
    0, 0, 0, 25, 0, 0, 0, 1,                     /* frame rate */
    0, 0, 1, 0, 0, 1, 1, 0, 0, 0,                /* aspect, colour space, bit rate */
    0xC0, 0xC0                                   /* quality 48, shift 6, format 0 */
};

/* Bits that are written one after the other. The setup header has 152 bytes,
 * the last of them with 6 bits to spare. */
struct bits {
    uint8_t bytes[152];
    size_t count;
};

static struct bits setup;
static uint8_t table[WEDGEPETAL_TABLE_BYTES];

static int failures = 0;

static void expect(const char *what, uint64_t got, uint64_t wanted)
{
    if (got != wanted) {
        printf("%s: %llu, wanted %llu\n", what, (unsigned long long)got,
               (unsigned long long)wanted);
        failures++;
    }
}

static void put(struct bits *to, unsigned value, int width)
{
    while (width-- > 0) {
        if (value >> width & 1) {
            to->bytes[to->count / 8] |= (uint8_t)(0x80 >> to->count % 8);
        }
        to->count++;
    }
}

/* All limits 0, all scales 1, one matrix of the value 255, one range. Every
 * tree is a lone leaf: at position 0 the token of the choice's number, later
 * token 0, which ends a block. */
static void make_setup(void)
{
    const char *common = "\x82theora";
    int i;
    for (i = 0; i < 7; i++) {
        put(&setup, (unsigned char)common[i], 8);
    }
    put(&setup, 0, 3);
    for (i = 0; i < 2; i++) {
        put(&setup, 0, 4);
        put(&setup, 0xFFFFFFFFu, 32);
        put(&setup, 0xFFFFFFFFu, 32);
    }
    put(&setup, 0, 9);
    for (i = 0; i < 64; i++) {
        put(&setup, 255, 8);
    }
    put(&setup, 62, 6);
    put(&setup, 0, 8);
    for (i = 0; i < 80; i++) {
        put(&setup, 32 + (i < 16 ? (unsigned)i : 0), 6);
    }
}

static void try_table(void)
{
    uint64_t limit[1] = {9}, place[1] = {9}, matrix[WEDGEPETAL_MATRIX_NUMBERS] = {0};
    const size_t t = WEDGEPETAL_TABLE_BYTES, m = WEDGEPETAL_MATRIX_NUMBERS;

    make_setup();
    expect("setup bits", setup.count, 1210);
    expect("no table yet", wedgepetal_table(table, t), WEDGEPETAL_NOT_GENUINE);
    expect("setup", wedgepetal_setup(setup.bytes, sizeof setup.bytes, table, t, place, 1), 0);
    expect("no place", place[0], 0);
    expect("type byte", table[0], 0x82);
    expect("table", wedgepetal_table(table, t), 0);
    expect("short table", wedgepetal_table(table, t - 1), WEDGEPETAL_WRONG_LENGTH);
    expect("loop_limit", wedgepetal_loop_limit(table, t, 63, limit, 1), 0);
    expect("limit", limit[0], 0);
    expect("qi 64", wedgepetal_loop_limit(table, t, 64, limit, 1), WEDGEPETAL_ABSENT);
    expect("matrix", wedgepetal_matrix(table, t, 1, 2, 63, matrix, m), 0);
    expect("inter DC", matrix[0], 32);
    expect("inter AC", matrix[63], 16);
    expect("type 2", wedgepetal_matrix(table, t, 2, 0, 0, matrix, m), WEDGEPETAL_ABSENT);
    table[t - 1] = 1;
    expect("a bit behind", wedgepetal_table(table, t), WEDGEPETAL_NOT_GENUINE);
    expect("no list for the place", wedgepetal_setup(setup.bytes, 151, table, t, place, 0),
           WEDGEPETAL_WRONG_LENGTH);
    expect("kept", table[0], 0x82);
    expect("cut", wedgepetal_setup(setup.bytes, 151, table, t, place, 1), WEDGEPETAL_PACKET_ENDS);
    expect("in the last tree's token", place[0], 1205);
    expect("cleared", table[0] + table[t - 1], 0);
    expect("short table", wedgepetal_setup(setup.bytes, 151, table, t - 1, place, 1),
           WEDGEPETAL_WRONG_LENGTH);
    expect("no place", place[0], 0);
}

/* Frames of one macro block in 4:2:0: 6 blocks, 3 super blocks. */
enum { BUFFER = 384, WORK = 153 * 6 + 2 * 3 + 1, EDGE = 64, PATTERN = 0xA5 };

/* Work memory and buffers, with a pattern around each. */
struct lent {
    uint8_t *work, *golden, *previous, *new_frame;
};

static uint8_t *lend(size_t length)
{
    uint8_t *bytes = malloc(length + 2 * EDGE);
    if (bytes == NULL) {
        abort();
    }
    memset(bytes, PATTERN, length + 2 * EDGE);
    return bytes + EDGE;
}

static void take_back(const char *what, uint8_t *bytes, size_t length)
{
    size_t i, changed = 0;
    for (i = 0; i < EDGE; i++) {
        changed += bytes[-1 - (long)i] != PATTERN;
        changed += bytes[length + i] != PATTERN;
    }
    expect(what, changed, 0);
    free(bytes - EDGE);
}

/* How many bytes are this one. */
static size_t count(const uint8_t *bytes, size_t length, uint8_t byte)
{
    size_t i, found = 0;
    for (i = 0; i < length; i++) {
        found += bytes[i] == byte;
    }
    return found;
}

/* An intra frame of qi 3: DC 1 in each luma block, -1 in each of chroma, before
 * prediction. */
static struct bits intra_frame(void)
{
    struct bits b = {{0}, 0};
    put(&b, 0, 2);
    put(&b, 3, 6);
    put(&b, 0, 4);
    put(&b, 0x9A00, 16);
    return b;
}

/* An inter frame of qi 3 without a coded block: two run strings of three
 * zeros, modes as they are, vectors of five bits, four table choices. */
static struct bits inter_frame(void)
{
    struct bits b = {{0}, 0};
    put(&b, 1, 2);
    put(&b, 3, 6);
    put(&b, 0, 1);
    put(&b, 5, 4);
    put(&b, 5, 4);
    put(&b, 15, 4);
    put(&b, 0, 16);
    return b;
}

static uint32_t call(struct lent *m, const uint64_t *lengths, uint64_t *session,
                     const struct bits *packet, size_t packet_length, uint64_t *answer)
{
    struct wedgepetal_work work = wedgepetal_work_in(m->work, lengths);
    memset(m->work, PATTERN, WORK);
    memset(m->new_frame, PATTERN, BUFFER);
    return wedgepetal_frame_in(&work, session, packet->bytes, packet_length, table, m->golden,
                               m->previous, m->new_frame, BUFFER, answer);
}

/* A call that is refused: its number, and an answer of this number and place
 * and zeros. */
static void refused(const char *what, uint32_t got, uint64_t *answer, uint32_t number,
                    uint64_t place)
{
    int i;
    expect(what, got, number);
    expect(what, answer[WEDGEPETAL_NUMBER], number);
    expect(what, answer[WEDGEPETAL_PLACE], place);
    for (i = WEDGEPETAL_PLACE + 1; i < WEDGEPETAL_ANSWER_NUMBERS; i++) {
        expect(what, answer[i], 0);
        answer[i] = 7;
    }
}

/* Refusals leave session and the new frame as they were; work memory is zero
 * once its lengths are right. */
static void try_refusals(struct lent *m, const uint64_t *lengths, uint64_t *session)
{
    struct bits intra = intra_frame(), inter = inter_frame(), other = {{0x80}, 8};
    uint64_t answer[WEDGEPETAL_ANSWER_NUMBERS] = {7, 7, 7, 7, 7, 7, 7, 7};
    uint64_t before[WEDGEPETAL_SESSION_NUMBERS], wrong[WEDGEPETAL_LENGTH_NUMBERS];
    struct wedgepetal_work work = wedgepetal_work_in(m->work, lengths);
    int i;

    memcpy(before, session, sizeof before);
    refused("no references", call(m, lengths, session, &inter, 5, answer), answer,
            WEDGEPETAL_NO_REFERENCES, 1);
    refused("empty", call(m, lengths, session, &inter, 0, answer), answer,
            WEDGEPETAL_NO_REFERENCES, 0);
    refused("a header", call(m, lengths, session, &other, 1, answer), answer,
            WEDGEPETAL_NO_FRAME, 0);
    refused("cut", call(m, lengths, session, &intra, 3, answer), answer, WEDGEPETAL_PACKET_ENDS, 24);
    expect("work is clear", count(m->work, WORK, 0), WORK);
    expect("new is kept", count(m->new_frame, BUFFER, PATTERN), BUFFER);
    intra.bytes[1] |= 0x10;
    refused("reserved", call(m, lengths, session, &intra, 4, answer), answer,
            WEDGEPETAL_RESERVED_BITS, 9);
    table[0] ^= 1;
    refused("table", call(m, lengths, session, &intra, 4, answer), answer, WEDGEPETAL_NOT_GENUINE, 0);
    expect("work is clear", count(m->work, WORK, 0), WORK);
    table[0] ^= 1;
    for (i = 0; i < WEDGEPETAL_WORK_BYTES; i++) {
        memcpy(wrong, lengths, sizeof wrong);
        wrong[i]--;
        refused("length", call(m, wrong, session, &intra, 4, answer), answer, WEDGEPETAL_WRONG_LENGTH, 0);
    }
    expect("work is kept", count(m->work, WORK, PATTERN), WORK);
    refused("buffer",
            wedgepetal_frame_in(&work, session, intra.bytes, 4, table, m->golden, m->previous,
                                m->new_frame, BUFFER - 1, answer),
            answer, WEDGEPETAL_WRONG_LENGTH, 0);
    session[WEDGEPETAL_PF] = 1;
    refused("session", call(m, lengths, session, &intra, 4, answer), answer, WEDGEPETAL_NOT_GENUINE, 0);
    expect("work is kept", count(m->work, WORK, PATTERN), WORK);
    session[WEDGEPETAL_PF] = 0;
    expect("session is kept", (uint64_t)memcmp(session, before, sizeof before), 0);
    expect("new is kept", count(m->new_frame, BUFFER, PATTERN), BUFFER);
}

/* An intra frame; then it is golden and previous of an inter frame and a repeat. */
static void try_accepted(struct lent *m, const uint64_t *lengths, uint64_t *session)
{
    struct bits intra = intra_frame(), inter = inter_frame();
    uint64_t answer[WEDGEPETAL_ANSWER_NUMBERS] = {7, 7, 7, 7, 7, 7, 7, 7};
    uint8_t *luma = m->new_frame;

    expect("intra", call(m, lengths, session, &intra, 4, answer), 0);
    expect("number and place", answer[WEDGEPETAL_NUMBER] + answer[WEDGEPETAL_PLACE], 0);
    expect("kind", answer[WEDGEPETAL_KIND], WEDGEPETAL_INTRA);
    expect("how many qi", answer[WEDGEPETAL_QI_COUNT], 1);
    expect("qi", answer[WEDGEPETAL_QIS], 3);
    expect("no qi", answer[WEDGEPETAL_QIS + 1] + answer[WEDGEPETAL_QIS + 2], 0);
    expect("a DC and an end for each block", answer[WEDGEPETAL_TOKENS], 12);
    expect("references", session[WEDGEPETAL_REFERENCES], 1);
    expect("a key frame", session[WEDGEPETAL_KEY_FRAMES], 1);
    expect("work is clear", count(m->work, WORK, 0), WORK);
    /* DC 1, 2, 2, 3 and -1, times 16: residuals 0, 1, 1, 1 and -1. */
    expect("lower left", luma[0] + luma[7] + luma[7 * 16 + 7], 3 * 128);
    expect("others", count(luma, 256, 129), 192);
    expect("chroma", count(luma + 256, 128, 127), 128);

    memcpy(m->previous, m->new_frame, BUFFER);
    session[WEDGEPETAL_REFERENCES] = 9;
    expect("inter", call(m, lengths, session, &inter, 5, answer), 0);
    expect("kind", answer[WEDGEPETAL_KIND], WEDGEPETAL_INTER);
    expect("no tokens", answer[WEDGEPETAL_TOKENS], 0);
    expect("previous", (uint64_t)memcmp(m->previous, m->new_frame, BUFFER), 0);
    expect("repeat", call(m, lengths, session, &inter, 0, answer), 0);
    expect("kind", answer[WEDGEPETAL_KIND], WEDGEPETAL_REPEAT);
    expect("no qi", answer[WEDGEPETAL_QI_COUNT] + answer[WEDGEPETAL_QIS], 0);
    expect("no tokens", answer[WEDGEPETAL_TOKENS], 0);
    expect("previous", (uint64_t)memcmp(m->previous, m->new_frame, BUFFER), 0);
    expect("references as they were", session[WEDGEPETAL_REFERENCES], 9);
    expect("two others", session[WEDGEPETAL_OTHERS], 2);
    session[WEDGEPETAL_OTHERS] = 63;
    refused("one too many", call(m, lengths, session, &inter, 0, answer), answer,
            WEDGEPETAL_UNCOUNTED, 0);
    refused("a cut comes first", call(m, lengths, session, &inter, 4, answer), answer,
            WEDGEPETAL_PACKET_ENDS, 29);
    expect("others as they were", session[WEDGEPETAL_OTHERS], 63);
    expect("work is clear", count(m->work, WORK, 0), WORK);
    session[WEDGEPETAL_KEY_FRAMES] = UINT64_MAX;
    refused("no more key frames", call(m, lengths, session, &intra, 4, answer), answer,
            WEDGEPETAL_UNCOUNTED, 0);
    session[WEDGEPETAL_OTHERS] = 64;
    refused("too many others", call(m, lengths, session, &intra, 4, answer), answer,
            WEDGEPETAL_NOT_GENUINE, 0);
    expect("new is kept", count(m->new_frame, BUFFER, PATTERN), BUFFER);
    expect("golden is only read", count(m->golden, BUFFER, PATTERN), BUFFER);
}

static void try_frames(uint64_t *session)
{
    uint64_t lengths[WEDGEPETAL_LENGTH_NUMBERS] = {0}, place[1] = {9};
    const size_t s = WEDGEPETAL_SESSION_NUMBERS;
    struct lent m;

    session[WEDGEPETAL_FMBW] = session[WEDGEPETAL_FMBH] = 1;
    session[WEDGEPETAL_PICW] = session[WEDGEPETAL_PICH] = 16;
    expect("short", wedgepetal_work_lengths(session, s, lengths, 10), WEDGEPETAL_WRONG_LENGTH);
    expect("work_lengths", wedgepetal_work_lengths(session, s, lengths, 11), 0);
    expect("coefs", lengths[WEDGEPETAL_COEFS], 384);
    expect("supers", lengths[WEDGEPETAL_SUPERS], 6);
    expect("modes", lengths[WEDGEPETAL_MODES], 1);
    expect("bytes", lengths[WEDGEPETAL_WORK_BYTES], WORK);
    expect("setup",
           wedgepetal_setup(setup.bytes, sizeof setup.bytes, table, sizeof table, place, 1), 0);
    m.work = lend(WORK);
    m.golden = lend(BUFFER);
    m.previous = lend(BUFFER);
    m.new_frame = lend(BUFFER);
    try_refusals(&m, lengths, session);
    try_accepted(&m, lengths, session);
    take_back("around work", m.work, WORK);
    take_back("around golden", m.golden, BUFFER);
    take_back("around previous", m.previous, BUFFER);
    take_back("around new", m.new_frame, BUFFER);
}

/* White above, black below, and the refusals in their order. */
static void try_rgb(void)
{
    uint64_t session[WEDGEPETAL_SESSION_NUMBERS] = {0, 1, 1, 16, 16, 0, 0, 25, 1, 0, 0, 0, 0, 0, 0, 0, 0, 0, 0};
    uint64_t written[1] = {0};
    uint8_t planes[384], out[800];
    const size_t s = WEDGEPETAL_SESSION_NUMBERS;

    memset(planes, 16, 240);
    memset(planes + 240, 235, 16);
    memset(planes + 256, 128, 128);
    memset(out, 7, sizeof out);
    expect("unknown space", wedgepetal_rgb(session, s, planes, 384, out, 767, written, 1),
           WEDGEPETAL_UNKNOWN_COLOUR);
    expect("short planes", wedgepetal_rgb(session, s, planes, 383, out, 767, written, 1),
           WEDGEPETAL_WRONG_LENGTH);
    session[WEDGEPETAL_CS] = 2;
    expect("short output", wedgepetal_rgb(session, s, planes, 384, out, 767, written, 1),
           WEDGEPETAL_SHORT_OUTPUT);
    expect("nothing written", out[0], 7);
    expect("rgb", wedgepetal_rgb(session, s, planes, 384, out, sizeof out, written, 1), 0);
    expect("bytes", written[0], 768);
    expect("white", out[0], 255);
    expect("the last of the top row", out[47], 255);
    expect("black", out[48], 0);
    expect("the last pixel", out[767], 0);
    expect("behind it", out[768], 7);
    session[WEDGEPETAL_FMBW] = 0;
    expect("no session", wedgepetal_rgb(session, s, planes, 384, out, sizeof out, written, 1),
           WEDGEPETAL_NOT_GENUINE);
}

/* A stream of two frames, whole and in pieces, and back. */
static void try_streams(void)
{
    static const char first_line[] = "YUV4MPEG2 W16 H16 F25:1 Ip A0:0 C420jpeg\n";
    uint64_t session[WEDGEPETAL_SESSION_NUMBERS] = {0, 1, 1, 16, 16, 0, 0, 25, 1, 0, 7, 0, 0, 0, 0, 0, 0, 0, 0};
    uint64_t written[1] = {0}, film[WEDGEPETAL_FILM_NUMBERS] = {0};
    uint8_t frames[768], out[900], pieces[900], back[800];
    const size_t s = WEDGEPETAL_SESSION_NUMBERS;
    size_t at;

    for (at = 0; at < sizeof frames; at++) {
        frames[at] = (uint8_t)(at * 5 / 3);
    }
    memset(out, 7, sizeof out);
    memset(back, 7, sizeof back);
    expect("no whole frames", wedgepetal_y4m_write(session, s, frames, 767, out, 0, written, 1),
           WEDGEPETAL_WRONG_LENGTH);
    expect("short output", wedgepetal_y4m_write(session, s, frames, 768, out, 820, written, 1),
           WEDGEPETAL_SHORT_OUTPUT);
    expect("nothing written", out[0] + written[0], 7);
    expect("y4m_write", wedgepetal_y4m_write(session, s, frames, 768, out, 821, written, 1), 0);
    expect("bytes", written[0], 41 + 2 * 390);
    expect("behind it", out[821], 7);
    expect("the first line", (uint64_t)memcmp(out, first_line, 41), 0);
    expect("the top row", (uint64_t)memcmp(out + 47, frames + 240, 16), 0);
    expect("y4m_header", wedgepetal_y4m_header(session, s, pieces, WEDGEPETAL_Y4M_HEADER_BYTES, written, 1), 0);
    at = written[0];
    expect("y4m_frame", wedgepetal_y4m_frame(session, s, frames, 384, pieces + at, 390, written, 1), 0);
    at += written[0];
    expect("another", wedgepetal_y4m_frame(session, s, frames + 384, 384, pieces + at, 390, written, 1), 0);
    expect("the pieces", (uint64_t)memcmp(out, pieces, 821), 0);
    expect("cut", wedgepetal_y4m_read(out, 820, back, 0, film, WEDGEPETAL_FILM_NUMBERS), WEDGEPETAL_OTHER_STREAM);
    expect("short planes", wedgepetal_y4m_read(out, 821, back, 767, film, WEDGEPETAL_FILM_NUMBERS),
           WEDGEPETAL_SHORT_OUTPUT);
    expect("short list", wedgepetal_y4m_read(out, 820, back, 0, film, 7), WEDGEPETAL_WRONG_LENGTH);
    expect("nothing read", back[0] + film[0], 7);
    expect("y4m_read", wedgepetal_y4m_read(out, 821, back, sizeof back, film, WEDGEPETAL_FILM_NUMBERS), 0);
    expect("width", film[WEDGEPETAL_FILM_WIDTH], 16);
    expect("PARD", film[WEDGEPETAL_FILM_PARD], 0);
    expect("frames", film[WEDGEPETAL_FILM_FRAMES], 2);
    expect("the planes", (uint64_t)memcmp(frames, back, 768), 0);
    expect("behind them", back[768], 7);
}

/* The paper's text there and back, and the refusals. */
static void try_settings(void)
{
    static const char text[] = "version=1\ntile=8\nshot_first=0\nshot_last=9\n";
    uint64_t settings[WEDGEPETAL_SETTINGS_NUMBERS] = {8, 0, 9, 1}, written[1] = {0};
    uint8_t out[WEDGEPETAL_SETTINGS_BYTES];
    const size_t n = WEDGEPETAL_SETTINGS_NUMBERS;

    expect("plane 1 as version 1", wedgepetal_settings_write(1, settings, n, out, 0, written, 1),
           WEDGEPETAL_BAD_SETTINGS);
    expect("as version 2", wedgepetal_settings_write(2, settings, n, out, sizeof out, written, 1), 0);
    expect("for version 1", wedgepetal_settings_read(1, out, written[0], settings, n),
           WEDGEPETAL_LATER_VERSION);
    expect("cut", wedgepetal_settings_read(2, out, written[0] - 1, settings, n), WEDGEPETAL_BAD_SETTINGS);
    expect("in use", settings[WEDGEPETAL_PLANE], 1);
    expect("settings_read", wedgepetal_settings_read(2, (const uint8_t *)text, sizeof text - 1, settings, n), 0);
    expect("as plane 0", settings[WEDGEPETAL_PLANE], 0);
    expect("short output", wedgepetal_settings_write(1, settings, n, out, sizeof text - 2, written, 1),
           WEDGEPETAL_SHORT_OUTPUT);
    expect("settings_write", wedgepetal_settings_write(1, settings, n, out, sizeof out, written, 1), 0);
    expect("its bytes", written[0], sizeof text - 1);
    expect("the text", (uint64_t)memcmp(out, text, sizeof text - 1), 0);
    expect("short list", wedgepetal_settings_read(2, out, 0, settings, n - 1), WEDGEPETAL_WRONG_LENGTH);
}

int main(void)
{
    uint64_t session[WEDGEPETAL_SESSION_NUMBERS] = {0};
    uint64_t sizes[WEDGEPETAL_SIZE_NUMBERS] = {0};
    uint64_t block[3] = {0}, place[2] = {0}, number[1] = {0};
    const size_t s = WEDGEPETAL_SESSION_NUMBERS;

    expect("identification", wedgepetal_identification(packet, 42, session, s, number, 1), 0);
    expect("no place", number[0], 0);
    expect("FMBW", session[WEDGEPETAL_FMBW], 20);
    expect("KFGSHIFT", session[WEDGEPETAL_KFGSHIFT], 6);
    expect("references", session[WEDGEPETAL_REFERENCES], 0);
    expect("nothing counted", session[WEDGEPETAL_KEY_FRAMES] + session[WEDGEPETAL_OTHERS], 0);
    expect("cut", wedgepetal_identification(packet, 41, session, s, number, 1),
           WEDGEPETAL_PACKET_ENDS);
    expect("in KFGSHIFT", number[0], 326);
    expect("short", wedgepetal_identification(packet, 41, session, s - 1, number, 1),
           WEDGEPETAL_WRONG_LENGTH);
    expect("two places", wedgepetal_identification(packet, 41, session, s, place, 2),
           WEDGEPETAL_WRONG_LENGTH);
    expect("kept", number[0] + place[0], 326);

    expect("sizes", wedgepetal_sizes(session, s, sizes, WEDGEPETAL_SIZE_NUMBERS), 0);
    expect("NBS", sizes[WEDGEPETAL_NBS], 1800);
    expect("Cr offset", sizes[WEDGEPETAL_PLANE_CR + 2], 96000);
    expect("short", wedgepetal_sizes(session, s, sizes, 15), WEDGEPETAL_WRONG_LENGTH);

    expect("block_at", wedgepetal_block_at(session, s, 10, block, 3), 0);
    expect("block x", block[1], 3);
    expect("block y", block[2], 3);
    expect("block_number", wedgepetal_block_number(session, s, 2, 0, 0, number, 1), 0);
    expect("first Cr block", number[0], 1500);
    expect("macro_block_at", wedgepetal_macro_block_at(session, s, 3, place, 2), 0);
    expect("macro block x", place[0], 1);
    expect("macro block y", place[1], 0);
    expect("macro_block_number", wedgepetal_macro_block_number(session, s, 1, 1, number, 1), 0);
    expect("macro block number", number[0], 2);
    expect("macro_block_of", wedgepetal_macro_block_of(session, s, 0, 5, 2, place, 2), 0);
    expect("its x", place[0], 2);
    expect("its y", place[1], 1);
    expect("sample_offset", wedgepetal_sample_offset(session, s, 1, 1, 0, 2, 1, number, 1), 0);
    expect("offset", number[0], 76800 + 160 + 8 + 2);
    expect("absent", wedgepetal_block_at(session, s, 1800, block, 3), WEDGEPETAL_ABSENT);

    session[WEDGEPETAL_PF] = 1;
    expect("bad session", wedgepetal_sizes(session, s, sizes, WEDGEPETAL_SIZE_NUMBERS),
           WEDGEPETAL_NOT_GENUINE);
    session[WEDGEPETAL_PF] = 0;
    try_table();
    try_frames(session);
    try_rgb();
    try_streams();
    try_settings();
    if (failures == 0) {
        puts("the C face answers as it should");
    }
    return failures != 0;
}
