/*
 * How much stack the calls need. Each call runs on a painted stack of its own, and the paint that
 * is gone afterwards says how deep it went. The streams are those of crates/play/data: a packet's
 * length in 4 bytes, the least significant first, and its bytes. At last come the deepest trees.
 * A check reads both headers and then decodes, in one frame: it may take more than the others.
 */
#define _XOPEN_SOURCE 600
#include <stdio.h>
#include <stdlib.h>
#include <string.h>
#include <ucontext.h>

#include "wedgepetal.h"

enum { STACK = 256 * 1024, MOST = 48 * 1024, CHECK_MOST = 64 * 1024, PAINT = 0xA5, LONGEST = 1 << 20, PACKETS = 64 };

/* What the calls are given. */
static uint8_t bytes[LONGEST], table[WEDGEPETAL_TABLE_BYTES];
static const uint8_t *packet;
static size_t packet_length;
static uint64_t session[WEDGEPETAL_SESSION_NUMBERS], number[1], matrix[WEDGEPETAL_MATRIX_NUMBERS];
static uint64_t answer[WEDGEPETAL_ANSWER_NUMBERS];
static uint64_t shot_session[WEDGEPETAL_SESSION_NUMBERS], shot_names[WEDGEPETAL_NAME_NUMBERS];
static uint64_t film[WEDGEPETAL_FILM_NUMBERS], settings[WEDGEPETAL_SETTINGS_NUMBERS] = {32, 0, 999999, 2};
static uint8_t *golden, *previous, *new_frame, *picture, *stream, *shot_planes;
static size_t buffer, picture_length;
static struct wedgepetal_work work;
static uint32_t answered;

/* A whole recording: its packets joined together, where those of frames begin, and what is lent beside. */
static uint8_t joined[LONGEST], scratch[WEDGEPETAL_TABLE_BYTES], maps[LONGEST];
static uint64_t lengths_of[PACKETS], answers[WEDGEPETAL_ANSWER_NUMBERS * PACKETS], report[WEDGEPETAL_REPORT_NUMBERS];
static size_t packets, joined_length;

static void identification(void)
{
    answered = wedgepetal_identification(packet, packet_length, session, WEDGEPETAL_SESSION_NUMBERS,
                                         number, 1);
}

static void setup(void)
{
    answered = wedgepetal_setup(packet, packet_length, table, sizeof table, number, 1);
}

static void test_table(void)
{
    answered = wedgepetal_table(table, sizeof table);
}

static void loop_limit(void)
{
    answered = wedgepetal_loop_limit(table, sizeof table, 63, number, 1);
}

static void one_matrix(void)
{
    answered = wedgepetal_matrix(table, sizeof table, 1, 2, 63, matrix, WEDGEPETAL_MATRIX_NUMBERS);
}

static void frame(void)
{
    answered = wedgepetal_frame_in(&work, session, packet, packet_length, table, golden, previous,
                                   new_frame, buffer, answer);
}

/* A shot of this packet, which goes on with its own session and buffers. */
static void shot(void)
{
    const uint64_t *n = work.lengths, length[1] = {packet_length};
    answered = wedgepetal_shot(
        shot_session, WEDGEPETAL_SESSION_NUMBERS, shot_names, WEDGEPETAL_NAME_NUMBERS, length, 1,
        packet, packet_length, table, sizeof table, work.records, n[WEDGEPETAL_RECORDS], work.coded,
        n[WEDGEPETAL_CODED], work.coefs, n[WEDGEPETAL_COEFS], work.dc, n[WEDGEPETAL_DC], work.lasts,
        n[WEDGEPETAL_LASTS], work.flags, n[WEDGEPETAL_FLAGS], work.bits, n[WEDGEPETAL_BITS],
        work.supers, n[WEDGEPETAL_SUPERS], work.modes, n[WEDGEPETAL_MODES], work.active,
        n[WEDGEPETAL_ACTIVE], shot_planes, buffer, shot_planes + buffer, buffer,
        shot_planes + 2 * buffer, buffer, answer, WEDGEPETAL_ANSWER_NUMBERS);
}

/* The picture of the new frame, as one of colour space 1. */
static void rgb(void)
{
    uint64_t space = session[WEDGEPETAL_CS];
    session[WEDGEPETAL_CS] = 1;
    answered = wedgepetal_rgb(session, WEDGEPETAL_SESSION_NUMBERS, new_frame, buffer, picture,
                              picture_length, number, 1);
    session[WEDGEPETAL_CS] = space;
}

/* The new frame as a stream, whole and in pieces; a stream read into the picture's bytes; settings. */
static void y4m_write(void)
{
    answered = wedgepetal_y4m_write(session, WEDGEPETAL_SESSION_NUMBERS, new_frame, buffer, stream,
                                    buffer + 6 + WEDGEPETAL_Y4M_HEADER_BYTES, number, 1);
}

static void y4m_frame(void)
{
    answered = wedgepetal_y4m_frame(session, WEDGEPETAL_SESSION_NUMBERS, new_frame, buffer, stream,
                                    buffer + 6, number, 1);
}

static void y4m_header(void)
{
    answered = wedgepetal_y4m_header(session, WEDGEPETAL_SESSION_NUMBERS, stream,
                                     WEDGEPETAL_Y4M_HEADER_BYTES, number, 1);
}

static void y4m_read(void)
{
    answered = wedgepetal_y4m_read(stream, number[0], picture, picture_length, film,
                                   WEDGEPETAL_FILM_NUMBERS);
}

static void settings_write(void)
{
    answered = wedgepetal_settings_write(2, settings, WEDGEPETAL_SETTINGS_NUMBERS, stream,
                                         WEDGEPETAL_SETTINGS_BYTES, number, 1);
}

static void settings_read(void)
{
    answered = wedgepetal_settings_read(2, stream, number[0], settings, WEDGEPETAL_SETTINGS_NUMBERS);
}

static size_t front(void)
{
    return lengths_of[0] + lengths_of[1] + lengths_of[2];
}

static void tiles_shot(void)
{
    uint64_t fresh[WEDGEPETAL_SESSION_NUMBERS], names[2], map[1];
    static const uint64_t side_8[WEDGEPETAL_SETTINGS_NUMBERS] = {8, 0, 0, 0};
    memcpy(fresh, session, sizeof fresh);
    fresh[WEDGEPETAL_REFERENCES] = fresh[WEDGEPETAL_KEY_FRAMES] = fresh[WEDGEPETAL_OTHERS] = 0;
    wedgepetal_tiles_length(side_8, WEDGEPETAL_SETTINGS_NUMBERS, fresh, WEDGEPETAL_SESSION_NUMBERS, map, 1);
    answered = wedgepetal_tiles_shot_in(&work, side_8, fresh, names, lengths_of + 3, packets - 3, joined + front(),
                                        joined_length - front(), table, shot_planes, buffer, answers, maps, map[0]);
}

/* A stream cut short: it differs, and all packets are applied. */
static void check(void)
{
    uint64_t found[WEDGEPETAL_FOUND_NUMBERS];
    wedgepetal_check_in(&work, joined, lengths_of[0], joined + lengths_of[0] + lengths_of[1], lengths_of[2], lengths_of + 3,
                        packets - 3, joined + front(), joined_length - front(), stream, 1, scratch, shot_planes, buffer, answers,
                        found);
    answered = 0;
}

static void census(void)
{
    answered = wedgepetal_census_in(&work, lengths_of, packets, joined, joined_length, report, scratch, shot_planes, buffer);
}

static struct {
    const char *name;
    void (*run)(void);
    size_t most;
} calls[] = {
    {"identification", identification, 0}, {"setup", setup, 0},           {"table", test_table, 0},
    {"loop_limit", loop_limit, 0},         {"matrix", one_matrix, 0},     {"shot", shot, 0},
    {"frame", frame, 0},                   {"rgb", rgb, 0},               {"y4m_frame", y4m_frame, 0},
    {"y4m_header", y4m_header, 0},         {"y4m_write", y4m_write, 0},   {"y4m_read", y4m_read, 0},
    {"settings_write", settings_write, 0}, {"settings_read", settings_read, 0}, {"tiles_shot", tiles_shot, 0},
    {"check", check, 0},                   {"census", census, 0},
};

enum {
    IDENTIFICATION, SETUP, TABLE, LOOP_LIMIT, MATRIX, SHOT, FRAME, RGB, Y4M_FRAME, Y4M_HEADER,
    Y4M_WRITE, Y4M_READ, SETTINGS_WRITE, SETTINGS_READ, TILES_SHOT, CHECK, CENSUS, CALLS
};

/* ---- the painted stack */

static unsigned char stack[STACK];
static ucontext_t here, there;
static void (*running)(void);

static void enter(void)
{
    running();
}

static void nothing(void)
{
}

static size_t depth_of(void (*run)(void))
{
    size_t clean = 0;
    memset(stack, PAINT, STACK);
    running = run;
    getcontext(&there);
    there.uc_stack.ss_sp = stack;
    there.uc_stack.ss_size = STACK;
    there.uc_link = &here;
    makecontext(&there, enter, 0);
    swapcontext(&here, &there);
    while (clean < STACK && stack[clean] == PAINT) {
        clean++;
    }
    return STACK - clean;
}

static void call(int which)
{
    size_t depth = depth_of(calls[which].run) - depth_of(nothing);
    if (depth > calls[which].most) {
        calls[which].most = depth;
    }
}

static void accepted(int which)
{
    call(which);
    if (answered != 0) {
        fprintf(stderr, "%s: refused by %u\n", calls[which].name, (unsigned)answered);
        exit(1);
    }
}

/* ---- streams */

static void ask_table(void)
{
    accepted(TABLE);
    accepted(LOOP_LIMIT);
    accepted(MATRIX);
}

static void begin_frames(void)
{
    uint64_t sizes[WEDGEPETAL_SIZE_NUMBERS], lengths[WEDGEPETAL_LENGTH_NUMBERS];
    wedgepetal_sizes(session, WEDGEPETAL_SESSION_NUMBERS, sizes, WEDGEPETAL_SIZE_NUMBERS);
    wedgepetal_work_lengths(session, WEDGEPETAL_SESSION_NUMBERS, lengths, WEDGEPETAL_LENGTH_NUMBERS);
    buffer = sizes[WEDGEPETAL_BUFFER];
    golden = calloc(3, buffer);
    shot_planes = calloc(3, buffer);
    memcpy(shot_session, session, sizeof session);
    work = wedgepetal_work_in(malloc(lengths[WEDGEPETAL_WORK_BYTES]), lengths);
    picture_length = 768 * sizes[WEDGEPETAL_NMBS];
    picture = malloc(picture_length);
    stream = malloc(buffer + 6 + WEDGEPETAL_Y4M_HEADER_BYTES);
    if (golden == NULL || shot_planes == NULL || work.coded == NULL || picture == NULL || stream == NULL) {
        abort();
    }
    previous = golden + buffer;
    new_frame = previous + buffer;
}

static void next_frame(void)
{
    int which;
    accepted(SHOT);
    call(FRAME);
    if (answered == 0) {
        memcpy(previous, new_frame, buffer);
        if (answer[WEDGEPETAL_KIND] == WEDGEPETAL_INTRA) {
            memcpy(golden, new_frame, buffer);
        }
        for (which = RGB; which < TILES_SHOT; which++) {
            accepted(which);
        }
    }
}

/* Plays a stream; one whose headers are refused is left out. */
static void play(const char *name)
{
    size_t length, at = 0, count = 0, which;
    FILE *file = fopen(name, "rb");
    if (file == NULL) {
        perror(name);
        exit(2);
    }
    length = fread(bytes, 1, LONGEST, file);
    fclose(file);
    joined_length = 0;
    for (; at + 4 <= length && count < PACKETS; at += 4 + packet_length, count++) {
        packet = bytes + at + 4;
        packet_length = bytes[at] + 256u * bytes[at + 1] + 65536u * bytes[at + 2];
        memcpy(joined + joined_length, packet, packet_length);
        lengths_of[count] = packet_length;
        joined_length += packet_length;
        if (count == 0 || count == 2) {
            call(count == 0 ? IDENTIFICATION : SETUP);
            if (answered != 0) {
                return;
            }
        }
        if (count == 2) {
            ask_table();
            begin_frames();
        }
        if (count > 2) {
            next_frame();
        }
    }
    packets = count;
    for (which = TILES_SHOT; which < CALLS && packets > 3; which++) {
        accepted((int)which);
    }
}

/* ---- the deepest trees: 32 leaves, each but the last on a branch of the one before */

static size_t bits;

static void put(unsigned value, unsigned width)
{
    while (width-- > 0) {
        bytes[bits / 8] |= (uint8_t)((value >> width & 1) << (7 - bits % 8));
        bits++;
    }
}

static void deepest_trees(void)
{
    int i, k;
    memset(bytes, 0, LONGEST);
    bits = 0;
    put(0x82, 8);
    for (i = 0; i < 6; i++) {
        put((unsigned)"theora"[i], 8);
    }
    put(0, 3); /* loop limits of no bits */
    for (i = 0; i < 2; i++) {
        put(0, 4); /* 64 scales of one bit */
        for (k = 0; k < 64; k++) {
            put(1, 1);
        }
    }
    put(0, 9); /* one base matrix */
    for (i = 0; i < 64; i++) {
        put(255, 8);
    }
    put(62, 6); /* one range of 63, and the same for the five other sets */
    put(0, 8);
    for (i = 0; i < 80; i++) {
        put(0, 31); /* 31 branches, and then the leaves from the deepest on */
        for (k = 0; k < 32; k++) {
            put(1, 1);
            put((unsigned)k, 5);
        }
    }
    packet = bytes;
    packet_length = (bits + 7) / 8;
    accepted(SETUP);
    ask_table();
    accepted(SHOT);
    call(FRAME);
}

int main(int argc, char **argv)
{
    int i, failed = 0;
    for (i = 1; i < argc; i++) {
        play(argv[i]);
    }
    deepest_trees();
    for (i = 0; i < CALLS; i++) {
        printf("%s: %lu bytes of stack\n", calls[i].name, (unsigned long)calls[i].most);
        failed |= calls[i].most > (i == CHECK ? CHECK_MOST : MOST);
    }
    return failed;
}
