/*
 * Times the frame call with a map of changed tiles beside the frame call alone.
 *
 *   tiles RECORDING.ogv..
 *
 * All packets are read into memory first; only the calls are timed, by the processor's time. Both go over the whole recording in turn, several
 * rounds, and the fastest round of each counts. One line for each recording and each side of a tile, of plane 0: microseconds per frame of the frame
 * call, what the map adds to it, as a share, and which share of the tiles changed. A map that a plain loop over the samples contradicts is an error.
 */
#define _POSIX_C_SOURCE 200809L
#include "common.h"
#include "wedgepetal.h"

enum { ROUNDS = 7 };

/* What one pass over a recording took, and how many of its tiles were 1. */
struct pass {
    double seconds;
    uint64_t tiles, ones;
};

/* Whether some sample of tile (x, y) differs, sample by sample. */
static int differs(const uint8_t *a, const uint8_t *b, size_t row, size_t rows, size_t side, size_t x, size_t y)
{
    for (size_t r = y * side; r < rows && r < (y + 1) * side; r++) {
        for (size_t c = x * side; c < row && c < (x + 1) * side; c++) {
            if (a[r * row + c] != b[r * row + c]) {
                return 1;
            }
        }
    }
    return 0;
}

static void look(const uint8_t *map, int first, const uint8_t *previous, const uint8_t *new, size_t row, size_t rows, size_t side, struct pass *p)
{
    size_t across = (row + side - 1) / side, up = (rows + side - 1) / side;
    for (size_t y = 0; y < up; y++) {
        for (size_t x = 0; x < across; x++) {
            if (map[y * across + x] != (first ? 1 : differs(previous, new, row, rows, side, x, y))) {
                fail("a map is wrong");
            }
            p->ones += map[y * across + x];
        }
    }
    p->tiles += across * up;
}

/* Decodes the whole recording, with a map if side is not 0; looks at each map if it is wanted. */
static struct pass go(const struct recording *r, uint64_t side, int looking)
{
    struct pass p = {0, 0, 0};
    uint64_t session[WEDGEPETAL_SESSION_NUMBERS], sizes[WEDGEPETAL_SIZE_NUMBERS], lengths[WEDGEPETAL_LENGTH_NUMBERS];
    uint64_t answer[WEDGEPETAL_ANSWER_NUMBERS], place[1], bytes[1] = {0}, settings[4] = {side, 0, 0, 0};
    uint8_t *table = memory(WEDGEPETAL_TABLE_BYTES), *planes[3], *map;
    int golden = 0, previous = 1;
    if (wedgepetal_identification(r->packets[0], r->lengths[0], session, WEDGEPETAL_SESSION_NUMBERS, place, 1) != 0 ||
        wedgepetal_setup(r->packets[2], r->lengths[2], table, WEDGEPETAL_TABLE_BYTES, place, 1) != 0 ||
        wedgepetal_sizes(session, WEDGEPETAL_SESSION_NUMBERS, sizes, WEDGEPETAL_SIZE_NUMBERS) != 0 ||
        wedgepetal_work_lengths(session, WEDGEPETAL_SESSION_NUMBERS, lengths, WEDGEPETAL_LENGTH_NUMBERS) != 0 ||
        (side != 0 && wedgepetal_tiles_length(settings, 4, session, WEDGEPETAL_SESSION_NUMBERS, bytes, 1) != 0)) {
        fail("a header is refused");
    }
    void *slices = memory(lengths[WEDGEPETAL_WORK_BYTES]);
    struct wedgepetal_work work = wedgepetal_work_in(slices, lengths);
    map = memory(bytes[0]);
    for (int k = 0; k < 3; k++) {
        planes[k] = memory(sizes[WEDGEPETAL_BUFFER]);
    }
    for (size_t i = HEADERS; i < r->count; i++) {
        int new = 0, first = session[WEDGEPETAL_REFERENCES] == 0;
        uint32_t number;
        double start = now();
        while (new == golden || new == previous) {
            new++;
        }
        number = side == 0 ? wedgepetal_frame_in(&work, session, r->packets[i], r->lengths[i], table, planes[golden], planes[previous],
                                                 planes[new], sizes[WEDGEPETAL_BUFFER], answer)
                           : wedgepetal_tiles_frame_in(&work, settings, session, r->packets[i], r->lengths[i], table, planes[golden],
                                                       planes[previous], planes[new], sizes[WEDGEPETAL_BUFFER], answer, map, bytes[0]);
        p.seconds += now() - start;
        if (number == 0) {
            if (looking) {
                look(map, first, planes[previous], planes[new], 16 * session[WEDGEPETAL_FMBW], 16 * session[WEDGEPETAL_FMBH], side, &p);
            }
            previous = new;
            golden = answer[WEDGEPETAL_KIND] == WEDGEPETAL_INTRA ? new : golden;
        }
    }
    free(table);
    free(slices);
    free(map);
    for (int k = 0; k < 3; k++) {
        free(planes[k]);
    }
    return p;
}

static void compare(const char *path)
{
    struct recording r = read_recording(path);
    double frames = (double)(r.count - HEADERS);
    const unsigned char *id = r.packets[0];
    for (uint64_t side = 8; side <= 32; side *= 2) {
        struct pass all = go(&r, side, 1);
        double alone = 1e9, with = 1e9;
        for (int round = 0; round < ROUNDS; round++) {
            double a = go(&r, 0, 0).seconds, b = go(&r, side, 0).seconds;
            alone = a < alone ? a : alone;
            with = b < with ? b : with;
        }
        printf("| %s | %d x %d | %.0f | %2d | %8.1f | %6.1f | %5.1f %% | %5.1f %% |\n", base_name(path), id[10] * 256 + id[11], id[12] * 256 + id[13],
               frames, (int)side, alone / frames * 1e6, (with - alone) / frames * 1e6, (with - alone) / alone * 100,
               (double)all.ones / (double)all.tiles * 100);
    }
    forget(&r);
}

int main(int count, char **words)
{
    printf("| recording | macro blocks | frames | side | µs a frame | map adds µs | share | tiles changed |\n|---|---|---|---|---|---|---|---|\n");
    for (int i = 1; i < count; i++) {
        compare(words[i]);
    }
    return 0;
}
