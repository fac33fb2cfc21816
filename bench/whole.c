/*
 * Times the calls on whole recordings beside the shot call alone: with maps of changed tiles, the check of a stream, the
 * census.
 *
 *   whole RECORDING.ogv..
 *
 * All packets, and the stream of frames that is checked, lie in memory first; only the calls are timed, by the processor's
 * time. Each goes over the whole recording in one call, in turn, several rounds, and the fastest round of each counts. A
 * recording is left out if its stream has more than two gigabytes. One line for each: microseconds a frame of the shot call;
 * what maps of 16 by 16 add to it; what the check adds, and what reading the file once takes (memcmp with a copy); the
 * census, and how many times as fast as the shot call it is.
 */
#define _POSIX_C_SOURCE 200809L
#include "common.h"
#include "wedgepetal.h"

enum { ROUNDS = 7 };
static const size_t MOST = (size_t)2 << 30;

/* A recording, and all that is lent. */
struct lent {
    uint64_t session[WEDGEPETAL_SESSION_NUMBERS], sizes[WEDGEPETAL_SIZE_NUMBERS];
    uint8_t *table, *planes, *joined, *file, *copy, *maps;
    uint64_t *lengths, *answers, map[1];
    size_t frames, joined_length, file_length, buffer;
    void *slices;
    struct wedgepetal_work work;
};

static const uint64_t SETTINGS[WEDGEPETAL_SETTINGS_NUMBERS] = {16, 0, 0, 0};

/* The stream of the recording, by one shot call for each packet. */
static void film(struct lent *l, const struct recording *r)
{
    uint64_t session[WEDGEPETAL_SESSION_NUMBERS], names[2] = {3, 3}, written[1], answer[8];
    size_t room = WEDGEPETAL_Y4M_HEADER_BYTES + l->frames * (6 + l->buffer);
    memcpy(session, l->session, sizeof session);
    l->file = memory(room);
    wedgepetal_y4m_header(session, WEDGEPETAL_SESSION_NUMBERS, l->file, room, written, 1);
    l->file_length = written[0];
    for (size_t i = HEADERS; i < r->count; i++) {
        uint64_t length[1] = {r->lengths[i]};
        if (wedgepetal_shot_in(&l->work, session, names, length, 1, r->packets[i], length[0], l->table, l->planes, l->buffer,
                               answer) != 0 ||
            answer[0] != 0 ||
            wedgepetal_y4m_frame(session, WEDGEPETAL_SESSION_NUMBERS, l->planes + names[1] * l->buffer, l->buffer,
                                 l->file + l->file_length, room - l->file_length, written, 1) != 0) {
            fail("a packet is refused");
        }
        l->file_length += written[0];
    }
    l->copy = memory(l->file_length);
    memcpy(l->copy, l->file, l->file_length);
}

static int lend(struct lent *l, const struct recording *r)
{
    uint64_t place[1], lengths[WEDGEPETAL_LENGTH_NUMBERS];
    memset(l, 0, sizeof *l);
    l->table = memory(WEDGEPETAL_TABLE_BYTES);
    if (wedgepetal_identification(r->packets[0], r->lengths[0], l->session, WEDGEPETAL_SESSION_NUMBERS, place, 1) != 0 ||
        wedgepetal_setup(r->packets[2], r->lengths[2], l->table, WEDGEPETAL_TABLE_BYTES, place, 1) != 0 ||
        wedgepetal_sizes(l->session, WEDGEPETAL_SESSION_NUMBERS, l->sizes, WEDGEPETAL_SIZE_NUMBERS) != 0 ||
        wedgepetal_work_lengths(l->session, WEDGEPETAL_SESSION_NUMBERS, lengths, WEDGEPETAL_LENGTH_NUMBERS) != 0 ||
        wedgepetal_tiles_length(SETTINGS, 4, l->session, WEDGEPETAL_SESSION_NUMBERS, l->map, 1) != 0) {
        fail("a header is refused");
    }
    l->buffer = l->sizes[WEDGEPETAL_BUFFER];
    l->frames = r->count - HEADERS;
    if (l->frames * l->buffer > MOST) {
        free(l->table);
        return 0;
    }
    l->slices = memory(lengths[WEDGEPETAL_WORK_BYTES]);
    l->work = wedgepetal_work_in(l->slices, lengths);
    l->planes = memory(3 * l->buffer);
    l->maps = memory(l->map[0] * l->frames);
    l->answers = memory(8 * l->frames * sizeof(uint64_t));
    l->lengths = memory(r->count * sizeof(uint64_t));
    for (size_t i = 0; i < r->count; i++) {
        l->lengths[i] = r->lengths[i];
        l->joined_length += r->lengths[i];
    }
    l->joined = memory(l->joined_length);
    for (size_t i = 0, at = 0; i < r->count; at += r->lengths[i++]) {
        memcpy(l->joined + at, r->packets[i], r->lengths[i]);
    }
    film(l, r);
    return 1;
}

static void give_back(struct lent *l)
{
    void *all[] = {l->table, l->planes, l->joined, l->file, l->copy, l->maps, l->lengths, l->answers, l->slices};
    for (size_t i = 0; i < sizeof all / sizeof all[0]; i++) {
        free(all[i]);
    }
}

/* What is timed. */
enum { SHOT, TILES, CHECK, READ, CENSUS, JOBS };

static double timed(struct lent *l, const struct recording *r, int job)
{
    uint64_t session[WEDGEPETAL_SESSION_NUMBERS], names[2] = {3, 3}, found[2], report[WEDGEPETAL_REPORT_NUMBERS] = {0};
    size_t front = r->lengths[0] + r->lengths[1] + r->lengths[2], length = l->joined_length - front;
    const uint8_t *packets = l->joined + front;
    const uint64_t *lengths = l->lengths + HEADERS;
    uint8_t *scratch = job == CENSUS || job == CHECK ? memory(WEDGEPETAL_TABLE_BYTES) : NULL;
    uint32_t number = 0;
    int same = 0;
    double start;
    memcpy(session, l->session, sizeof session);
    start = now();
    switch (job) {
    case SHOT:
        number = wedgepetal_shot_in(&l->work, session, names, lengths, l->frames, packets, length, l->table, l->planes, l->buffer,
                                    l->answers);
        break;
    case TILES:
        number = wedgepetal_tiles_shot_in(&l->work, SETTINGS, session, names, lengths, l->frames, packets, length, l->table,
                                          l->planes, l->buffer, l->answers, l->maps, l->map[0]);
        break;
    case CHECK:
        number = wedgepetal_check_in(&l->work, r->packets[0], r->lengths[0], r->packets[2], r->lengths[2], lengths, l->frames,
                                     packets, length, l->file, l->file_length, scratch, l->planes, l->buffer, l->answers, found);
        same = found[0];
        break;
    case READ:
        same = memcmp(l->file, l->copy, l->file_length);
        break;
    case CENSUS:
        number = wedgepetal_census_in(&l->work, l->lengths, r->count, l->joined, l->joined_length, report, scratch, l->planes,
                                      l->buffer);
        same = report[0] + report[1] + report[2] != l->frames;
        break;
    }
    start = now() - start;
    if (number != 0 || same != 0) {
        fail("a call does not answer what it should");
    }
    free(scratch);
    return start;
}

static void compare(const char *path)
{
    struct recording r = read_recording(path);
    struct lent l;
    double best[JOBS] = {1e9, 1e9, 1e9, 1e9, 1e9}, frames;
    if (lend(&l, &r)) {
        for (int round = 0; round < ROUNDS; round++) {
            for (int job = 0; job < JOBS; job++) {
                double seconds = timed(&l, &r, job);
                best[job] = seconds < best[job] ? seconds : best[job];
            }
        }
        frames = (double)l.frames;
        printf("| %s | %d x %d | %.0f | %.1f | %.1f (%.1f %%) | %.1f (%.1f %%) | %.1f | %.1f | %.1f |\n", base_name(path),
               (int)l.session[WEDGEPETAL_FMBW], (int)l.session[WEDGEPETAL_FMBH], frames, best[SHOT] / frames * 1e6,
               (best[TILES] - best[SHOT]) / frames * 1e6, (best[TILES] / best[SHOT] - 1) * 100,
               (best[CHECK] - best[SHOT]) / frames * 1e6, (best[CHECK] / best[SHOT] - 1) * 100, best[READ] / frames * 1e6,
               best[CENSUS] / frames * 1e6, best[SHOT] / best[CENSUS]);
        give_back(&l);
    }
    forget(&r);
}

int main(int count, char **words)
{
    printf("| recording | macro blocks | frames | shot: µs a frame | maps add µs | check adds µs | reading the file: µs | census: µs a packet | "
           "times as fast |\n|---|---|---|---|---|---|---|---|---|\n");
    for (int i = 1; i < count; i++) {
        compare(words[i]);
        fflush(stdout);
    }
    return 0;
}
