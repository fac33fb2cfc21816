/*
 * Whole recordings beside the calls that they are made of, on the streams of crates/play/data: wedgepetal_tiles_shot
 * beside one wedgepetal_tiles_frame for each packet and beside wedgepetal_shot; wedgepetal_check beside the stream that
 * wedgepetal_y4m_frame writes; the kinds and refusals of wedgepetal_census beside wedgepetal_shot. Packets are damaged,
 * emptied and left out at random, and all lent memory holds random bytes. After each come the refusals.
 */
#include "stream.h"

enum { ROUNDS = 30, SLICES = WEDGEPETAL_WORK_BYTES, JOINED = 1 << 15 };

static size_t maps_compared, files_checked, recordings_counted, refused;

/* ---- what is lent */

struct lent {
    uint64_t session[WEDGEPETAL_SESSION_NUMBERS], names[WEDGEPETAL_NAME_NUMBERS];
    uint64_t lengths[PACKETS + 3], *answers;
    size_t number, answers_length;
    uint8_t *joined;
    size_t joined_length;
    uint8_t *planes[3], *own_table;
    size_t plane_lengths[3], table_length;
    uint8_t *memory;
    size_t memory_length;
    struct wedgepetal_work work;
};

static void lend_all(struct lent *l)
{
    uint64_t lengths[WEDGEPETAL_LENGTH_NUMBERS];
    int i;
    memcpy(l->session, fresh, sizeof fresh);
    l->names[0] = any(5);
    l->names[1] = any(5);
    l->answers = lend(8 * PACKETS * sizeof(uint64_t));
    l->joined = lend(JOINED);
    for (i = 0; i < 3; i++) {
        l->planes[i] = lend(buffer);
        l->plane_lengths[i] = buffer;
    }
    l->table_length = WEDGEPETAL_TABLE_BYTES;
    l->own_table = lend(l->table_length);
    wedgepetal_work_lengths(fresh, WEDGEPETAL_SESSION_NUMBERS, lengths, WEDGEPETAL_LENGTH_NUMBERS);
    l->memory_length = lengths[WEDGEPETAL_WORK_BYTES];
    l->memory = lend(l->memory_length);
    l->work = wedgepetal_work_in(l->memory, lengths);
}

static void give_back(struct lent *l)
{
    int i;
    for (i = 0; i < 3; i++) {
        free(l->planes[i]);
    }
    free(l->answers);
    free(l->joined);
    free(l->own_table);
    free(l->memory);
}

/* The first packets of the recording joined together behind what is there, every one in so many damaged, cut or emptied
 * (0: none). */
static void join(struct lent *l, size_t from, size_t number, size_t damaged)
{
    size_t i, at = 0;
    for (i = 0; i < from; i++) {
        at += l->lengths[i];
    }
    l->number = from + number;
    l->answers_length = 8 * number;
    for (i = 0; i < number; i++) {
        size_t length = packet_lengths[i % count];
        expect("room for the packets", at + length + 3 < JOINED);
        memcpy(l->joined + at, packets[i % count], length);
        if (damaged != 0 && any(damaged) == 0 && length > 0) {
            l->joined[at + any(length)] ^= (uint8_t)(1u << any(8));
        }
        if (damaged != 0 && any(damaged) == 0) {
            length = any(length + 1);
        }
        l->lengths[from + i] = damaged != 0 && any(2 * damaged) == 0 ? 0 : length;
        at += l->lengths[from + i];
    }
    l->joined_length = at + any(3);
    fill(l->joined + at, l->joined_length - at);
}

/* The headers of the recording, to which packets are joined. */
static void join_headers(struct lent *l)
{
    size_t i, at = 0;
    for (i = 0; i < 3; i++) {
        memcpy(l->joined + at, headers[i], header_lengths[i]);
        l->lengths[i] = header_lengths[i];
        at += header_lengths[i];
    }
}

static uint32_t shot(struct lent *l)
{
    struct wedgepetal_work *w = &l->work;
    const uint64_t *n = w->lengths;
    return wedgepetal_shot(
        l->session, WEDGEPETAL_SESSION_NUMBERS, l->names, WEDGEPETAL_NAME_NUMBERS, l->lengths, l->number, l->joined,
        l->joined_length, table, sizeof table, w->records, n[WEDGEPETAL_RECORDS], w->coded, n[WEDGEPETAL_CODED], w->coefs,
        n[WEDGEPETAL_COEFS], w->dc, n[WEDGEPETAL_DC], w->lasts, n[WEDGEPETAL_LASTS], w->flags, n[WEDGEPETAL_FLAGS], w->bits,
        n[WEDGEPETAL_BITS], w->supers, n[WEDGEPETAL_SUPERS], w->modes, n[WEDGEPETAL_MODES], w->active, n[WEDGEPETAL_ACTIVE],
        l->planes[0], l->plane_lengths[0], l->planes[1], l->plane_lengths[1], l->planes[2], l->plane_lengths[2], l->answers,
        l->answers_length);
}

/* A copy of memory. */
static void *kept(const void *memory, size_t length)
{
    void *copy = malloc(length);
    if (copy == NULL) {
        abort();
    }
    return memcpy(copy, memory, length);
}

/* The same memory once more, to be lent to another call. */
static struct lent copied(const struct lent *l)
{
    struct lent c = *l;
    int i;
    c.answers = kept(l->answers, 8 * PACKETS * sizeof(uint64_t));
    c.joined = kept(l->joined, JOINED);
    c.own_table = kept(l->own_table, WEDGEPETAL_TABLE_BYTES);
    c.memory = kept(l->memory, l->memory_length);
    c.work = wedgepetal_work_in(c.memory, l->work.lengths);
    for (i = 0; i < 3; i++) {
        c.planes[i] = kept(l->planes[i], buffer);
    }
    return c;
}

/* Whether two calls left the same: session, names, buffers, answers, work memory. */
static int same(const struct lent *a, const struct lent *b)
{
    int i, equal = memcmp(a->session, b->session, sizeof a->session) == 0 && memcmp(a->names, b->names, sizeof a->names) == 0 &&
                   memcmp(a->answers, b->answers, 8 * PACKETS * sizeof(uint64_t)) == 0 &&
                   memcmp(a->memory, b->memory, a->memory_length) == 0;
    for (i = 0; i < 3; i++) {
        equal = equal && memcmp(a->planes[i], b->planes[i], buffer) == 0;
    }
    return equal;
}

/* ---- changed tiles */

static uint32_t tiles(struct lent *l, const uint64_t *settings, size_t settings_length, uint8_t *maps, size_t maps_length)
{
    struct wedgepetal_work *w = &l->work;
    const uint64_t *n = w->lengths;
    calls++;
    return wedgepetal_tiles_shot(
        settings, settings_length, l->session, WEDGEPETAL_SESSION_NUMBERS, l->names, WEDGEPETAL_NAME_NUMBERS, l->lengths,
        l->number, l->joined, l->joined_length, table, sizeof table, w->records, n[WEDGEPETAL_RECORDS], w->coded,
        n[WEDGEPETAL_CODED], w->coefs, n[WEDGEPETAL_COEFS], w->dc, n[WEDGEPETAL_DC], w->lasts, n[WEDGEPETAL_LASTS], w->flags,
        n[WEDGEPETAL_FLAGS], w->bits, n[WEDGEPETAL_BITS], w->supers, n[WEDGEPETAL_SUPERS], w->modes, n[WEDGEPETAL_MODES],
        w->active, n[WEDGEPETAL_ACTIVE], l->planes[0], l->plane_lengths[0], l->planes[1], l->plane_lengths[1], l->planes[2],
        l->plane_lengths[2], l->answers, l->answers_length, maps, maps_length);
}

static void compare_tiles(void)
{
    uint64_t settings[4] = {8, 0, 9, 0}, length[1], names[2] = {3, 3}, session[WEDGEPETAL_SESSION_NUMBERS], answer[8];
    struct lent l, by_frames, by_shot;
    uint8_t *maps, *before;
    size_t i, at = 0;
    settings[0] = 8u << any(3);
    settings[3] = any(3);
    expect("a length", wedgepetal_tiles_length(settings, 4, fresh, WEDGEPETAL_SESSION_NUMBERS, length, 1) == 0);
    lend_all(&l);
    join(&l, 0, any(9), any(3) == 0 ? 0 : 5);
    maps = lend(length[0] * l.number);
    before = lend(length[0] * l.number);
    memcpy(before, maps, length[0] * l.number);
    by_frames = copied(&l);
    by_shot = copied(&l);
    expect("a shot with maps", tiles(&l, settings, 4, maps, length[0] * l.number) == 0);
    expect("a shot", shot(&by_shot) == 0);
    expect("the same as without maps", same(&l, &by_shot));
    memcpy(session, fresh, sizeof session);
    for (i = 0; i < l.number; i++) {
        uint64_t free_buffer = 0;
        while (free_buffer == names[0] || free_buffer == names[1]) {
            free_buffer++;
        }
        if (wedgepetal_tiles_frame_in(&by_frames.work, settings, session, l.joined + at, l.lengths[i], table,
                                      by_frames.planes[names[0] % 3], by_frames.planes[names[1] < 3 ? names[1] : 1],
                                      by_frames.planes[free_buffer], buffer, answer, before + i * length[0],
                                      length[0]) == 0) {
            names[1] = free_buffer;
            names[0] = answer[WEDGEPETAL_KIND] == WEDGEPETAL_INTRA ? free_buffer : names[0];
        } else {
            refused++;
        }
        at += l.lengths[i];
        maps_compared++;
    }
    expect("maps", memcmp(maps, before, length[0] * l.number) == 0);
    free(maps);
    free(before);
    give_back(&l);
    give_back(&by_frames);
    give_back(&by_shot);
}

static void refuse_tiles(struct lent *l, const char *what, const uint64_t *settings, size_t settings_length,
                         size_t maps_length, uint32_t number)
{
    uint8_t *maps = lend(maps_length + 1), *before = lend(maps_length + 1);
    struct lent old = copied(l);
    memcpy(before, maps, maps_length + 1);
    expect(what, tiles(l, settings, settings_length, maps, maps_length) == number);
    expect(what, same(l, &old) && memcmp(maps, before, maps_length + 1) == 0);
    give_back(&old);
    free(maps);
    free(before);
}

static void refuse_all_tiles(void)
{
    uint64_t settings[4] = {16, 2, 9, 0}, bad[4] = {16, 2, 9, 0}, length[1];
    struct lent l, good;
    size_t maps;
    int i;
    wedgepetal_tiles_length(settings, 4, fresh, WEDGEPETAL_SESSION_NUMBERS, length, 1);
    lend_all(&l);
    join(&l, 0, 3, 0);
    good = l;
    maps = 3 * length[0];
    refuse_tiles(&l, "a map too short", settings, 4, maps - 1, 1);
    refuse_tiles(&l, "a map too long", settings, 4, maps + 1, 1);
    for (i = 0; i < 4; i++) {
        static const uint64_t out[4] = {17, 10, 1000000, 3};
        bad[i] = out[i];
        refuse_tiles(&l, "settings out of range", bad, 4, 0, 20);
        bad[i] = settings[i];
    }
    bad[0] = 0;
    l.session[WEDGEPETAL_FMBW] = 0;
    refuse_tiles(&l, "20 before 8", bad, 4, maps, 20);
    refuse_tiles(&l, "the list of settings before 20", bad, 3, maps, 1);
    refuse_tiles(&l, "8 before 1", settings, 4, maps - 1, 8);
    l = good;
    for (i = 0; i < SLICES; i++) {
        l.work.lengths[i]--;
        refuse_tiles(&l, "a short slice", settings, 4, maps, 1);
        l = good;
    }
    l.lengths[0] = UINT64_MAX;
    refuse_tiles(&l, "16", settings, 4, maps, 16);
    l.answers_length++;
    refuse_tiles(&l, "1 before 16", settings, 4, maps, 1);
    l = good;
    l.number = 0;
    l.answers_length = 0;
    refuse_tiles(&l, "1 also without packets", settings, 4, 1, 1);
    give_back(&good);
}

/* ---- the check of a stream */

static uint32_t check(struct lent *l, const uint8_t *file, size_t file_length, uint64_t *found, size_t found_length)
{
    struct wedgepetal_work *w = &l->work;
    const uint64_t *n = w->lengths;
    calls++;
    return wedgepetal_check(
        headers[0], header_lengths[0], headers[2], header_lengths[2], l->lengths, l->number, l->joined, l->joined_length,
        file, file_length, l->own_table, l->table_length, w->records, n[WEDGEPETAL_RECORDS], w->coded, n[WEDGEPETAL_CODED],
        w->coefs, n[WEDGEPETAL_COEFS], w->dc, n[WEDGEPETAL_DC], w->lasts, n[WEDGEPETAL_LASTS], w->flags, n[WEDGEPETAL_FLAGS],
        w->bits, n[WEDGEPETAL_BITS], w->supers, n[WEDGEPETAL_SUPERS], w->modes, n[WEDGEPETAL_MODES], w->active,
        n[WEDGEPETAL_ACTIVE], l->planes[0], l->plane_lengths[0], l->planes[1], l->plane_lengths[1], l->planes[2],
        l->plane_lengths[2], l->answers, l->answers_length, found, found_length);
}

/* The stream of the packets that are accepted, by one shot call for each; its bytes. */
static size_t film(const struct lent *l, uint8_t *out, size_t room)
{
    struct lent c = copied(l);
    uint64_t written[1] = {0};
    size_t i, at = 0, length = 0;
    memcpy(c.session, fresh, sizeof fresh);
    expect("a header", wedgepetal_y4m_header(fresh, WEDGEPETAL_SESSION_NUMBERS, out, room, written, 1) == 0);
    length = written[0];
    for (i = 0; i < l->number; i++) {
        uint64_t one[1] = {l->lengths[i]}, answer[8];
        wedgepetal_work_lengths(fresh, WEDGEPETAL_SESSION_NUMBERS, c.work.lengths, WEDGEPETAL_LENGTH_NUMBERS);
        expect("a packet", wedgepetal_shot(c.session, WEDGEPETAL_SESSION_NUMBERS, c.names, 2, one, 1, l->joined + at, one[0],
                                           table, sizeof table, c.work.records, c.work.lengths[0], c.work.coded,
                                           c.work.lengths[1], c.work.coefs, c.work.lengths[2], c.work.dc, c.work.lengths[3],
                                           c.work.lasts, c.work.lengths[4], c.work.flags, c.work.lengths[5], c.work.bits,
                                           c.work.lengths[6], c.work.supers, c.work.lengths[7], c.work.modes,
                                           c.work.lengths[8], c.work.active, c.work.lengths[9], c.planes[0], buffer,
                                           c.planes[1], buffer, c.planes[2], buffer, answer, 8) == 0);
        if (answer[0] == 0) {
            expect("a frame", wedgepetal_y4m_frame(fresh, WEDGEPETAL_SESSION_NUMBERS, c.planes[c.names[1]], buffer,
                                                   out + length, room - length, written, 1) == 0);
            length += written[0];
        }
        at += l->lengths[i];
    }
    give_back(&c);
    return length;
}

/* A check that must answer this, and leave what the shot call leaves. */
static void expect_check(const struct lent *l, const char *what, const uint8_t *file, size_t length, uint32_t number,
                         uint64_t differs, uint64_t at)
{
    uint64_t found[2] = {any(9), any(9)};
    struct lent c = copied(l), s = copied(l);
    expect(what, check(&c, file, length, found, 2) == number);
    expect(what, found[0] == differs && found[1] == at);
    memcpy(s.session, fresh, sizeof fresh);
    expect("a shot", shot(&s) == 0);
    memcpy(s.session, c.session, sizeof s.session);
    memcpy(s.names, c.names, sizeof s.names);
    expect("what a check leaves", same(&c, &s) && memcmp(c.own_table, table, sizeof table) == 0);
    give_back(&c);
    give_back(&s);
    files_checked++;
}

static void check_files(void)
{
    struct lent l;
    size_t room = (buffer + 6) * 8 + 200, length, i;
    uint8_t *file = lend(room);
    lend_all(&l);
    join(&l, 0, any(7), 0);
    length = film(&l, file, room);
    if (length != (size_t)(strchr((char *)file, '\n') - (char *)file) + 1 + l.number * (buffer + 6)) {
        /* a packet of the stored stream is refused */
        give_back(&l);
        free(file);
        return;
    }
    expect_check(&l, "our own file", file, length, 0, 0, 0);
    for (i = 0; i < 40; i++) {
        size_t at = i < 20 && i * 4 < length ? i * 4 : any(length);
        uint8_t was = file[at];
        file[at] ^= (uint8_t)(1u << any(8));
        expect_check(&l, "a bit flipped", file, length, 0, 1, at);
        file[at] = was;
    }
    for (i = 0; i < 40; i++) {
        size_t cut = i < 20 ? length - 1 - i : any(length);
        expect_check(&l, "cut short", file, cut, 0, 1, cut);
    }
    expect_check(&l, "an empty file", file, 0, 0, 1, 0);
    expect_check(&l, "a byte more", file, length + 1, 0, 1, length);
    give_back(&l);
    free(file);
}

static void check_refused(void)
{
    struct lent l, s;
    size_t room = (buffer + 6) * 16 + 200, length, i;
    uint8_t *file = lend(room);
    lend_all(&l);
    join(&l, 0, 1 + any(7), 3);
    length = film(&l, file, room);
    s = copied(&l);
    expect("a shot", shot(&s) == 0);
    for (i = 0; i < l.number && s.answers[8 * i] == 0; i++) {
    }
    if (i < l.number) {
        uint32_t number = (uint32_t)s.answers[8 * i];
        uint64_t at = s.answers[8 * i + 1];
        expect_check(&l, "a refusal wins over what the others give", file, length, number, 0, at);
        expect_check(&l, "a refusal wins over any file", file, any(length), number, 0, at);
        fill(file, 64);
        expect_check(&l, "a refusal wins over rubbish", file, length, number, 0, at);
        refused++;
    } else {
        expect_check(&l, "damaged, and accepted all the same", file, length, 0, 0, 0);
    }
    give_back(&l);
    give_back(&s);
    free(file);
}

static void refuse_check(struct lent *l, const char *what, size_t found_length, uint32_t number, uint64_t at)
{
    uint64_t found[3] = {77, 77, 77};
    struct lent old = copied(l);
    uint8_t file[1] = {0};
    expect(what, check(l, file, 1, found, found_length) == number);
    expect(what, found_length != 2 || (found[0] == 0 && found[1] == at && found[2] == 77));
    expect(what, found_length == 2 || (found[0] == 77 && found[1] == 77));
    expect(what, same(l, &old));
    give_back(&old);
}

static void refuse_all_checks(void)
{
    struct lent l, good;
    const uint8_t *first = headers[0];
    size_t first_length = header_lengths[0], setup_length = header_lengths[2];
    int i;
    lend_all(&l);
    join(&l, 0, 3, 0);
    good = l;
    refuse_check(&l, "found too short", 1, 1, 0);
    refuse_check(&l, "found too long", 3, 1, 0);
    header_lengths[0] = 9;
    refuse_check(&l, "a cut header", 2, 4, 72);
    header_lengths[0] = first_length;
    headers[0] = headers[1];
    refuse_check(&l, "another header", 2, 2, 0);
    headers[0] = first;
    header_lengths[2] = 7;
    refuse_check(&l, "a cut setup header", 2, 4, 56);
    expect("its table", is_zero(l.own_table, l.table_length));
    l.table_length--;
    fill(l.own_table, l.table_length);
    refuse_check(&l, "1 before a setup header", 2, 1, 0);
    l = good;
    header_lengths[2] = setup_length;
    for (i = 0; i < SLICES; i++) {
        l.work.lengths[i]++;
        refuse_check(&l, "a long slice", 2, 1, 0);
        l = good;
    }
    for (i = 0; i < 3; i++) {
        l.plane_lengths[i]--;
        refuse_check(&l, "a short buffer", 2, 1, 0);
        l = good;
    }
    l.answers_length--;
    l.lengths[0] = UINT64_MAX;
    refuse_check(&l, "short answers, before 16", 2, 1, 0);
    l.answers_length++;
    refuse_check(&l, "16", 2, 16, 0);
    give_back(&good);
}

/* ---- the census */

static uint32_t census(struct lent *l, uint64_t *report, size_t report_length)
{
    struct wedgepetal_work *w = &l->work;
    const uint64_t *n = w->lengths;
    calls++;
    return wedgepetal_census(
        l->lengths, l->number, l->joined, l->joined_length, report, report_length, l->own_table, l->table_length, w->records,
        n[WEDGEPETAL_RECORDS], w->coded, n[WEDGEPETAL_CODED], w->coefs, n[WEDGEPETAL_COEFS], w->dc, n[WEDGEPETAL_DC],
        w->lasts, n[WEDGEPETAL_LASTS], w->flags, n[WEDGEPETAL_FLAGS], w->bits, n[WEDGEPETAL_BITS], w->supers,
        n[WEDGEPETAL_SUPERS], w->modes, n[WEDGEPETAL_MODES], w->active, n[WEDGEPETAL_ACTIVE], l->planes[0],
        l->plane_lengths[0], l->planes[1], l->plane_lengths[1], l->planes[2], l->plane_lengths[2]);
}

/* Whether all scratch is zero, as far as it is lent. */
static int scratch_is_zero(const struct lent *l)
{
    const struct wedgepetal_work *w = &l->work;
    const uint64_t *n = w->lengths;
    return is_zero(l->own_table, l->table_length) && is_zero(l->planes[0], l->plane_lengths[0]) &&
           is_zero(l->planes[1], l->plane_lengths[1]) && is_zero(l->planes[2], l->plane_lengths[2]) &&
           is_zero((uint8_t *)w->records, 4 * n[0]) && is_zero((uint8_t *)w->coded, 8 * n[1]) &&
           is_zero((uint8_t *)w->coefs, 2 * n[2]) && is_zero((uint8_t *)w->dc, 2 * n[3]) && is_zero(w->lasts, n[4]) &&
           is_zero(w->flags, n[5]) && is_zero(w->bits, n[6]) && is_zero(w->supers, n[7]) && is_zero(w->modes, n[8]) &&
           is_zero((uint8_t *)w->active, 8 * n[9]);
}

/* A census that must add these numbers of the report alone, up to the blocks. */
static void expect_census(struct lent *l, const char *what, const uint64_t *added)
{
    uint64_t report[WEDGEPETAL_REPORT_NUMBERS], before[WEDGEPETAL_REPORT_NUMBERS], sizes[WEDGEPETAL_SIZE_NUMBERS], sum = 0;
    int i;
    for (i = 0; i < WEDGEPETAL_REPORT_NUMBERS; i++) {
        before[i] = report[i] = any(UINT64_MAX) >> 1;
    }
    expect(what, census(l, report, WEDGEPETAL_REPORT_NUMBERS) == 0);
    for (i = 0; i < WEDGEPETAL_COUNTED_CODED; i++) {
        expect(what, report[i] - before[i] == added[i]);
    }
    wedgepetal_sizes(fresh, WEDGEPETAL_SESSION_NUMBERS, sizes, WEDGEPETAL_SIZE_NUMBERS);
    for (i = 0; i < 3; i++) {
        uint64_t blocks = report[20 + i] - before[20 + i] + report[23 + i] - before[23 + i];
        expect("the blocks of a plane", blocks == sizes[4 + 4 * i] * sizes[5 + 4 * i] * (added[0] + added[1]));
    }
    for (i = WEDGEPETAL_COUNTED_MODES; i < WEDGEPETAL_REPORT_NUMBERS; i++) {
        sum += report[i] - before[i];
    }
    expect("the macro blocks", sum == sizes[WEDGEPETAL_NMBS] * added[1]);
    expect("scratch", scratch_is_zero(l));
    recordings_counted++;
}

/* What a shot call answers, counted. */
static void count_recording(void)
{
    uint64_t added[WEDGEPETAL_COUNTED_CODED] = {0};
    struct lent l, s;
    size_t i, number = any(9);
    lend_all(&l);
    join(&l, 0, number, any(3) == 0 ? 0 : 5);
    s = copied(&l);
    expect("a shot", shot(&s) == 0);
    for (i = 0; i < number; i++) {
        added[s.answers[8 * i] == 0 ? s.answers[8 * i + WEDGEPETAL_KIND] : 2 + s.answers[8 * i]]++;
    }
    /* headers in front */
    memcpy(s.joined, l.joined, l.joined_length);
    join_headers(&l);
    l.joined_length = header_lengths[0] + header_lengths[1] + header_lengths[2];
    memcpy(l.joined + l.joined_length, s.joined, s.joined_length);
    l.joined_length += s.joined_length;
    memcpy(l.lengths + 3, s.lengths, number * sizeof(uint64_t));
    l.number = number + 3;
    expect_census(&l, "kinds and refusals", added);
    give_back(&l);
    give_back(&s);
}

static void refuse_census(struct lent *l, const char *what, size_t report_length, uint32_t number, int zero)
{
    uint64_t report[WEDGEPETAL_REPORT_NUMBERS + 1], before[WEDGEPETAL_REPORT_NUMBERS + 1];
    struct lent old = copied(l);
    fill(report, sizeof report);
    report[0] = number == 15 ? UINT64_MAX : 0;
    memcpy(before, report, sizeof report);
    expect(what, census(l, report, report_length) == number);
    expect(what, memcmp(before, report, sizeof report) == 0);
    expect(what, zero ? scratch_is_zero(l) : same(l, &old) && memcmp(l->own_table, old.own_table, l->table_length) == 0);
    give_back(&old);
}

static void census_cases(void)
{
    uint64_t added[WEDGEPETAL_COUNTED_CODED] = {0};
    struct lent l, good;
    size_t i;
    lend_all(&l);
    join_headers(&l);
    join(&l, 3, 4, 0);
    good = l;
    refuse_census(&l, "a report too short", 33, 1, 1);
    refuse_census(&l, "a report too long", 35, 1, 1);
    refuse_census(&l, "a sum past 64 bits", 34, 15, 1);
    fill(l.memory, l.memory_length);
    l.lengths[6] = UINT64_MAX;
    refuse_census(&l, "16 before 1", 33, 16, 0);
    l.lengths[5] = l.lengths[6] = (uint64_t)1 << 63;
    refuse_census(&l, "lengths past 64 bits", 34, 16, 0);
    l = good;
    l.joined_length = header_lengths[0] + 1;
    refuse_census(&l, "one byte too few", 34, 16, 0);
    l = good;
    /* lists of 0 to 2 lengths: a header is missing */
    added[2 + 4] = 1;
    for (l.number = 0; l.number < 3; l.number++) {
        fill(l.memory, l.memory_length);
        expect_census(&l, "a missing header", added);
    }
    l.lengths[0] = 9;
    expect_census(&l, "a cut header", added);
    added[2 + 4] = 0;
    l = good;
    l.number = 3;
    expect_census(&l, "no frame packets", added);
    /* the comment header is not looked at */
    fill(l.joined + l.lengths[0], l.lengths[1]);
    expect_census(&l, "any comments", added);
    added[2 + 2] = 1;
    l.joined[l.lengths[0] + l.lengths[1]] ^= 1;
    expect_census(&l, "another setup header", added);
    l.joined[l.lengths[0] + l.lengths[1]] ^= 1;
    added[2 + 2] = 0;
    added[2 + 1] = 1;
    l.table_length--;
    expect_census(&l, "a short table", added);
    l = good;
    /* every frame packet is refused by 1 */
    added[2 + 1] = 4;
    for (i = 0; i < SLICES; i++) {
        fill(l.memory, l.memory_length);
        l.work.lengths[i]--;
        expect_census(&l, "a short slice", added);
        l = good;
    }
    for (i = 0; i < 3; i++) {
        fill(l.planes[i], buffer);
        l.plane_lengths[i]--;
        expect_census(&l, "a short buffer", added);
        l = good;
    }
    give_back(&good);
}

int main(int arguments, char **names)
{
    int i, round;
    for (i = 1; i < arguments; i++) {
        if (!read_stream(names[i])) {
            continue;
        }
        for (round = 0; round < ROUNDS; round++) {
            compare_tiles();
            count_recording();
            check_refused();
            if (round % 8 == 0) {
                check_files();
            }
        }
        refuse_all_tiles();
        refuse_all_checks();
        census_cases();
    }
    expect("all is tried", maps_compared > 0 && files_checked > 0 && recordings_counted > 0 && refused > 0);
    printf("%zu maps, %zu files checked, %zu recordings counted, with %zu refused packets\n", maps_compared, files_checked,
           recordings_counted, refused);
    return 0;
}
