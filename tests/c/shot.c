/*
 * wedgepetal_shot beside one wedgepetal_frame for each packet, on the streams of crates/play/data.
 * Packets are damaged, emptied and left out at random; buffers, work memory and answers hold
 * random bytes; each recording is cut into shots at random. At last come the refusals.
 */
#include "stream.h"

enum { ROUNDS = 200 };

static size_t played, refused;

/* ---- a shot call with all that it is lent */

struct lent {
    uint64_t session[WEDGEPETAL_SESSION_NUMBERS], names[WEDGEPETAL_NAME_NUMBERS];
    uint64_t *lengths, *answers;
    size_t number, answers_length;
    uint8_t *joined;
    size_t joined_length;
    uint8_t *planes[3];
    size_t plane_lengths[3];
    uint8_t *memory;
    size_t memory_length;
    struct wedgepetal_work work;
};

static uint32_t call(struct lent *l)
{
    const struct wedgepetal_work *w = &l->work;
    const uint64_t *n = w->lengths;
    return wedgepetal_shot(
        l->session, WEDGEPETAL_SESSION_NUMBERS, l->names, WEDGEPETAL_NAME_NUMBERS, l->lengths,
        l->number, l->joined, l->joined_length, table, sizeof table, w->records,
        n[WEDGEPETAL_RECORDS], w->coded, n[WEDGEPETAL_CODED], w->coefs, n[WEDGEPETAL_COEFS], w->dc,
        n[WEDGEPETAL_DC], w->lasts, n[WEDGEPETAL_LASTS], w->flags, n[WEDGEPETAL_FLAGS], w->bits,
        n[WEDGEPETAL_BITS], w->supers, n[WEDGEPETAL_SUPERS], w->modes, n[WEDGEPETAL_MODES],
        w->active, n[WEDGEPETAL_ACTIVE], l->planes[0], l->plane_lengths[0], l->planes[1],
        l->plane_lengths[1], l->planes[2], l->plane_lengths[2], l->answers, l->answers_length);
}

static void lend_all(struct lent *l)
{
    uint64_t lengths[WEDGEPETAL_LENGTH_NUMBERS];
    int i;
    memcpy(l->session, fresh, sizeof fresh);
    l->names[0] = any(5);
    l->names[1] = any(5);
    l->lengths = lend(PACKETS * sizeof(uint64_t));
    l->answers = lend(8 * PACKETS * sizeof(uint64_t));
    l->joined = lend(LONGEST);
    for (i = 0; i < 3; i++) {
        l->planes[i] = lend(buffer);
        l->plane_lengths[i] = buffer;
    }
    wedgepetal_work_lengths(fresh, WEDGEPETAL_SESSION_NUMBERS, lengths, WEDGEPETAL_LENGTH_NUMBERS);
    l->memory_length = lengths[WEDGEPETAL_WORK_BYTES];
    l->memory = lend(l->memory_length);
    l->work = wedgepetal_work_in(l->memory, lengths);
}

static void give_back(struct lent *l)
{
    int i;
    for (i = 0; i < 3; i++) {
        free(l->planes[i]);
    }
    free(l->lengths);
    free(l->answers);
    free(l->joined);
    free(l->memory);
}

/* The next packets of a recording, some of them damaged, emptied or twice, joined together. */
static void join(struct lent *l, size_t number)
{
    size_t i, at = 0;
    l->number = number;
    l->answers_length = 8 * number;
    for (i = 0; i < number; i++) {
        size_t which = any(3) == 0 ? any(count) : (played + i) % count, length = packet_lengths[which];
        memcpy(l->joined + at, packets[which], length);
        if (any(6) == 0 && length > 0) {
            l->joined[at + any(length)] ^= (uint8_t)(1u << any(8));
        }
        if (any(9) == 0) {
            length = any(length + 1);
        }
        l->lengths[i] = any(9) == 0 ? 0 : length;
        at += l->lengths[i];
    }
    l->joined_length = at + any(3);
    fill(l->joined + at, l->joined_length - at);
}

/* ---- the same by frame calls */

static void compare_shot(struct lent *l)
{
    uint64_t session[WEDGEPETAL_SESSION_NUMBERS], names[2] = {l->names[0], l->names[1]}, answer[8];
    uint8_t *planes[3], *memory = lend(l->memory_length), *before = lend(l->memory_length);
    struct wedgepetal_work work;
    size_t i, at = 0;
    int k;
    memcpy(session, l->session, sizeof session);
    memcpy(before, l->memory, l->memory_length);
    work = wedgepetal_work_in(memory, l->work.lengths);
    for (k = 0; k < 3; k++) {
        planes[k] = lend(buffer);
        memcpy(planes[k], l->planes[k], buffer);
    }
    if (session[WEDGEPETAL_REFERENCES] == 0) {
        names[0] = names[1] = WEDGEPETAL_NO_BUFFER;
    }
    expect("a shot is accepted", call(l) == 0);
    for (i = 0; i < l->number; i++) {
        uint64_t new_frame = 0;
        uint32_t number;
        while (new_frame == names[0] || new_frame == names[1]) {
            new_frame++;
        }
        fill(memory, l->memory_length);
        number = wedgepetal_frame_in(&work, session, l->joined + at, l->lengths[i], table,
                                     planes[names[0] < 3 ? names[0] : 2], planes[names[1] < 3 ? names[1] : 1],
                                     planes[new_frame], buffer, answer);
        expect("answers", memcmp(answer, l->answers + 8 * i, sizeof answer) == 0);
        if (number == 0) {
            names[1] = new_frame;
            if (answer[WEDGEPETAL_KIND] == WEDGEPETAL_INTRA) {
                names[0] = new_frame;
            }
        } else {
            refused++;
        }
        at += l->lengths[i];
    }
    expect("session", memcmp(session, l->session, sizeof session) == 0);
    expect("names", names[0] == l->names[0] && names[1] == l->names[1]);
    for (k = 0; k < 3; k++) {
        expect("planes", memcmp(planes[k], l->planes[k], buffer) == 0);
        free(planes[k]);
    }
    expect("work memory", l->number == 0 ? memcmp(before, l->memory, l->memory_length) == 0
                                         : is_zero(l->memory, l->memory_length));
    free(memory);
    free(before);
    calls++;
    played += l->number;
}

/* ---- refusals: nothing changes */

static void refuse(struct lent *l, const char *what, uint32_t number)
{
    struct lent old = *l;
    uint8_t *kept[5];
    size_t lengths[5] = {buffer, buffer, buffer, l->memory_length, 8 * PACKETS * sizeof(uint64_t)};
    uint8_t *now[5];
    int i;
    now[0] = l->planes[0];
    now[1] = l->planes[1];
    now[2] = l->planes[2];
    now[3] = l->memory;
    now[4] = (uint8_t *)l->answers;
    for (i = 0; i < 5; i++) {
        kept[i] = lend(lengths[i]);
        memcpy(kept[i], now[i], lengths[i]);
    }
    expect(what, call(l) == number);
    expect(what, memcmp(old.session, l->session, sizeof old.session) == 0 &&
                     memcmp(old.names, l->names, sizeof old.names) == 0);
    for (i = 0; i < 5; i++) {
        expect(what, memcmp(kept[i], now[i], lengths[i]) == 0);
        free(kept[i]);
    }
}

static void refusals(void)
{
    struct lent l, good;
    int i;
    lend_all(&l);
    join(&l, 3);
    l.session[WEDGEPETAL_REFERENCES] = 1;
    l.names[0] = l.names[1] = 0;
    good = l;
    for (i = 0; i < 3; i++) {
        l.plane_lengths[i]--;
        refuse(&l, "a short buffer", 1);
        l = good;
    }
    for (i = 0; i < WEDGEPETAL_WORK_BYTES; i++) {
        l.work.lengths[i]--;
        refuse(&l, "a short slice", 1);
        l = good;
    }
    l.answers_length--;
    refuse(&l, "short answers", 1);
    l.names[1] = 3;
    refuse(&l, "1 before a name", 1);
    l.session[WEDGEPETAL_FMBW] = 0;
    refuse(&l, "8 before 1", 8);
    l = good;
    l.names[1] = 3;
    refuse(&l, "a name", 8);
    l.joined_length = 0;
    refuse(&l, "a name before 16", 8);
    l = good;
    table[0] ^= 1;
    refuse(&l, "a table", 8);
    table[0] ^= 1;
    l.lengths[2] += l.joined_length - l.lengths[0] - l.lengths[1] - l.lengths[2] + 1;
    refuse(&l, "one byte too many", 16);
    l.lengths[0] = l.lengths[1] = UINT64_MAX;
    l.lengths[2] = 2;
    refuse(&l, "lengths past 64 bits", 16);
    l = good;
    l.number = 0;
    l.answers_length = 0;
    refuse(&l, "no packets", 0);
    give_back(&l);
}

/* ---- recordings */

static void compare_recording(void)
{
    int round;
    for (round = 0; round < ROUNDS; round++) {
        struct lent l;
        int cut;
        lend_all(&l);
        for (cut = 0; cut < 4; cut++) {
            join(&l, any(7));
            compare_shot(&l);
        }
        if (l.session[WEDGEPETAL_REFERENCES] != 0) {
            l.names[0] = any(3);
            l.names[1] = any(3);
            l.session[WEDGEPETAL_REFERENCES] = 1;
            join(&l, any(7));
            compare_shot(&l);
        }
        give_back(&l);
    }
}

int main(int arguments, char **names)
{
    int i;
    for (i = 1; i < arguments; i++) {
        if (read_stream(names[i])) {
            compare_recording();
            refusals();
        }
    }
    expect("some shots are compared", calls > 0 && refused > 0);
    printf("%zu shots, %zu packets (%zu refused), each as by one call a packet\n", calls, played, refused);
    return 0;
}
