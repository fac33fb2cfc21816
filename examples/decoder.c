#include "decoder.h"

#include <stdio.h>
#include <stdlib.h>

/* Says a refusal, found at this bit of a packet. Gives 0. */
static int refused(const char *what, uint32_t number, uint64_t place)
{
    fprintf(stderr, "%s: refused by %u, %s, at bit %llu\n", what, (unsigned)number, wedgepetal_refusal_text(number),
            (unsigned long long)place);
    return 0;
}

/* Reads the next header packet. */
static int next_header(struct recording *shot, const uint8_t **packet, size_t *length)
{
    if (recording_next(shot, packet, length) == 1) {
        return 1;
    }
    fprintf(stderr, "its headers are not whole\n");
    return 0;
}

/* Reads the three header packets; the second, with comments, is for people. */
static int read_headers(struct decoder *d, struct recording *shot)
{
    const uint8_t *packet;
    size_t length;
    uint64_t place[1];
    uint32_t number;
    if (!next_header(shot, &packet, &length)) {
        return 0;
    }
    number = wedgepetal_identification(packet, length, d->session, WEDGEPETAL_SESSION_NUMBERS, place, 1);
    if (number != 0) {
        return refused("identification header", number, place[0]);
    }
    if (!next_header(shot, &packet, &length) || !next_header(shot, &packet, &length)) {
        return 0;
    }
    number = wedgepetal_setup(packet, length, d->table, WEDGEPETAL_TABLE_BYTES, place, 1);
    return number == 0 ? 1 : refused("setup header", number, place[0]);
}

/* Asks for all memory: three plane buffers and work memory. */
static int allocate(struct decoder *d)
{
    uint64_t lengths[WEDGEPETAL_LENGTH_NUMBERS];
    size_t buffer;
    wedgepetal_sizes(d->session, WEDGEPETAL_SESSION_NUMBERS, d->sizes, WEDGEPETAL_SIZE_NUMBERS);
    wedgepetal_work_lengths(d->session, WEDGEPETAL_SESSION_NUMBERS, lengths, WEDGEPETAL_LENGTH_NUMBERS);
    buffer = d->sizes[WEDGEPETAL_BUFFER];
    d->planes = (uint8_t *)calloc(3, buffer);
    d->work_memory = (uint8_t *)malloc(lengths[WEDGEPETAL_WORK_BYTES]);
    if (d->planes == NULL || d->work_memory == NULL) {
        fprintf(stderr, "no memory for frames of %llu bytes\n", (unsigned long long)buffer);
        return 0;
    }
    d->work = wedgepetal_work_in(d->work_memory, lengths);
    d->previous = d->planes;
    return 1;
}

/* A packet is a shot of one. Many packets, joined together, could be decoded at once: then only the last frames are
 * left. */
uint32_t decoder_next(struct decoder *d, const uint8_t *packet, size_t length, uint64_t *answer)
{
    size_t buffer = d->sizes[WEDGEPETAL_BUFFER];
    uint64_t lengths[1];
    uint32_t number;
    lengths[0] = length;
    number = wedgepetal_shot_in(&d->work, d->session, d->names, lengths, 1, packet, length, d->table, d->planes,
                                buffer, answer);
    if (number != 0) {
        return number;
    }
    if (answer[WEDGEPETAL_NUMBER] == 0) {
        d->previous = d->planes + d->names[WEDGEPETAL_PREVIOUS] * buffer;
    }
    return (uint32_t)answer[WEDGEPETAL_NUMBER];
}

int decoder_begin(struct decoder *d, struct recording *shot)
{
    d->planes = d->work_memory = NULL;
    return read_headers(d, shot) && allocate(d);
}

void decoder_restart(struct decoder *d)
{
    d->session[WEDGEPETAL_REFERENCES] = 0;
}

void decoder_end(struct decoder *d)
{
    free(d->planes);
    free(d->work_memory);
}
