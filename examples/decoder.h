/* Decodes the frames of a recording, one after the other: what its headers said, and the memory that is lent to each
 * call of the library. All of it is asked for before the first frame. */
#ifndef DECODER_H
#define DECODER_H

#include <wedgepetal.h>

#include "recording.h"

struct decoder {
    uint64_t session[WEDGEPETAL_SESSION_NUMBERS];
    uint64_t sizes[WEDGEPETAL_SIZE_NUMBERS];
    uint8_t table[WEDGEPETAL_TABLE_BYTES];
    struct wedgepetal_work work;
    uint64_t names[WEDGEPETAL_NAME_NUMBERS]; /* which of the three buffers hold golden and previous */
    uint8_t *work_memory, *planes;
    const uint8_t *previous; /* the last accepted frame */
};

/* Reads the three headers and asks for memory. 1 if all went well; else it says why not, and gives 0. */
int decoder_begin(struct decoder *d, struct recording *shot);

/* Decodes a frame packet. An accepted frame lies in d->previous afterwards, as planes with the lowest row first; a
 * refusal changes nothing. */
uint32_t decoder_next(struct decoder *d, const uint8_t *packet, size_t length, uint64_t *answer);

/* Packets are missing: what follows must not be decoded on frames that are out of date. Only a key frame is accepted
 * next. */
void decoder_restart(struct decoder *d);

void decoder_end(struct decoder *d);

#endif
