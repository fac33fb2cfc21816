/* The packets of a recording's first Theora stream, one after the other: of an Ogg file, through libogg, or of a packet
 * file (each packet as its length in 4 bytes, the least significant first, and its bytes). */
#ifndef RECORDING_H
#define RECORDING_H

#include <stddef.h>
#include <stdint.h>

struct recording;

/* NULL if the file cannot be read or holds no such stream. */
struct recording *recording_open(const char *path);

/* 1: the next packet, which lives until the next call. 0: the stream's end. -1: packets are damaged or missing here, or
 * the recording is cut short; what follows may only be decoded from the next key frame on. */
int recording_next(struct recording *recording, const uint8_t **packet, size_t *length);

void recording_close(struct recording *recording);

#endif
