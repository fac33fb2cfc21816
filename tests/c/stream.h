/*
 * What the C programs over the stored streams of crates/play share: random numbers that are the same in every run, lent
 * memory that holds anything, and a stream's packets. A stream is a packet's length in 4 bytes, the least significant
 * first, and its bytes.
 */
#ifndef STREAM_H
#define STREAM_H

#include <stdio.h>
#include <stdlib.h>
#include <string.h>

#include "wedgepetal.h"

enum { LONGEST = 1 << 20, PACKETS = 64 };

static uint8_t bytes[LONGEST], table[WEDGEPETAL_TABLE_BYTES];
static uint64_t fresh[WEDGEPETAL_SESSION_NUMBERS], place[1];
static const uint8_t *headers[3], *packets[PACKETS];
static size_t header_lengths[3], packet_lengths[PACKETS];
static size_t count, buffer, calls;

/* The same numbers in every run. */
static uint64_t state = 0x9E3779B97F4A7C15u;
static uint64_t any(uint64_t below)
{
    state ^= state << 13;
    state ^= state >> 7;
    state ^= state << 17;
    return state % below;
}

static void fill(void *memory, size_t length)
{
    uint8_t *to = memory;
    size_t i;
    for (i = 0; i < length; i++) {
        to[i] = (uint8_t)any(256);
    }
}

static void *lend(size_t length)
{
    void *memory = malloc(length == 0 ? 1 : length);
    if (memory == NULL) {
        abort();
    }
    fill(memory, length);
    return memory;
}

static void expect(const char *what, int holds)
{
    if (!holds) {
        fprintf(stderr, "%s: not so (call %zu)\n", what, calls);
        exit(1);
    }
}

static int is_zero(const uint8_t *memory, size_t length)
{
    while (length > 0 && memory[length - 1] == 0) {
        length--;
    }
    return length == 0;
}

/* Reads a stream: 1, or 0 if its headers are refused, it has no frame packets or its frames are too large. */
static int read_stream(const char *name)
{
    uint64_t sizes[WEDGEPETAL_SIZE_NUMBERS];
    size_t length, at, read = 0;
    FILE *file = fopen(name, "rb");
    if (file == NULL) {
        perror(name);
        exit(2);
    }
    length = fread(bytes, 1, LONGEST, file);
    fclose(file);
    count = 0;
    for (at = 0; at + 4 <= length && count < PACKETS; read++) {
        size_t n = bytes[at] + 256u * bytes[at + 1] + 65536u * bytes[at + 2];
        const uint8_t *packet = bytes + at + 4;
        if (read < 3) {
            headers[read] = packet;
            header_lengths[read] = n;
        } else {
            packets[count] = packet;
            packet_lengths[count++] = n;
        }
        at += 4 + n;
    }
    if (count == 0 ||
        wedgepetal_identification(headers[0], header_lengths[0], fresh, WEDGEPETAL_SESSION_NUMBERS, place, 1) != 0 ||
        wedgepetal_setup(headers[2], header_lengths[2], table, sizeof table, place, 1) != 0 ||
        wedgepetal_sizes(fresh, WEDGEPETAL_SESSION_NUMBERS, sizes, WEDGEPETAL_SIZE_NUMBERS) != 0) {
        return 0;
    }
    buffer = sizes[WEDGEPETAL_BUFFER];
    return buffer < LONGEST;
}

#endif
