/*
 * Hashes of raw frames from the standard input, one line for each:
 *
 *   rawhash WIDTH HEIGHT FORMAT      (format 0 is 4:2:0, 2 is 4:2:2, 3 is 4:4:4)
 */
#include "hash.h"

#include <inttypes.h>
#include <stdio.h>
#include <stdlib.h>

int main(int count, char **words)
{
    size_t width[3], height[3], length = 0;
    unsigned char *frame;
    if (count != 4) {
        fprintf(stderr, "usage: rawhash WIDTH HEIGHT FORMAT\n");
        return 2;
    }
    for (int p = 0; p < 3; p++) {
        int format = atoi(words[3]);
        width[p] = strtoul(words[1], NULL, 10);
        height[p] = strtoul(words[2], NULL, 10);
        if (p > 0 && format != 3) {
            width[p] = (width[p] + 1) / 2;
        }
        if (p > 0 && format == 0) {
            height[p] = (height[p] + 1) / 2;
        }
        length += width[p] * height[p];
    }
    frame = malloc(length);
    if (frame == NULL || length == 0) {
        fprintf(stderr, "rawhash: no memory\n");
        return 1;
    }
    while (fread(frame, 1, length, stdin) == length) {
        uint64_t hash = HASH_START;
        const unsigned char *plane = frame;
        for (int p = 0; p < 3; p++) {
            hash = hash_plane(hash, plane, (ptrdiff_t)width[p], width[p], height[p]);
            plane += width[p] * height[p];
        }
        printf("%016" PRIx64 "\n", hash);
    }
    free(frame);
    return 0;
}
