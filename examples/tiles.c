/*
 * Says of each frame of a shot which tiles changed: how many, and a picture of letters, the top row first.
 *
 *   cc tiles.c decoder.c recording.c $(pkg-config --cflags --libs wedgepetal ogg) -o tiles
 *   ./tiles SHOT.ogv SIDE
 *
 * SIDE is 8, 16 or 32 samples of Y'. It ends with 1 if a packet was refused or is missing, and with 2 if there is nothing to
 * decode.
 */
#include <stdio.h>
#include <stdlib.h>

#include "decoder.h"

static void say_map(const uint8_t *map, size_t columns, size_t rows)
{
    size_t x, y;
    for (y = rows; y > 0; y--) {
        for (x = 0; x < columns; x++) {
            putchar(map[(y - 1) * columns + x] == 1 ? '#' : '.');
        }
        putchar('\n');
    }
}

/* Decodes all frames with their maps. 0 if every packet was there and accepted. */
static int play(struct decoder *d, struct recording *shot, const uint64_t *settings, uint8_t *map, size_t length)
{
    size_t columns = (size_t)((16 * d->session[WEDGEPETAL_FMBW] + settings[WEDGEPETAL_TILE] - 1) / settings[WEDGEPETAL_TILE]);
    unsigned long packet = 3;
    const uint8_t *bytes;
    size_t bytes_length, i;
    int status = 0, next;
    while ((next = recording_next(shot, &bytes, &bytes_length)) != 0) {
        uint64_t answer[WEDGEPETAL_ANSWER_NUMBERS], lengths[1];
        uint32_t number;
        if (next < 0) {
            printf("packets are missing before packet %lu\n", packet);
            decoder_restart(d);
            status = 1;
            continue;
        }
        lengths[0] = bytes_length;
        number = wedgepetal_tiles_shot_in(&d->work, settings, d->session, d->names, lengths, 1, bytes, bytes_length, d->table,
                                          d->planes, (size_t)d->sizes[WEDGEPETAL_BUFFER], answer, map, length);
        number = number != 0 ? number : (uint32_t)answer[WEDGEPETAL_NUMBER];
        if (number == 0) {
            unsigned long changed = 0;
            for (i = 0; i < length; i++) {
                changed += map[i];
            }
            printf("packet %lu: %lu of %lu tiles changed\n", packet, changed, (unsigned long)length);
            say_map(map, columns, length / columns);
        } else {
            printf("packet %lu refused %u: %s\n", packet, (unsigned)number, wedgepetal_refusal_text(number));
            status = 1;
        }
        packet++;
    }
    return status;
}

int main(int argc, char **argv)
{
    static struct decoder d;
    struct recording *shot;
    uint64_t settings[WEDGEPETAL_SETTINGS_NUMBERS] = {0, 0, 0, 0}, length[1];
    uint32_t number;
    int status = 2;
    if (argc != 3) {
        fprintf(stderr, "usage: tiles SHOT.ogv SIDE\n");
        return 2;
    }
    shot = recording_open(argv[1]);
    if (shot == NULL) {
        fprintf(stderr, "%s: no recording\n", argv[1]);
        return 2;
    }
    settings[WEDGEPETAL_TILE] = strtoul(argv[2], NULL, 10);
    if (decoder_begin(&d, shot)) {
        number = wedgepetal_tiles_length(settings, WEDGEPETAL_SETTINGS_NUMBERS, d.session, WEDGEPETAL_SESSION_NUMBERS, length, 1);
        if (number != 0) {
            fprintf(stderr, "a side of %s: %s\n", argv[2], wedgepetal_refusal_text(number));
        } else {
            uint8_t *map = (uint8_t *)calloc(length[0], 1);
            if (map != NULL) {
                status = play(&d, shot, settings, map, (size_t)length[0]);
            }
            free(map);
        }
    }
    decoder_end(&d);
    recording_close(shot);
    return status;
}
