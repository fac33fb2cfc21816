/*
 * Writes the frames of a shot, whole as they are coded, as a YUV4MPEG2 stream to the standard output.
 *
 *   cc y4m.c decoder.c recording.c $(pkg-config --cflags --libs wedgepetal ogg) -o y4m
 *   ./y4m SHOT.ogv | ffplay -
 *
 * It ends with 1 if a packet was refused or is missing, so that the stream is shorter than the shot, and with 2 if there
 * is nothing to decode or it cannot be written.
 */
#include <stdio.h>
#include <stdlib.h>

#include "decoder.h"

/* Writes so many bytes. 1 if that went well. */
static int write_out(const uint8_t *bytes, uint64_t length)
{
    return fwrite(bytes, 1, length, stdout) == length;
}

/* Writes header and frames. room has so many bytes as a frame of the stream takes. */
static int play(struct decoder *d, struct recording *shot, uint8_t *room, size_t room_length)
{
    uint64_t answer[WEDGEPETAL_ANSWER_NUMBERS], written[1];
    uint8_t header[WEDGEPETAL_Y4M_HEADER_BYTES];
    const uint8_t *packet;
    size_t length;
    int status = 0, next;
    wedgepetal_y4m_header(d->session, WEDGEPETAL_SESSION_NUMBERS, header, sizeof header, written, 1);
    if (!write_out(header, written[0])) {
        return 2;
    }
    while ((next = recording_next(shot, &packet, &length)) != 0) {
        if (next < 0) {
            decoder_restart(d);
            status = 1;
        } else if (decoder_next(d, packet, length, answer) != 0) {
            fprintf(stderr, "%s\n", wedgepetal_refusal_text((uint32_t)answer[WEDGEPETAL_NUMBER]));
            status = 1;
        } else {
            wedgepetal_y4m_frame(d->session, WEDGEPETAL_SESSION_NUMBERS, d->previous, d->sizes[WEDGEPETAL_BUFFER], room,
                                 room_length, written, 1);
            if (!write_out(room, written[0])) {
                return 2;
            }
        }
    }
    return fflush(stdout) == 0 ? status : 2;
}

int main(int argc, char **argv)
{
    static struct decoder d;
    struct recording *shot = argc == 2 ? recording_open(argv[1]) : NULL;
    int status = 2;
    if (shot == NULL) {
        fprintf(stderr, "usage: y4m SHOT.ogv, which is a recording\n");
        return 2;
    }
    if (decoder_begin(&d, shot)) {
        size_t room_length = 6 + d.sizes[WEDGEPETAL_BUFFER];
        uint8_t *room = (uint8_t *)malloc(room_length);
        if (room != NULL) {
            status = play(&d, shot, room, room_length);
        }
        free(room);
    }
    decoder_end(&d);
    recording_close(shot);
    return status;
}
