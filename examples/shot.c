/*
 * Decodes a shot and says what each packet is: its kind, its qi, a fingerprint of its planes, how many tokens it has.
 *
 *   cc shot.c decoder.c recording.c $(pkg-config --cflags --libs wedgepetal ogg) -o shot
 *   ./shot SHOT.ogv
 *
 * It ends with 1 if a packet was refused or is missing, and with 2 if there is nothing to decode.
 */
#include <stdio.h>

#include "decoder.h"

/* FNV-1a over the three planes: the same frame has the same fingerprint. */
static uint64_t fingerprint(const struct decoder *d)
{
    uint64_t hash = UINT64_C(0xCBF29CE484222325);
    size_t i;
    for (i = 0; i < d->sizes[WEDGEPETAL_BUFFER]; i++) {
        hash = (hash ^ d->previous[i]) * UINT64_C(0x100000001B3);
    }
    return hash;
}

static void say_frame(const struct decoder *d, unsigned long packet, const uint64_t *answer)
{
    static const char *const kinds[] = {"intra", "inter", "repeat"};
    unsigned i;
    printf("frame %lu %s ", packet, kinds[answer[WEDGEPETAL_KIND]]);
    for (i = 0; i < answer[WEDGEPETAL_QI_COUNT]; i++) {
        printf("%s%u", i == 0 ? "" : ",", (unsigned)answer[WEDGEPETAL_QIS + i]);
    }
    printf("%s %016llx %llu\n", i == 0 ? "-" : "", (unsigned long long)fingerprint(d),
           (unsigned long long)answer[WEDGEPETAL_TOKENS]);
}

/* Decodes all frames. 0 if every packet was there and accepted. */
static int play(struct decoder *d, struct recording *shot)
{
    uint64_t answer[WEDGEPETAL_ANSWER_NUMBERS];
    const uint8_t *bytes;
    size_t length;
    unsigned long packet = 3;
    uint32_t number;
    int status = 0, next;
    while ((next = recording_next(shot, &bytes, &length)) != 0) {
        if (next < 0) {
            printf("packets are missing before packet %lu\n", packet);
            decoder_restart(d);
            status = 1;
            continue;
        }
        number = decoder_next(d, bytes, length, answer);
        if (number == 0) {
            say_frame(d, packet, answer);
        } else {
            printf("frame %lu refused %u at %llu: %s\n", packet, (unsigned)number,
                   (unsigned long long)answer[WEDGEPETAL_PLACE], wedgepetal_refusal_text(number));
            status = 1;
        }
        packet++;
    }
    return status;
}

int main(int argc, char **argv)
{
    static struct decoder d;
    struct recording *shot;
    int status = 2;
    if (argc != 2) {
        fprintf(stderr, "usage: shot SHOT.ogv\n");
        return 2;
    }
    shot = recording_open(argv[1]);
    if (shot == NULL) {
        fprintf(stderr, "%s: no recording\n", argv[1]);
        return 2;
    }
    if (decoder_begin(&d, shot)) {
        status = play(&d, shot);
    }
    decoder_end(&d);
    recording_close(shot);
    return status;
}
