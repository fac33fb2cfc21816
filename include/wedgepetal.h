/*
 * Wedgepetal: a proved Theora decoder. The face for C and other languages.
 * `make install` installs it: wedgepetal(3), pkg-config wedgepetal. examples/
 * has programs.
 *
 * A recording's first packet is its identification header, the second its
 * comment header (which no call reads), the third its setup header. All others
 * are frame packets. To decode a recording:
 *
 *   1. wedgepetal_identification reads the first packet into a session,
 *      wedgepetal_setup the third into table memory.
 *   2. wedgepetal_sizes says how long a plane buffer is, wedgepetal_work_lengths
 *      how long work memory is. The caller allocates three buffers (golden,
 *      previous and new) and work memory.
 *   3. wedgepetal_frame decodes each other packet into the new buffer;
 *      wedgepetal_frame_in, at the end, is the same with fewer arguments.
 *
 * Every call may be given any numbers and any contents. A list is a pointer
 * and the number of its elements. What is asked of lists, and of nothing else:
 *
 *   - The pointer is valid for that many elements, and not null, even for an
 *     empty list.
 *   - It is aligned as its type must be in C: bytes need nothing, uint64_t a
 *     multiple of 8. malloc gives such memory.
 *   - A list that is written overlaps no other list of the same call. Lists that
 *     are only read may overlap: golden and previous may be one buffer. If this
 *     is broken, nothing that is proved holds for the call, and it may write
 *     anywhere. Seen were wrong frames without a word (new_frame is previous) and
 *     memory faults (two slices of work memory overlap).
 *
 * The library allocates nothing, keeps nothing from call to call, has no data of
 * its own that it writes, and calls only memcpy and memset. So calls may run in
 * any number of threads at once, as long as no list that one call writes is a
 * list of another call that runs meanwhile; sessions, table memory and planes
 * that are only read may be shared. A call may be interrupted by a signal, and
 * made in its handler. It needs at most 48 KiB of stack, wedgepetal_check at most
 * 64 KiB, which a small thread must have (measured, not proved: 42 kB for a
 * shot, 33 kB for a frame, 42 kB for a check).
 *
 * Each call returns 0 if it is accepted, else the number of its refusal. Where
 * several numbers apply, they are found in this order: 1 for the session's list,
 * 8 for its numbers, 1 for any other list, 8 for the table memory, then a fault
 * of the packet, then 17 (for a picture: 18, then 14; for a shot: 16), or 255 if
 * there is no such thing as is asked for. The calls on streams of frames, on
 * settings, on tiles, of a check and of a census say their own order.
 *
 * A refusal found inside a packet (2 to 7, 9 to 13) has a place: the bit of the
 * packet, counted from 0 and from the highest bit of byte 0 on, at which the
 * field at fault begins; for a run its prefix code, for a token its Huffman
 * code, for a mode its rank code, for a vector component its first bit. A field
 * that the packet does not hold whole is at fault (4), so that a place may be 8
 * times the packet's length, the place behind it. For an empty packet it is 0.
 * All other refusals have place 0. What each call writes:
 *
 *   call            accepted              refused by 1   by another number
 *   identification  session; place: 0     nothing        place
 *   setup           table; place: 0       place: 0 (*)   place; table: all zero
 *   frame           session, new_frame,   answer (*)     answer; work memory: all zero
 *                   answer; work                         (8 for the session's numbers:
 *                   memory: all zero                     answer (*) alone)
 *   shot            session, names, one   nothing        nothing
 *                   or more buffers and
 *                   answers; work memory:
 *                   all zero (**)
 *   rgb, y4m_write, y4m_header, y4m_frame, settings_write
 *                   out, written          nothing        nothing
 *   tiles_frame     as frame, and map     as frame       as frame
 *   tiles_shot      as shot, and maps     nothing        nothing
 *   check           as setup and shot,    found, and what its own text names
 *                   and found
 *   census          report; scratch: all  scratch: all   scratch: all zero
 *                   zero                  zero           (16: nothing)
 *   y4m_read        planes, film          nothing        nothing
 *   settings_read   settings              nothing        nothing
 *   all others      their list            nothing        nothing
 *
 *   (*) nothing where the list for the place or the answer, or the session's
 *       list, has itself another length than it must have
 *  (**) nothing for a shot of no packets
 *
 * Planes are 0 (Y'), 1 (Cb) and 2 (Cr). A block has 8 by 8 samples of one
 * plane, a super block 4 by 4 blocks; a macro block has 16 by 16 samples of Y'
 * and what lies there in Cb and Cr. All are counted from the lower left corner:
 * x to the right, y up. In packets the blocks stand in coded order: super block
 * by super block, in each along a curve. A qi (0 to 63) is an index into the
 * quantization tables.
 */
#ifndef WEDGEPETAL_H
#define WEDGEPETAL_H

#include <stddef.h>
#include <stdint.h>

#ifdef __cplusplus
extern "C" {
#endif

/* The version of this header. wedgepetal_version gives the library's. */
#define WEDGEPETAL_VERSION_MAJOR 0
#define WEDGEPETAL_VERSION_MINOR 1
#define WEDGEPETAL_VERSION_PATCH 0
#define WEDGEPETAL_VERSION "0.1.0"

/* The numbers of refusals. */
enum {
    WEDGEPETAL_ACCEPTED = 0,
    WEDGEPETAL_WRONG_LENGTH = 1,    /* a lent list has another length than the published one */
    WEDGEPETAL_OTHER_HEADER = 2,    /* the type byte or "theora" is not the wanted one */
    WEDGEPETAL_OTHER_VERSION = 3,   /* VMAJ is not 3, or VMIN is not 2 */
    WEDGEPETAL_PACKET_ENDS = 4,     /* a read passes the end of the packet */
    WEDGEPETAL_OUT_OF_RANGE = 5,    /* an identification field breaks its range */
    WEDGEPETAL_BAD_FORMAT = 6,      /* PF is 1, or the 3 last identification bits are not 0 */
    WEDGEPETAL_BAD_SETUP = 7,       /* setup: NBMS above 384, a matrix index not below NBMS, a qi
                                       sum above 63, a code longer than 32, a 33rd leaf */
    WEDGEPETAL_NOT_GENUINE = 8,     /* the session's identification fields break 5, 6 or their
                                       widths, or its others are not below 2 to the power
                                       KFGSHIFT; or a shot with references, and a name that is
                                       not 0 to 2; or no accepted setup packet leaves this table
                                       memory */
    WEDGEPETAL_NO_REFERENCES = 9,   /* an inter or empty packet, and no references */
    WEDGEPETAL_NO_FRAME = 10,       /* the first bit of a frame packet is 1 */
    WEDGEPETAL_RESERVED_BITS = 11,  /* an intra frame's 3 reserved bits are not 0 */
    WEDGEPETAL_LONG_RUN = 12,       /* a run exceeds the bits still wanted */
    WEDGEPETAL_PAST_BLOCK = 13,     /* a token moves its block past position 64 */
    WEDGEPETAL_SHORT_OUTPUT = 14,   /* the lent output is too short; reading a stream: planes are */
    WEDGEPETAL_PAST_COUNT = 15,     /* a sum of a census would pass 64 bits */
    WEDGEPETAL_PAST_PACKETS = 16,   /* the lengths of packets reach past their end */
    WEDGEPETAL_UNCOUNTED = 17,      /* key frames would pass 64 bits, or others would not stay
                                       below 2 to the power KFGSHIFT; found after all else */
    WEDGEPETAL_UNKNOWN_COLOUR = 18, /* CS is neither 1 nor 2 */
    WEDGEPETAL_LATER_VERSION = 19,  /* reading for version 1: the text begins with the line
                                       version=2 */
    WEDGEPETAL_BAD_SETTINGS = 20,   /* the settings, their text or the version are not as they
                                       must be */
    WEDGEPETAL_OTHER_STREAM = 21,   /* the stream is none that wedgepetal_y4m_write writes */
    WEDGEPETAL_ABSENT = 255         /* the frame has no such block, macro block or sample, or
                                       there is no such type, plane or qi */
};

/* A session is a list of 19 numbers: the identification fields, whether
 * references (a golden and a previous frame) exist, and two numbers that give a
 * frame its place: the accepted key frames (intra frames), and the other packets
 * accepted since the last of them. In a fresh session all three are 0. */
enum {
    WEDGEPETAL_VREV,       /* revision of version 3.2 */
    WEDGEPETAL_FMBW,       /* width of the frame in macro blocks */
    WEDGEPETAL_FMBH,       /* height of the frame in macro blocks */
    WEDGEPETAL_PICW,       /* the picture, which is what should be shown of the frame: its width, */
    WEDGEPETAL_PICH,       /*   height, */
    WEDGEPETAL_PICX,       /*   distance from the left */
    WEDGEPETAL_PICY,       /*   and from the bottom, in samples of Y' */
    WEDGEPETAL_FRN,        /* frames a second: numerator */
    WEDGEPETAL_FRD,        /*   and denominator */
    WEDGEPETAL_PARN,       /* width of a sample over its height: numerator */
    WEDGEPETAL_PARD,       /*   and denominator; 0 is unknown */
    WEDGEPETAL_CS,         /* colour space */
    WEDGEPETAL_NOMBR,      /* nominal bits a second */
    WEDGEPETAL_QUAL,       /* quality hint */
    WEDGEPETAL_KFGSHIFT,   /* shift of the key frame number in a granule position */
    WEDGEPETAL_PF,         /* pixel format: 0 is 4:2:0, 2 is 4:2:2, 3 is 4:4:4 */
    WEDGEPETAL_REFERENCES, /* 0: there are none; any other number: there are */
    WEDGEPETAL_KEY_FRAMES, /* accepted key frames; any number */
    WEDGEPETAL_OTHERS,     /* accepted others since the last key frame; below 2 to the power KFGSHIFT */
    WEDGEPETAL_SESSION_NUMBERS
};

/* The sizes of a session's frames are a list of 16 numbers, of which each plane
 * has four: blocks across, blocks up, its offset in a plane buffer and its
 * length, both in bytes. sizes[WEDGEPETAL_PLANE_CB + 2] is the offset of Cb. */
enum {
    WEDGEPETAL_NMBS,   /* macro blocks */
    WEDGEPETAL_NBS,    /* blocks of the three planes */
    WEDGEPETAL_NSBS,   /* super blocks of the three planes */
    WEDGEPETAL_BUFFER, /* bytes of a plane buffer: 64 NBS */
    WEDGEPETAL_PLANE_Y,
    WEDGEPETAL_PLANE_CB = 8,
    WEDGEPETAL_PLANE_CR = 12,
    WEDGEPETAL_SIZE_NUMBERS = 16
};

/* The length of table memory in bytes, and of a quantization matrix in numbers. */
enum {
    WEDGEPETAL_TABLE_BYTES = 28184,
    WEDGEPETAL_MATRIX_NUMBERS = 64
};

/* The lengths of work memory are a list of 11 numbers: those of its ten slices
 * in elements (of the type said here), and the bytes of all of them together. */
enum {
    WEDGEPETAL_RECORDS,   /* NBS, uint32_t */
    WEDGEPETAL_CODED,     /* NBS, uint64_t */
    WEDGEPETAL_COEFS,     /* 64 NBS, int16_t */
    WEDGEPETAL_DC,        /* NBS, int16_t */
    WEDGEPETAL_LASTS,     /* NBS, uint8_t */
    WEDGEPETAL_FLAGS,     /* NBS, uint8_t */
    WEDGEPETAL_BITS,      /* NBS, uint8_t */
    WEDGEPETAL_SUPERS,    /* 2 NSBS, uint8_t */
    WEDGEPETAL_MODES,     /* NMBS, uint8_t */
    WEDGEPETAL_ACTIVE,    /* NBS, uint64_t */
    WEDGEPETAL_WORK_BYTES,
    WEDGEPETAL_LENGTH_NUMBERS
};

/* The answer of a frame is a list of 8 numbers. After a refusal all but the
 * first two are 0. */
enum {
    WEDGEPETAL_NUMBER,   /* what the call returns: 0, or the number of the refusal */
    WEDGEPETAL_PLACE,    /* the place of the refusal, 0 if there is none */
    WEDGEPETAL_KIND,     /* one of the three kinds */
    WEDGEPETAL_QI_COUNT, /* how many qi it has: 1 to 3, or 0 for a repeat */
    WEDGEPETAL_QIS,      /* the first of three numbers: these qi, then zeros */
    WEDGEPETAL_TOKENS = 7, /* how many coefficient tokens were read, those that end blocks
                              included: at most 64 for each coded block, 0 for a repeat */
    WEDGEPETAL_ANSWER_NUMBERS
};

/* The kinds of a frame: coded by itself, coded as a change of other frames, the
 * previous frame again (an empty packet). */
enum { WEDGEPETAL_INTRA, WEDGEPETAL_INTER, WEDGEPETAL_REPEAT };

/* ---- Words. These two calls are in the library that `make` builds, static or
 * shared, beside the proved objects of dist/, which are there unchanged. */

/* The version of the library that runs, as WEDGEPETAL_VERSION is the header's. It
 * has the same major number if they fit. */
const char *wedgepetal_version(void);

/* What the number of a refusal means, in English; for 0, and for a number that
 * no call answers, it says so. The text lives as long as the library. */
const char *wedgepetal_refusal_text(uint32_t number);

/* ---- Headers and sizes. How many numbers a list must have stands behind it. */

/* Reads an identification header; session (19) receives a fresh session, which
 * has no references. Refused by 1 to 6; place (1) receives the refusal's place. */
uint32_t wedgepetal_identification(const uint8_t *packet, size_t packet_length,
                                   uint64_t *session, size_t session_length,
                                   uint64_t *place, size_t place_length);

/* The sizes of a session's frames (16). This call and the next six take a
 * session (19) and are refused by 1 and 8, and the six by 255 if the frame does
 * not have what they ask for. */
uint32_t wedgepetal_sizes(const uint64_t *session, size_t session_length,
                          uint64_t *sizes, size_t sizes_length);

/* The block that is this number in coded order, from 0: plane, x, y (3). */
uint32_t wedgepetal_block_at(const uint64_t *session, size_t session_length, uint64_t number,
                             uint64_t *block, size_t block_length);

/* The number in coded order of block (x, y) of a plane (1). */
uint32_t wedgepetal_block_number(const uint64_t *session, size_t session_length,
                                 uint64_t plane, uint64_t x, uint64_t y,
                                 uint64_t *number, size_t number_length);

/* The macro block that is this number in coded order, from 0: x, y (2). */
uint32_t wedgepetal_macro_block_at(const uint64_t *session, size_t session_length, uint64_t number,
                                   uint64_t *place, size_t place_length);

/* The number in coded order of macro block (x, y) (1). */
uint32_t wedgepetal_macro_block_number(const uint64_t *session, size_t session_length,
                                       uint64_t x, uint64_t y,
                                       uint64_t *number, size_t number_length);

/* The macro block that block (x, y) of a plane belongs to: x, y (2). */
uint32_t wedgepetal_macro_block_of(const uint64_t *session, size_t session_length,
                                   uint64_t plane, uint64_t x, uint64_t y,
                                   uint64_t *place, size_t place_length);

/* At which byte of a plane buffer sample (column, row) of block (x, y) of a
 * plane lies (1); columns and rows are 0 to 7, row 0 the lowest. */
uint32_t wedgepetal_sample_offset(const uint64_t *session, size_t session_length,
                                  uint64_t plane, uint64_t x, uint64_t y,
                                  uint64_t column, uint64_t row,
                                  uint64_t *offset, size_t offset_length);

/* Reads a setup header into table memory of WEDGEPETAL_TABLE_BYTES bytes. All
 * of it is fixed by the packet alone: what was read if it is accepted, all zero
 * if it is refused (2, 4 or 7). Refused by 1 it is untouched. place (1) receives
 * the refusal's place. */
uint32_t wedgepetal_setup(const uint8_t *packet, size_t packet_length,
                          uint8_t *table, size_t table_length,
                          uint64_t *place, size_t place_length);

/* Whether some accepted setup packet leaves this table memory: 0 if so, else 8
 * (1 if it has another length). */
uint32_t wedgepetal_table(const uint8_t *table, size_t table_length);

/* The loop filter's limit for a qi (1). This call and the next are refused by 1
 * and 8, and by 255 if there is no such qi, type or plane. */
uint32_t wedgepetal_loop_limit(const uint8_t *table, size_t table_length, uint64_t qi,
                               uint64_t *limit, size_t limit_length);

/* The quantization matrix of a type (0 intra, 1 inter), plane and qi (64), in
 * natural order: row by row, not along the zig-zag. */
uint32_t wedgepetal_matrix(const uint8_t *table, size_t table_length,
                           uint64_t type, uint64_t plane, uint64_t qi,
                           uint64_t *matrix, size_t matrix_length);

/* ---- Frames. */

/* The lengths of work memory for a session's frames (11). Refused by 1 and 8. */
uint32_t wedgepetal_work_lengths(const uint64_t *session, size_t session_length,
                                 uint64_t *lengths, size_t lengths_length);

/* Decodes a frame packet.
 *
 * session  (19 numbers) after an accepted intra frame its reference number is
 *          1, its key frames are one more and its others 0; after another accepted
 *          frame its others are one more; after a refusal it is as it was
 * packet   the packet; an empty one repeats the previous frame
 * table    (WEDGEPETAL_TABLE_BYTES bytes) what wedgepetal_setup left; only read
 * records to active
 *          work memory, of the lengths that wedgepetal_work_lengths gives. It
 *          may hold anything, and keeps nothing for the next call. Once all
 *          lengths are found right it is all zero after the call, also if that
 *          is then refused; before that (1, or 8 for the session) it is as it was
 * golden, previous
 *          (64 NBS bytes each) the planes of the golden frame, which is the last
 *          intra frame, and of the previous frame; only read, so that both may
 *          be the same buffer. Without references they may hold anything
 * new_frame
 *          (64 NBS bytes) receives the planes of an accepted frame: plane 0
 *          first, in each plane the lowest row first. The whole frame is there;
 *          the caller cuts the picture out of it. It must be another buffer than
 *          golden and previous
 * answer   (8 numbers) receives the answer, also of a refusal
 *
 * After an accepted intra frame the caller takes new_frame for golden and
 * previous, after another accepted frame for previous; after a refusal all
 * stays as it is, and the next packet may be tried. With three buffers nothing
 * need be copied: the next new_frame is one that is neither golden nor previous.
 *
 * Refusals, in the order in which they are found: 1 for the session's list, 8
 * for its fields and its others, 1 for any other list, 8 for the table memory,
 * then 4 and 9 to 13 for the first fault in the packet, then 17. A refused call
 * leaves session and new_frame as they were. */
uint32_t wedgepetal_frame(uint64_t *session, size_t session_length,
                          const uint8_t *packet, size_t packet_length,
                          const uint8_t *table, size_t table_length,
                          uint32_t *records, size_t records_length,
                          uint64_t *coded, size_t coded_length,
                          int16_t *coefs, size_t coefs_length,
                          int16_t *dc, size_t dc_length,
                          uint8_t *lasts, size_t lasts_length,
                          uint8_t *flags, size_t flags_length,
                          uint8_t *bits, size_t bits_length,
                          uint8_t *supers, size_t supers_length,
                          uint8_t *modes, size_t modes_length,
                          uint64_t *active, size_t active_length,
                          const uint8_t *golden, size_t golden_length,
                          const uint8_t *previous, size_t previous_length,
                          uint8_t *new_frame, size_t new_frame_length,
                          uint64_t *answer, size_t answer_length);

/* ---- Shots. */

/* The names of a shot's buffers are a list of 2 numbers: which of the three
 * buffers, 0 to 2, holds golden and which previous. Without references both are
 * WEDGEPETAL_NO_BUFFER in the answer, and ignored in what is lent. */
enum { WEDGEPETAL_GOLDEN, WEDGEPETAL_PREVIOUS, WEDGEPETAL_NAME_NUMBERS };
enum { WEDGEPETAL_NO_BUFFER = 3 };

/* Decodes all packets of a shot, in order: what one wedgepetal_frame for each
 * would give, refused packets included. Table memory is tested once, and work
 * memory cleared once.
 *
 * session  (19 numbers) as wedgepetal_frame leaves it after the last packet; a
 *          reference number that says yes already stays
 * names    (2 numbers) where golden and previous lie, before and after
 * lengths  the lengths of the packets in bytes; 0 is an empty packet
 * packets  the packets, joined together; bytes behind the last are ignored
 * table    (WEDGEPETAL_TABLE_BYTES bytes) what wedgepetal_setup left; only read
 * records to active
 *          work memory, as for wedgepetal_frame
 * first, second, third
 *          (64 NBS bytes each) buffers 0 to 2. Each new frame goes into the
 *          first that holds neither golden nor previous: buffer 0 without
 *          references
 * answers  (8 numbers for each packet) receives the answer of each packet, as
 *          of wedgepetal_frame, also of a refused one
 *
 * Returns 0, whatever the packets answer, or refuses the whole shot, in this
 * order: 1 for the lists of the session and the names, 8 for the session's
 * fields and its others, 1 for any other list, 8 for a name and for the table
 * memory, 16 if the lengths reach past the packets' end. A refused shot writes
 * nothing, and a shot of no packets changes nothing but the names (to
 * WEDGEPETAL_NO_BUFFER without references). */
uint32_t wedgepetal_shot(uint64_t *session, size_t session_length,
                         uint64_t *names, size_t names_length,
                         const uint64_t *lengths, size_t lengths_length,
                         const uint8_t *packets, size_t packets_length,
                         const uint8_t *table, size_t table_length,
                         uint32_t *records, size_t records_length,
                         uint64_t *coded, size_t coded_length,
                         int16_t *coefs, size_t coefs_length,
                         int16_t *dc, size_t dc_length,
                         uint8_t *lasts, size_t lasts_length,
                         uint8_t *flags, size_t flags_length,
                         uint8_t *bits, size_t bits_length,
                         uint8_t *supers, size_t supers_length,
                         uint8_t *modes, size_t modes_length,
                         uint64_t *active, size_t active_length,
                         uint8_t *first, size_t first_length,
                         uint8_t *second, size_t second_length,
                         uint8_t *third, size_t third_length,
                         uint64_t *answers, size_t answers_length);

/* ---- What is made of a decoded frame. */

/* A frame in red, green and blue, by Rec. 470M: three bytes a pixel, R, G, B,
 * the whole coded frame (16 FMBW by 16 FMBH), the top row first; subsampled
 * chroma is repeated. A chroma and a luma contribution are each rounded to
 * 1/65536 of a step before they are added, so that a byte lies within 6/10 of
 * the exact value.
 *
 * session  (19 numbers) CS must be 1 or 2. Where a recording says 0 (unknown),
 *          the caller may put the number in that he knows to be right
 * planes   (64 NBS bytes) the planes of a frame, as wedgepetal_frame leaves them
 * out      at least 768 NMBS bytes; those behind the picture stay
 * written  (1 number) receives how many bytes were written, 768 NMBS
 *
 * Refusals, in the order in which they are found: 1 for the session's list, 8
 * for its fields, 1 for the list of the answer, 1 for planes, 18, 14. A refused
 * call writes nothing. */
uint32_t wedgepetal_rgb(const uint64_t *session, size_t session_length,
                        const uint8_t *planes, size_t planes_length,
                        uint8_t *out, size_t out_length,
                        uint64_t *written, size_t written_length);

/* ---- Frames as a YUV4MPEG2 stream.
 *
 * A stream is a header line and then, for each frame, the line FRAME and the
 * planes Y', Cb, Cr, in each the top row first: the whole coded frame, not the
 * picture. Sizes, frame rate and aspect are the session's, not reduced; if either
 * aspect number is 0 the header says A0:0. For 16 by 16 samples in 4:2:0 at 25/1,
 * of unknown aspect, it is
 *
 *   YUV4MPEG2 W16 H16 F25:1 Ip A0:0 C420jpeg
 *
 * A stream of n frames has the header's bytes and n times 6 + 64 NBS. The header
 * and then each frame, written by the last two of the writing calls, are the same
 * bytes as the stream written by the first: a shot need not lie in memory whole.
 * Refusals of these three, in the order in which they are found: 1 for the
 * session's list, 8 for its fields, 1 for the list of the answer, 1 for frames or
 * planes, 14. A refused call writes nothing. */

/* The longest header, in bytes. */
enum { WEDGEPETAL_Y4M_HEADER_BYTES = 82 };

/* What a stream holds is a list of 8 numbers. */
enum {
    WEDGEPETAL_FILM_WIDTH,  /* of a frame in samples of Y', a multiple of 16 */
    WEDGEPETAL_FILM_HEIGHT, /* likewise */
    WEDGEPETAL_FILM_FRN,    /* frames a second: numerator */
    WEDGEPETAL_FILM_FRD,    /*   and denominator */
    WEDGEPETAL_FILM_PARN,   /* width of a sample over its height: numerator */
    WEDGEPETAL_FILM_PARD,   /*   and denominator; both are 0 if it is unknown */
    WEDGEPETAL_FILM_PF,     /* pixel format: 0 is 4:2:0, 2 is 4:2:2, 3 is 4:4:4 */
    WEDGEPETAL_FILM_FRAMES, /* how many frames */
    WEDGEPETAL_FILM_NUMBERS
};

/* Writes a stream of frames.
 *
 * session  (19 numbers) what the header says is taken from it
 * frames   the planes of no frame or more, as wedgepetal_frame leaves them, frame
 *          after frame: a multiple of 64 NBS bytes
 * out      at least as many bytes as the stream has; those behind it stay
 * written  (1 number) receives how many bytes were written */
uint32_t wedgepetal_y4m_write(const uint64_t *session, size_t session_length,
                              const uint8_t *frames, size_t frames_length,
                              uint8_t *out, size_t out_length,
                              uint64_t *written, size_t written_length);

/* Writes the header of a session's stream, at most WEDGEPETAL_Y4M_HEADER_BYTES
 * bytes, which is a stream of no frames. */
uint32_t wedgepetal_y4m_header(const uint64_t *session, size_t session_length,
                               uint8_t *out, size_t out_length,
                               uint64_t *written, size_t written_length);

/* Writes one frame of a session's stream, 6 + 64 NBS bytes; planes must have
 * 64 NBS. */
uint32_t wedgepetal_y4m_frame(const uint64_t *session, size_t session_length,
                              const uint8_t *planes, size_t planes_length,
                              uint8_t *out, size_t out_length,
                              uint64_t *written, size_t written_length);

/* Reads a stream.
 *
 * stream   the whole stream; accepted are exactly those that wedgepetal_y4m_write
 *          writes for some session
 * planes   receives the planes of its frames, frame after frame, as the writer
 *          takes them; at least 64 NBS bytes for each. Those behind them stay
 * film     (8 numbers) receives what the stream holds
 *
 * Refusals, in the order in which they are found: 1 for film, 21, 14 for planes.
 * A refused call writes nothing. So with planes of no bytes the answer is 21 if it
 * is no such stream, 14 if it is one with frames, 0 if it is a header alone. */
uint32_t wedgepetal_y4m_read(const uint8_t *stream, size_t stream_length,
                             uint8_t *planes, size_t planes_length,
                             uint64_t *film, size_t film_length);

/* ---- Settings of the scoring scripts, as texts of version 1 and 2.
 *
 * version=1, tile=8, shot_first=0 and shot_last=9 are the lines of a text of
 * version 1, each with a line feed; version 2 has a last line plane=0 more. A
 * value has one text in each version that can hold it; version 1 holds those with
 * plane 0. Numbers have no leading zeros. */

/* The longest text, in bytes. */
enum { WEDGEPETAL_SETTINGS_BYTES = 61 };

/* Settings are a list of 4 numbers. */
enum {
    WEDGEPETAL_TILE,       /* 8, 16 or 32 */
    WEDGEPETAL_SHOT_FIRST, /* 0 to shot_last */
    WEDGEPETAL_SHOT_LAST,  /* 0 to 999,999 */
    WEDGEPETAL_PLANE,      /* 0 to 2 */
    WEDGEPETAL_SETTINGS_NUMBERS
};

/* Writes the text of settings (4 numbers) in a version to out; bytes behind it
 * stay. written (1 number) receives how many bytes it has. Refusals, in the order
 * in which they are found: 1 for the lists of settings and of the answer, 20 for
 * values out of range, plane 1 or 2 as version 1, and versions other than 1 and 2,
 * 14. A refused call writes nothing. */
uint32_t wedgepetal_settings_write(uint64_t version,
                                   const uint64_t *settings, size_t settings_length,
                                   uint8_t *out, size_t out_length,
                                   uint64_t *written, size_t written_length);

/* Reads a text of settings for a version into the settings in use (4 numbers).
 * The reader for version 2 takes texts of version 1 too, as plane 0. Refusals: 1
 * for the list of settings; 19 by the reader for version 1, if the text begins with
 * the line version=2 and its line feed; 20 for any other fault of the text, and for
 * versions other than 1 and 2. The settings in use are then as they were. */
uint32_t wedgepetal_settings_read(uint64_t version, const uint8_t *text, size_t text_length,
                                  uint64_t *settings, size_t settings_length);

/* ---- For callers that lend work memory in one piece. Nothing is allocated. */

/* The slices of work memory and their lengths. */
struct wedgepetal_work {
    uint32_t *records;
    uint64_t *coded;
    int16_t *coefs;
    int16_t *dc;
    uint8_t *lasts;
    uint8_t *flags;
    uint8_t *bits;
    uint8_t *supers;
    uint8_t *modes;
    uint64_t *active;
    uint64_t lengths[WEDGEPETAL_LENGTH_NUMBERS];
};

/* Cuts memory into the slices, by the lengths that wedgepetal_work_lengths gave.
 * It has lengths[WEDGEPETAL_WORK_BYTES] bytes, and its address is a multiple of
 * 8, as malloc gives it. */
static inline struct wedgepetal_work wedgepetal_work_in(void *memory, const uint64_t *lengths)
{
    struct wedgepetal_work work;
    int i;
    work.coded = (uint64_t *)memory;
    work.active = work.coded + lengths[WEDGEPETAL_CODED];
    work.records = (uint32_t *)(work.active + lengths[WEDGEPETAL_ACTIVE]);
    work.coefs = (int16_t *)(work.records + lengths[WEDGEPETAL_RECORDS]);
    work.dc = work.coefs + lengths[WEDGEPETAL_COEFS];
    work.lasts = (uint8_t *)(work.dc + lengths[WEDGEPETAL_DC]);
    work.flags = work.lasts + lengths[WEDGEPETAL_LASTS];
    work.bits = work.flags + lengths[WEDGEPETAL_FLAGS];
    work.supers = work.bits + lengths[WEDGEPETAL_BITS];
    work.modes = work.supers + lengths[WEDGEPETAL_SUPERS];
    for (i = 0; i < WEDGEPETAL_LENGTH_NUMBERS; i++) {
        work.lengths[i] = lengths[i];
    }
    return work;
}

/* wedgepetal_frame with these slices. The three buffers have buffer_length
 * bytes each, sizes[WEDGEPETAL_BUFFER]; session, table and answer have the
 * lengths that they must have. */
static inline uint32_t wedgepetal_frame_in(const struct wedgepetal_work *work, uint64_t *session,
                                           const uint8_t *packet, size_t packet_length,
                                           const uint8_t *table, const uint8_t *golden,
                                           const uint8_t *previous, uint8_t *new_frame,
                                           size_t buffer_length, uint64_t *answer)
{
    const uint64_t *n = work->lengths;
    return wedgepetal_frame(session, WEDGEPETAL_SESSION_NUMBERS, packet, packet_length, table,
                            WEDGEPETAL_TABLE_BYTES, work->records, n[WEDGEPETAL_RECORDS],
                            work->coded, n[WEDGEPETAL_CODED], work->coefs, n[WEDGEPETAL_COEFS],
                            work->dc, n[WEDGEPETAL_DC], work->lasts, n[WEDGEPETAL_LASTS],
                            work->flags, n[WEDGEPETAL_FLAGS], work->bits, n[WEDGEPETAL_BITS],
                            work->supers, n[WEDGEPETAL_SUPERS], work->modes, n[WEDGEPETAL_MODES],
                            work->active, n[WEDGEPETAL_ACTIVE], golden, buffer_length, previous,
                            buffer_length, new_frame, buffer_length, answer,
                            WEDGEPETAL_ANSWER_NUMBERS);
}

/* wedgepetal_shot with these slices, and with three buffers of buffer_length bytes
 * each that lie one behind the other. answers has 8 numbers for each packet. */
static inline uint32_t wedgepetal_shot_in(const struct wedgepetal_work *work, uint64_t *session,
                                          uint64_t *names, const uint64_t *lengths, size_t count,
                                          const uint8_t *packets, size_t packets_length,
                                          const uint8_t *table, uint8_t *buffers,
                                          size_t buffer_length, uint64_t *answers)
{
    const uint64_t *n = work->lengths;
    return wedgepetal_shot(session, WEDGEPETAL_SESSION_NUMBERS, names, WEDGEPETAL_NAME_NUMBERS,
                           lengths, count, packets, packets_length, table, WEDGEPETAL_TABLE_BYTES,
                           work->records, n[WEDGEPETAL_RECORDS], work->coded, n[WEDGEPETAL_CODED],
                           work->coefs, n[WEDGEPETAL_COEFS], work->dc, n[WEDGEPETAL_DC],
                           work->lasts, n[WEDGEPETAL_LASTS], work->flags, n[WEDGEPETAL_FLAGS],
                           work->bits, n[WEDGEPETAL_BITS], work->supers, n[WEDGEPETAL_SUPERS],
                           work->modes, n[WEDGEPETAL_MODES], work->active, n[WEDGEPETAL_ACTIVE],
                           buffers, buffer_length, buffers + buffer_length, buffer_length,
                           buffers + 2 * buffer_length, buffer_length, answers,
                           WEDGEPETAL_ANSWER_NUMBERS * count);
}

/* ---- Which tiles changed.
 *
 * settings is a list of 4 numbers: the side of a tile in samples (8, 16 or 32),
 * shot_first (at most shot_last), shot_last (at most 999,999) and the plane (0 to
 * 2). A map has one byte for each tile of that plane, row by row from the bottom,
 * each row from the left; tiles at the right and top may be partial.
 *
 * Refusals of both calls, in the order in which they are found: 1 for the list of
 * settings, 20 for settings out of these ranges, 1 for the session's list, 8 for
 * its numbers, 1 for any other list, map among them; then, of the frame call, as
 * wedgepetal_frame. */

/* How many bytes a map has: ceil(columns / side) times ceil(rows / side) of the
 * plane's samples. length (1 number) receives it. */
uint32_t wedgepetal_tiles_length(const uint64_t *settings, size_t settings_length,
                                 const uint64_t *session, size_t session_length,
                                 uint64_t *length, size_t length_length);

/* wedgepetal_frame, and the map of the tiles that changed.
 *
 * settings  (4 numbers)
 * map       receives 1 for a tile in which some sample of new_frame differs from
 *           previous, else 0; all 1 after a frame that is accepted without
 *           references, all 0 after an empty packet. A refused call leaves it as
 *           it was, so that it is still the map of the last accepted packet
 *
 * All else is as in wedgepetal_frame; a refusal by 20 or for a list of another
 * length than it must have leaves answer too as it was, one for map says 1 there. */
uint32_t wedgepetal_tiles_frame(const uint64_t *settings, size_t settings_length,
                                uint64_t *session, size_t session_length,
                                const uint8_t *packet, size_t packet_length,
                                const uint8_t *table, size_t table_length,
                                uint32_t *records, size_t records_length,
                                uint64_t *coded, size_t coded_length,
                                int16_t *coefs, size_t coefs_length,
                                int16_t *dc, size_t dc_length,
                                uint8_t *lasts, size_t lasts_length,
                                uint8_t *flags, size_t flags_length,
                                uint8_t *bits, size_t bits_length,
                                uint8_t *supers, size_t supers_length,
                                uint8_t *modes, size_t modes_length,
                                uint64_t *active, size_t active_length,
                                const uint8_t *golden, size_t golden_length,
                                const uint8_t *previous, size_t previous_length,
                                uint8_t *new_frame, size_t new_frame_length,
                                uint64_t *answer, size_t answer_length,
                                uint8_t *map, size_t map_length);

/* wedgepetal_tiles_frame with the slices of work memory in one struct, as
 * wedgepetal_frame_in. */
static inline uint32_t wedgepetal_tiles_frame_in(const struct wedgepetal_work *work, const uint64_t *settings,
                                                 uint64_t *session, const uint8_t *packet, size_t packet_length,
                                                 const uint8_t *table, const uint8_t *golden,
                                                 const uint8_t *previous, uint8_t *new_frame,
                                                 size_t buffer_length, uint64_t *answer,
                                                 uint8_t *map, size_t map_length)
{
    const uint64_t *n = work->lengths;
    return wedgepetal_tiles_frame(settings, WEDGEPETAL_SETTINGS_NUMBERS, session, WEDGEPETAL_SESSION_NUMBERS, packet, packet_length,
                                  table, WEDGEPETAL_TABLE_BYTES, work->records, n[WEDGEPETAL_RECORDS],
                                  work->coded, n[WEDGEPETAL_CODED], work->coefs, n[WEDGEPETAL_COEFS],
                                  work->dc, n[WEDGEPETAL_DC], work->lasts, n[WEDGEPETAL_LASTS],
                                  work->flags, n[WEDGEPETAL_FLAGS], work->bits, n[WEDGEPETAL_BITS],
                                  work->supers, n[WEDGEPETAL_SUPERS], work->modes, n[WEDGEPETAL_MODES],
                                  work->active, n[WEDGEPETAL_ACTIVE], golden, buffer_length, previous,
                                  buffer_length, new_frame, buffer_length, answer,
                                  WEDGEPETAL_ANSWER_NUMBERS, map, map_length);
}

/* wedgepetal_shot, and for each packet the map of the tiles that changed.
 *
 * settings  (4 numbers)
 * maps      (wedgepetal_tiles_length bytes for each packet) receives one map for
 *           each packet, one behind the other in the order of the packets, as
 *           wedgepetal_tiles_frame would give it. A refused packet leaves its own
 *           map as it was
 *
 * All else is as in wedgepetal_shot. Returns 0, whatever the packets answer, or
 * refuses the whole shot, in this order: 1 for the list of settings, 20, 1 for the
 * lists of the session and the names, 8 for the session's fields and its others, 1
 * for any other list, maps among them, 8 for a name and for the table memory, 16. A
 * refused shot writes nothing. */
uint32_t wedgepetal_tiles_shot(const uint64_t *settings, size_t settings_length,
                               uint64_t *session, size_t session_length,
                               uint64_t *names, size_t names_length,
                               const uint64_t *lengths, size_t lengths_length,
                               const uint8_t *packets, size_t packets_length,
                               const uint8_t *table, size_t table_length,
                               uint32_t *records, size_t records_length,
                               uint64_t *coded, size_t coded_length,
                               int16_t *coefs, size_t coefs_length,
                               int16_t *dc, size_t dc_length,
                               uint8_t *lasts, size_t lasts_length,
                               uint8_t *flags, size_t flags_length,
                               uint8_t *bits, size_t bits_length,
                               uint8_t *supers, size_t supers_length,
                               uint8_t *modes, size_t modes_length,
                               uint64_t *active, size_t active_length,
                               uint8_t *first, size_t first_length,
                               uint8_t *second, size_t second_length,
                               uint8_t *third, size_t third_length,
                               uint64_t *answers, size_t answers_length,
                               uint8_t *maps, size_t maps_length);

/* wedgepetal_tiles_shot with the slices of work memory in one struct and three
 * buffers one behind the other, as wedgepetal_shot_in. maps has map_length bytes,
 * wedgepetal_tiles_length, for each packet. */
static inline uint32_t wedgepetal_tiles_shot_in(const struct wedgepetal_work *work, const uint64_t *settings,
                                                uint64_t *session, uint64_t *names,
                                                const uint64_t *lengths, size_t count,
                                                const uint8_t *packets, size_t packets_length,
                                                const uint8_t *table, uint8_t *buffers,
                                                size_t buffer_length, uint64_t *answers,
                                                uint8_t *maps, size_t map_length)
{
    const uint64_t *n = work->lengths;
    return wedgepetal_tiles_shot(settings, WEDGEPETAL_SETTINGS_NUMBERS, session, WEDGEPETAL_SESSION_NUMBERS,
                                 names, WEDGEPETAL_NAME_NUMBERS, lengths, count, packets, packets_length,
                                 table, WEDGEPETAL_TABLE_BYTES, work->records, n[WEDGEPETAL_RECORDS],
                                 work->coded, n[WEDGEPETAL_CODED], work->coefs, n[WEDGEPETAL_COEFS],
                                 work->dc, n[WEDGEPETAL_DC], work->lasts, n[WEDGEPETAL_LASTS],
                                 work->flags, n[WEDGEPETAL_FLAGS], work->bits, n[WEDGEPETAL_BITS],
                                 work->supers, n[WEDGEPETAL_SUPERS], work->modes, n[WEDGEPETAL_MODES],
                                 work->active, n[WEDGEPETAL_ACTIVE], buffers, buffer_length,
                                 buffers + buffer_length, buffer_length, buffers + 2 * buffer_length,
                                 buffer_length, answers, WEDGEPETAL_ANSWER_NUMBERS * count, maps,
                                 map_length * count);
}

/* ---- Checking a stream of frames that somebody else made. */

/* What a check finds is a list of 2 numbers. */
enum {
    WEDGEPETAL_DIFFERS, /* 1 if the file differs from what wedgepetal_y4m_write writes, else 0 */
    WEDGEPETAL_AT,      /* at which byte of the file, from 0; of a refusal its place */
    WEDGEPETAL_FOUND_NUMBERS
};

/* Holds a file to the stream that wedgepetal_y4m_write writes for a recording:
 * one frame for each packet, all of which must be accepted. Nothing of the stream
 * is stored, so that the file may be as long as it likes, and may be mapped.
 *
 * identification, setup
 *          the two headers; the session is a fresh one
 * lengths, packets
 *          the frame packets, as for wedgepetal_shot
 * file     only read
 * table    (WEDGEPETAL_TABLE_BYTES bytes) receives what wedgepetal_setup leaves
 * records to third
 *          work memory and buffers 0 to 2, as for wedgepetal_shot
 * answers  (8 numbers for each packet) receives the answer of each packet: the
 *          first refused one is the one that a refusal is about
 * found    (2 numbers) receives what is found
 *
 * Returns 0 and found {0, 0} if the file is that stream, to the byte; 0 and
 * found {1, n} if byte n is the first that differs, or the shorter one of the two
 * ends there; else the number of the first refusal and found {0, its place}. All
 * packets are applied whatever the file holds, and a refusal wins over any
 * difference. In the order in which refusals are found: 1 for found, and nothing
 * is written; 2 to 6 for the identification header, and only found is written; then
 * those of wedgepetal_setup, and table and found are written as that call leaves
 * them; then 1 and 16 of wedgepetal_shot, which write nothing more; then 4 and 9
 * to 13 and 17 of the packets, in their order. Buffers, answers and work memory
 * are then as wedgepetal_shot leaves them. */
uint32_t wedgepetal_check(const uint8_t *identification, size_t identification_length,
                          const uint8_t *setup, size_t setup_length,
                          const uint64_t *lengths, size_t lengths_length,
                          const uint8_t *packets, size_t packets_length,
                          const uint8_t *file, size_t file_length,
                          uint8_t *table, size_t table_length,
                          uint32_t *records, size_t records_length,
                          uint64_t *coded, size_t coded_length,
                          int16_t *coefs, size_t coefs_length,
                          int16_t *dc, size_t dc_length,
                          uint8_t *lasts, size_t lasts_length,
                          uint8_t *flags, size_t flags_length,
                          uint8_t *bits, size_t bits_length,
                          uint8_t *supers, size_t supers_length,
                          uint8_t *modes, size_t modes_length,
                          uint64_t *active, size_t active_length,
                          uint8_t *first, size_t first_length,
                          uint8_t *second, size_t second_length,
                          uint8_t *third, size_t third_length,
                          uint64_t *answers, size_t answers_length,
                          uint64_t *found, size_t found_length);

/* wedgepetal_check with the slices of work memory in one struct and three buffers
 * one behind the other, as wedgepetal_shot_in. */
static inline uint32_t wedgepetal_check_in(const struct wedgepetal_work *work,
                                           const uint8_t *identification, size_t identification_length,
                                           const uint8_t *setup, size_t setup_length,
                                           const uint64_t *lengths, size_t count,
                                           const uint8_t *packets, size_t packets_length,
                                           const uint8_t *file, size_t file_length,
                                           uint8_t *table, uint8_t *buffers, size_t buffer_length,
                                           uint64_t *answers, uint64_t *found)
{
    const uint64_t *n = work->lengths;
    return wedgepetal_check(identification, identification_length, setup, setup_length, lengths, count,
                            packets, packets_length, file, file_length, table, WEDGEPETAL_TABLE_BYTES,
                            work->records, n[WEDGEPETAL_RECORDS], work->coded, n[WEDGEPETAL_CODED],
                            work->coefs, n[WEDGEPETAL_COEFS], work->dc, n[WEDGEPETAL_DC],
                            work->lasts, n[WEDGEPETAL_LASTS], work->flags, n[WEDGEPETAL_FLAGS],
                            work->bits, n[WEDGEPETAL_BITS], work->supers, n[WEDGEPETAL_SUPERS],
                            work->modes, n[WEDGEPETAL_MODES], work->active, n[WEDGEPETAL_ACTIVE],
                            buffers, buffer_length, buffers + buffer_length, buffer_length,
                            buffers + 2 * buffer_length, buffer_length, answers,
                            WEDGEPETAL_ANSWER_NUMBERS * count, found, WEDGEPETAL_FOUND_NUMBERS);
}

/* ---- A census of recordings. */

/* The report of a census is a list of 34 numbers. A census adds to it. */
enum {
    WEDGEPETAL_COUNTED_KINDS,         /* the first of three: accepted packets that are intra, inter, repeats */
    WEDGEPETAL_COUNTED_REFUSALS = 3,  /* the first of 17: what was refused by 1, by 2 and so on to 17 */
    WEDGEPETAL_COUNTED_CODED = 20,    /* the first of three: coded blocks of Y', Cb, Cr in intra and inter frames */
    WEDGEPETAL_COUNTED_UNCODED = 23,  /* the first of three: their blocks that are not coded */
    WEDGEPETAL_COUNTED_MODES = 26,    /* the first of eight: macro blocks of inter frames by their mode, 0 to 7 */
    WEDGEPETAL_REPORT_NUMBERS = 34
};

/* Counts what the packets of a recording are and hold, without making frames, and
 * adds it to a report.
 *
 * lengths  the lengths of all packets in bytes: the identification header, the
 *          comment header, which is not looked at, the setup header, then frame packets
 * packets  the packets, joined together; bytes behind the last are ignored
 * report   (34 numbers) what was counted so far
 * table    (WEDGEPETAL_TABLE_BYTES bytes) scratch
 * records to new_frame
 *          scratch: work memory and three plane buffers, of the lengths that the
 *          recording's session asks for. If one of them has another length, each
 *          frame packet is refused by 1
 *
 * The first refused header is counted by its number, a missing one as 4, and the
 * rest of the recording is not read. Refusals of the call: 16, found first, and
 * nothing changes; 1 for report; 15 if a sum would pass 64 bits. Each leaves the
 * report as it was. After everything but 16 all scratch is zero, whatever its
 * lengths. */
uint32_t wedgepetal_census(const uint64_t *lengths, size_t lengths_length,
                           const uint8_t *packets, size_t packets_length,
                           uint64_t *report, size_t report_length,
                           uint8_t *table, size_t table_length,
                           uint32_t *records, size_t records_length,
                           uint64_t *coded, size_t coded_length,
                           int16_t *coefs, size_t coefs_length,
                           int16_t *dc, size_t dc_length,
                           uint8_t *lasts, size_t lasts_length,
                           uint8_t *flags, size_t flags_length,
                           uint8_t *bits, size_t bits_length,
                           uint8_t *supers, size_t supers_length,
                           uint8_t *modes, size_t modes_length,
                           uint64_t *active, size_t active_length,
                           uint8_t *golden, size_t golden_length,
                           uint8_t *previous, size_t previous_length,
                           uint8_t *new_frame, size_t new_frame_length);

/* wedgepetal_census with the slices of work memory in one struct and three buffers
 * one behind the other, as wedgepetal_shot_in. */
static inline uint32_t wedgepetal_census_in(const struct wedgepetal_work *work,
                                            const uint64_t *lengths, size_t count,
                                            const uint8_t *packets, size_t packets_length,
                                            uint64_t *report, uint8_t *table, uint8_t *buffers,
                                            size_t buffer_length)
{
    const uint64_t *n = work->lengths;
    return wedgepetal_census(lengths, count, packets, packets_length, report, WEDGEPETAL_REPORT_NUMBERS,
                             table, WEDGEPETAL_TABLE_BYTES, work->records, n[WEDGEPETAL_RECORDS],
                             work->coded, n[WEDGEPETAL_CODED], work->coefs, n[WEDGEPETAL_COEFS],
                             work->dc, n[WEDGEPETAL_DC], work->lasts, n[WEDGEPETAL_LASTS],
                             work->flags, n[WEDGEPETAL_FLAGS], work->bits, n[WEDGEPETAL_BITS],
                             work->supers, n[WEDGEPETAL_SUPERS], work->modes, n[WEDGEPETAL_MODES],
                             work->active, n[WEDGEPETAL_ACTIVE], buffers, buffer_length,
                             buffers + buffer_length, buffer_length, buffers + 2 * buffer_length,
                             buffer_length);
}

#ifdef __cplusplus
}
#endif

#endif
