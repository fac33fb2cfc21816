/*
 * Makes a test stream: synthetic pictures through libtheora's encoder, written
 * as an Ogg recording.
 *
 *   encode OUT.ogv [name=number]..
 *
 * across, up        the frame in macro blocks (20, 15)
 * left, right, bottom, top
 *                   how many samples the picture leaves free at each side (0)
 * format            0 is 4:2:0, 2 is 4:2:2, 3 is 4:4:4 (0)
 * quality           0 to 63 (40); bitrate: bits a second instead (0)
 * frames            how many (30); interval: most frames from key frame to key frame (64)
 * speed             0 is the encoder's slowest (0)
 * vp3               1: only what VP3 has (0)
 * quantizers        0 the encoder's, 1 VP3's, 2 and up our own, by this seed (0)
 * codes             0 the encoder's, 1 all of 5 bits, 2 a comb of depth 31 (0)
 * repeats           every so many pictures one is sent three times (0: never)
 * seed              of the pictures (1)
 */
#include <ogg/ogg.h>
#include <theora/theoraenc.h>

#include <stdint.h>
#include <stdio.h>
#include <stdlib.h>
#include <string.h>

static const char *const names[] = {
    "across", "up", "left", "right", "bottom", "top", "format", "quality", "bitrate", "frames",
    "interval", "speed", "vp3", "quantizers", "codes", "repeats", "seed"
};
enum {
    ACROSS, UP, LEFT, RIGHT, BOTTOM, TOP, FORMAT, QUALITY, BITRATE, FRAMES,
    INTERVAL, SPEED, VP3, QUANTIZERS, CODES, REPEATS, SEED, SETTINGS
};
static long settings[SETTINGS] = {20, 15, 0, 0, 0, 0, 0, 40, 0, 30, 64, 0, 0, 0, 0, 0, 1};

static void fail(const char *what)
{
    fprintf(stderr, "encode: %s\n", what);
    exit(1);
}

static void read_settings(int count, char **words)
{
    for (int i = 0; i < count; i++) {
        size_t length = strcspn(words[i], "=");
        int s = 0;
        while (s < SETTINGS &&
               (strlen(names[s]) != length || strncmp(names[s], words[i], length) != 0)) {
            s++;
        }
        if (s == SETTINGS || words[i][length] != '=') {
            fail(words[i]);
        }
        settings[s] = atol(words[i] + length + 1);
    }
}

/* A number from 0 to 255 for every point: the picture's grain. */
static int grain(uint32_t x, uint32_t y, uint32_t z)
{
    uint32_t h = x * 0x9E3779B1u ^ y * 0x85EBCA77u ^ z * 0xC2B2AE3Du;
    h = (h ^ h >> 15) * 0x2C1B3C6Du;
    h = (h ^ h >> 12) * 0x297A2D39u;
    return (int)((h ^ h >> 15) & 255);
}

/* Smooth noise with a grid of 8 samples, in 1/4 samples. */
static int texture(int x4, int y4, int z)
{
    int x = x4 + (1 << 20), y = y4 + (1 << 20);
    int gx = x / 32, gy = y / 32, fx = x % 32, fy = y % 32;
    int low = grain(gx, gy, z) * (32 - fx) + grain(gx + 1, gy, z) * fx;
    int high = grain(gx, gy + 1, z) * (32 - fx) + grain(gx + 1, gy + 1, z) * fx;
    return (low * (32 - fy) + high * fy) / 1024;
}

/*
 * The sample at (x, y) of a plane at time t, in luma samples. The background
 * moves; a field in the middle is cut into blocks of 8 that move each its own
 * way (four vectors); the right third shows another scene for two pictures of
 * every ten and then the old one again (golden); the lowest rows never change;
 * a corner flickers.
 */
static int sample(int plane, int x, int y, int t)
{
    const int width = 16 * (int)settings[ACROSS], height = 16 * (int)settings[UP];
    const int z = 7 * (int)settings[SEED] + plane;
    if (y >= height - height / 5) {
        return texture(4 * x, 4 * y, z);
    }
    if (x >= width - width / 3 && t % 10 >= 8) {
        return texture(3 * x, 5 * y, z + 1000);
    }
    if (x < width / 8 && y < height / 8) {
        return grain(x, y, z + 13 * t) / 2 + 64;
    }
    if (x >= width / 4 && x < width / 2 && y >= height / 4) {
        int block = x / 8 + 5 * (y / 8);
        int vx = grain(block, 1, z - plane) % 13 - 6, vy = grain(block, 2, z - plane) % 13 - 6;
        return texture(4 * x + vx * t, 4 * y + vy * t, z + 2000);
    }
    return texture(4 * x + 7 * t, 4 * y - 3 * t, z);
}

static void draw(th_ycbcr_buffer planes, int t)
{
    for (int p = 0; p < 3; p++) {
        int sx = 16 * (int)settings[ACROSS] / planes[p].width;
        int sy = 16 * (int)settings[UP] / planes[p].height;
        for (int y = 0; y < planes[p].height; y++) {
            for (int x = 0; x < planes[p].width; x++) {
                planes[p].data[y * planes[p].stride + x] = (uint8_t)sample(p, sx * x, sy * y, t);
            }
        }
    }
}

static void make_planes(th_ycbcr_buffer planes)
{
    for (int p = 0; p < 3; p++) {
        int across = 16, up = 16;
        if (p > 0 && settings[FORMAT] != TH_PF_444) {
            across = 8;
        }
        if (p > 0 && settings[FORMAT] == TH_PF_420) {
            up = 8;
        }
        planes[p].width = across * (int)settings[ACROSS];
        planes[p].height = up * (int)settings[UP];
        planes[p].stride = planes[p].width;
        planes[p].data = malloc((size_t)planes[p].width * (size_t)planes[p].height);
        if (planes[p].data == NULL) {
            fail("no memory");
        }
    }
}

/*
 * Quantizers of our own: sets with 1 to 4 ranges, some of them equal, matrices
 * that fall with qi.
 */
static int sizes[6][4];
static th_quant_base matrices[6][5];

static void own_ranges(th_quant_ranges *ranges, int set, int like)
{
    int z = (int)settings[QUANTIZERS], n = 1 + grain(like, z, 5) % 4, rest = 63;
    for (int r = 0; r < n; r++) {
        int most = rest - (n - 1 - r);
        sizes[set][r] = r == n - 1 ? rest : 1 + grain(like, z, 10 + r) % most;
        rest -= sizes[set][r];
    }
    for (int m = 0; m <= n; m++) {
        for (int c = 0; c < 64; c++) {
            int value = 8 + 2 * (c / 8 + c % 8) + 9 * (n - m) + grain(c, like, z) % 8;
            matrices[set][m][c] = (uint8_t)value;
        }
    }
    ranges->nranges = n;
    ranges->sizes = sizes[set];
    ranges->base_matrices = (const th_quant_base *)matrices[set];
}

static void own_quantizers(th_quant_info *info)
{
    int z = (int)settings[QUANTIZERS];
    for (int qi = 0; qi < 64; qi++) {
        info->ac_scale[qi] = (uint16_t)(10 + (63 - qi) * (z % 3 + 4));
        info->dc_scale[qi] = (uint16_t)(12 + (63 - qi) * (z % 4 + 2));
        info->loop_filter_limits[qi] = (uint8_t)((63 - qi) * (z % 5) / 8);
    }
    for (int set = 0; set < 6; set++) {
        int like = grain(set, z, 3) % 3 == 0 ? set : set % 3 == 0 ? 0 : set / 3;
        own_ranges(&info->qi_ranges[set / 3][set % 3], set, like);
    }
}

static th_huff_code codes[TH_NHUFFMAN_TABLES][TH_NDCT_TOKENS];

static void own_codes(void)
{
    for (int t = 0; t < TH_NHUFFMAN_TABLES; t++) {
        for (int i = 0; i < TH_NDCT_TOKENS; i++) {
            th_huff_code *code = &codes[t][(i + t) % TH_NDCT_TOKENS];
            if (settings[CODES] == 1) {
                code->nbits = 5;
                code->pattern = (uint32_t)i;
            } else {
                code->nbits = i < 31 ? i + 1 : 31;
                code->pattern = i < 31 ? (1u << (i + 1)) - 2 : (1u << 31) - 1;
            }
        }
    }
}

static void control(th_enc_ctx *encoder, int what, void *value, size_t size, const char *name)
{
    if (th_encode_ctl(encoder, what, value, size) < 0) {
        fail(name);
    }
}

static void set_tables(th_enc_ctx *encoder)
{
    th_quant_info quantizers = TH_VP31_QUANT_INFO;
    if (settings[QUANTIZERS] >= 2) {
        own_quantizers(&quantizers);
    }
    if (settings[QUANTIZERS] >= 1) {
        control(encoder, TH_ENCCTL_SET_QUANT_PARAMS, &quantizers, sizeof quantizers, "quantizers");
    }
    if (settings[CODES]) {
        own_codes();
        control(encoder, TH_ENCCTL_SET_HUFFMAN_CODES, codes, sizeof codes, "codes");
    }
}

static void fill_info(th_info *info)
{
    info->frame_width = 16 * (ogg_uint32_t)settings[ACROSS];
    info->frame_height = 16 * (ogg_uint32_t)settings[UP];
    info->pic_width = info->frame_width - (ogg_uint32_t)(settings[LEFT] + settings[RIGHT]);
    info->pic_height = info->frame_height - (ogg_uint32_t)(settings[BOTTOM] + settings[TOP]);
    info->pic_x = (ogg_uint32_t)settings[LEFT];
    info->pic_y = (ogg_uint32_t)settings[TOP];
    info->fps_numerator = 25;
    info->fps_denominator = 1;
    info->colorspace = TH_CS_ITU_REC_470BG;
    info->pixel_fmt = (th_pixel_fmt)settings[FORMAT];
    info->target_bitrate = (int)settings[BITRATE];
    info->quality = (int)settings[QUALITY];
    info->keyframe_granule_shift = 6;
}

static th_enc_ctx *make_encoder(void)
{
    th_info info;
    th_enc_ctx *encoder;
    int speed = (int)settings[SPEED], vp3 = 1;
    ogg_uint32_t interval = (ogg_uint32_t)settings[INTERVAL];

    th_info_init(&info);
    fill_info(&info);
    encoder = th_encode_alloc(&info);
    th_info_clear(&info);
    if (encoder == NULL) {
        fail("the encoder does not take these settings");
    }
    if (settings[VP3]) {
        control(encoder, TH_ENCCTL_SET_VP3_COMPATIBLE, &vp3, sizeof vp3, "vp3");
    }
    set_tables(encoder);
    control(encoder, TH_ENCCTL_SET_KEYFRAME_FREQUENCY_FORCE, &interval, sizeof interval, "interval");
    control(encoder, TH_ENCCTL_SET_SPLEVEL, &speed, sizeof speed, "speed");
    return encoder;
}

static void write_page(const ogg_page *page, FILE *out)
{
    size_t header = (size_t)page->header_len, body = (size_t)page->body_len;
    if (fwrite(page->header, 1, header, out) != header || fwrite(page->body, 1, body, out) != body) {
        fail("cannot write");
    }
}

static void write_pages(ogg_stream_state *stream, int flush, FILE *out)
{
    ogg_page page;
    while (flush ? ogg_stream_flush(stream, &page) : ogg_stream_pageout(stream, &page)) {
        write_page(&page, out);
    }
}

/* The first header has a page of its own, as Ogg wants it. */
static void write_headers(th_enc_ctx *encoder, ogg_stream_state *stream, FILE *out)
{
    th_comment comment;
    ogg_packet packet;
    int first = 1;
    th_comment_init(&comment);
    while (th_encode_flushheader(encoder, &comment, &packet) > 0) {
        ogg_stream_packetin(stream, &packet);
        if (first) {
            write_pages(stream, 1, out);
        }
        first = 0;
    }
    write_pages(stream, 1, out);
    th_comment_clear(&comment);
}

static void write_frames(th_enc_ctx *encoder, ogg_stream_state *stream, FILE *out)
{
    th_ycbcr_buffer planes;
    ogg_packet packet;
    make_planes(planes);
    for (int t = 0; t < settings[FRAMES]; t++) {
        int repeats = 2;
        draw(planes, t);
        if (settings[REPEATS] && t % settings[REPEATS] == settings[REPEATS] - 1) {
            control(encoder, TH_ENCCTL_SET_DUP_COUNT, &repeats, sizeof repeats, "repeats");
        }
        if (th_encode_ycbcr_in(encoder, planes) != 0) {
            fail("the encoder does not take a picture");
        }
        while (th_encode_packetout(encoder, t + 1 == settings[FRAMES], &packet) > 0) {
            ogg_stream_packetin(stream, &packet);
            write_pages(stream, 0, out);
        }
    }
    write_pages(stream, 1, out);
    for (int p = 0; p < 3; p++) {
        free(planes[p].data);
    }
}

int main(int count, char **words)
{
    ogg_stream_state stream;
    th_enc_ctx *encoder;
    FILE *out;
    if (count < 2) {
        fail("usage: encode OUT.ogv [name=number]..");
    }
    read_settings(count - 2, words + 2);
    encoder = make_encoder();
    out = fopen(words[1], "wb");
    if (out == NULL || ogg_stream_init(&stream, (int)settings[SEED]) != 0) {
        fail(words[1]);
    }
    write_headers(encoder, &stream, out);
    write_frames(encoder, &stream, out);
    ogg_stream_clear(&stream);
    th_encode_free(encoder);
    if (fclose(out) != 0) {
        fail("cannot write");
    }
    return 0;
}
