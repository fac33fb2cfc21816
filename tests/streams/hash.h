/*
 * The hash of a frame: FNV-1a with 64 bits over all bytes of its planes, plane
 * 0 first, in each plane the lowest row first and a row from left to right.
 * That is the order of a plane buffer of include/wedgepetal.h.
 */
#include <stddef.h>
#include <stdint.h>

#define HASH_START UINT64_C(0xCBF29CE484222325)

static inline uint64_t hash_bytes(uint64_t hash, const unsigned char *bytes, size_t length)
{
    for (size_t i = 0; i < length; i++) {
        hash = (hash ^ bytes[i]) * UINT64_C(0x100000001B3);
    }
    return hash;
}

/* A plane whose highest row is the first. */
static inline uint64_t hash_plane(uint64_t hash, const unsigned char *first, ptrdiff_t stride,
                                  size_t width, size_t height)
{
    for (size_t row = height; row-- > 0;) {
        hash = hash_bytes(hash, first + (ptrdiff_t)row * stride, width);
    }
    return hash;
}
