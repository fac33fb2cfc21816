/* The library's version, and its refusals in words. Nothing here decodes: the proved objects are linked beside it. */
#include "wedgepetal.h"

const char *wedgepetal_version(void)
{
    return WEDGEPETAL_VERSION;
}

const char *wedgepetal_refusal_text(uint32_t number)
{
    switch (number) {
    case WEDGEPETAL_ACCEPTED:
        return "accepted";
    case WEDGEPETAL_WRONG_LENGTH:
        return "a lent length differs from the published one";
    case WEDGEPETAL_OTHER_HEADER:
        return "a header's type byte or \"theora\" is not the wanted one";
    case WEDGEPETAL_OTHER_VERSION:
        return "VMAJ is not 3, or VMIN is not 2";
    case WEDGEPETAL_PACKET_ENDS:
        return "a read passes the end of the packet";
    case WEDGEPETAL_OUT_OF_RANGE:
        return "an identification field breaks its range";
    case WEDGEPETAL_BAD_FORMAT:
        return "PF is 1, or the 3 last identification bits are not 0";
    case WEDGEPETAL_BAD_SETUP:
        return "setup: NBMS above 384, a matrix index not below NBMS, a qi sum above 63, "
               "a code longer than 32, or a 33rd leaf";
    case WEDGEPETAL_NOT_GENUINE:
        return "the identification fields break 5, 6 or their widths, "
               "the packets since the last key frame are not below 2 to the power KFGSHIFT, "
               "or no accepted setup packet leaves this table memory";
    case WEDGEPETAL_NO_REFERENCES:
        return "an inter or empty packet and no references";
    case WEDGEPETAL_NO_FRAME:
        return "the first bit of a frame packet is 1";
    case WEDGEPETAL_RESERVED_BITS:
        return "an intra frame's 3 reserved bits are not 0";
    case WEDGEPETAL_LONG_RUN:
        return "a run exceeds the bits still wanted";
    case WEDGEPETAL_PAST_BLOCK:
        return "a token moves its block past position 64";
    case WEDGEPETAL_SHORT_OUTPUT:
        return "the lent output is too short";
    case WEDGEPETAL_PAST_COUNT:
        return "a sum of the census would pass 64 bits";
    case WEDGEPETAL_PAST_PACKETS:
        return "the lengths of the packets reach past their end";
    case WEDGEPETAL_UNCOUNTED:
        return "the key frames would pass 64 bits, "
               "or the packets since the last one would reach 2 to the power KFGSHIFT";
    case WEDGEPETAL_UNKNOWN_COLOUR:
        return "CS is neither 1 nor 2";
    case WEDGEPETAL_LATER_VERSION:
        return "a reader for version 1 is given a text that begins with the line version=2";
    case WEDGEPETAL_BAD_SETTINGS:
        return "settings out of range, plane 1 or 2 as version 1, a version other than 1 and 2, "
               "or a text that is none of the reader's version";
    case WEDGEPETAL_OTHER_STREAM:
        return "the stream is none that the writer of frames writes";
    case WEDGEPETAL_ABSENT:
        return "the frame has no such block, macro block or sample, "
               "or there is no such type, plane or qi";
    default:
        return "a number that no call answers";
    }
}
