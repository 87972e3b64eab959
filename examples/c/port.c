#include "filter.h"

/* TCP packets to port 80. The IP header may have options, so the port's place is computed. */
FILTER {
    u64 size, at, quadword;
    if (BE16(12) != 0x0800 || BYTE(14) >> 4 != 4 || BYTE(23) != 6)
        return 0;
    if (BE16(20) & 0x1fff) /* a later fragment has no TCP header */
        return 0;
    size = BYTE(14) & 15; /* of the IP header, in units of four bytes */
    if (size < 5)
        return 0;
    at = 14 + 4 * size + 2;
    quadword = at & ~7ul;
    if (quadword >= length)
        return 0;
    return (QUAD(quadword) >> 8 * (at & 7) & 0xffff) == SWAPPED(80);
}
