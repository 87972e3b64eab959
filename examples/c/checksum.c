#include "filter.h"

/* ICMP packets whose checksums are right. */
FILTER {
    u64 sum, at;
    if (BE16(12) != 0x0800 || BYTE(23) != 1)
        return 0;
    sum = QUAD(8) >> 48; /* bytes 14 and 15 */
    for (at = 16; at < length; at += 8) {
        u64 next = QUAD(at);
        sum += (next & 0xffffffff) + (next >> 32);
    }
    sum = (sum & 0xffffffff) + (sum >> 32);
    sum = (sum & 0xffff) + (sum >> 16);
    sum = (sum & 0xffff) + (sum >> 16);
    sum = (sum & 0xffff) + (sum >> 16);
    return sum == 0xffff;
}
