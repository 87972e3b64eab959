#include "filter.h"

/* Packets in which the quadwords that are odd numbers have a greater sum than the even ones. Scratch has both sums. */
FILTER {
    u64 at;
    scratch[0] = 0;
    scratch[1] = 0;
    for (at = 0; at < length; at += 8) {
        u64 next = QUAD(at);
        scratch[next & 1] += next;
    }
    return scratch[0] < scratch[1];
}
