#include "filter.h"

/* IP packets of VLAN 42, or without a tag, whose TTL is above 1. */
FILTER {
    u64 type = BE16(12), ttl;
    if (type == 0x8100) {
        if ((BE16(14) & 0xfff) != 42 || BE16(16) != 0x0800)
            return 0;
        ttl = BYTE(26);
    } else if (type == 0x0800) {
        ttl = BYTE(22);
    } else {
        return 0;
    }
    return ttl > 1;
}
