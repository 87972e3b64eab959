#include "filter.h"

/* IP packets from 192.0.2.0/24. */
FILTER {
    return BE16(12) == 0x0800 && BE16(26) == 0xc000 && BYTE(28) == 2;
}
