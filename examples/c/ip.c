#include "filter.h"

/* All IP packets. */
FILTER {
    return BE16(12) == 0x0800;
}
