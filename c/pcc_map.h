/* pcc_map.h: pages for native code. For C99 and C++, on x86-64 with POSIX.
 *
 * Nothing of it is proved: c/pcc_map.c is to be read. No page is writable and executable at the same time. Threads may
 * call code of the same map at the same time, each with an area and buffers of its own. */
#ifndef PCC_MAP_H
#define PCC_MAP_H

#include "pcc.h"

#ifdef __cplusplus
extern "C" {
#endif

/* A copy of native code that can be called. */
struct pcc_map {
    pcc_function *call; /* the code, or null if there is none */
    size_t size;        /* of its pages, in bytes */
};
#define PCC_MAP_INIT {0, 0}

/* Copies `length` bytes that pcc_native made, at least one, to new pages, which then can be executed and no longer be
 * written. *map has no code before. Returns PCC_DONE; or, with *map unchanged and no page left, PCC_NO_MEMORY, and
 * PCC_FORBIDDEN if the system forbids such pages, as SELinux may. */
uint32_t pcc_map_new(const uint8_t *code, size_t length, struct pcc_map *map);

/* Gives the pages back, if there are any. No call of the code may be under way, or begin afterwards. Returns PCC_DONE, and
 * *map has no code. */
uint32_t pcc_map_free(struct pcc_map *map);

#ifdef __cplusplus
}
#endif
#endif
