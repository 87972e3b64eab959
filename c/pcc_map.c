/* Pages for native code: written first, then executable, never both. Trusted: no proof is about this file. */
#define _DEFAULT_SOURCE /* MAP_ANONYMOUS */
#include "pcc_map.h"
#include <errno.h>
#include <string.h>
#include <sys/mman.h>
#include <unistd.h>

/* Returns so many bytes as whole pages, or 0 if that is past the end of all addresses. */
static size_t whole_pages(size_t length) {
    size_t page = (size_t)sysconf(_SC_PAGESIZE), past = length % page;
    if (past == 0)
        return length;
    return length <= SIZE_MAX - (page - past) ? length + (page - past) : 0;
}

/* The status of a call of the system that failed. */
static uint32_t status_of(int error) {
    return error == EACCES || error == EPERM ? PCC_FORBIDDEN : PCC_NO_MEMORY;
}

uint32_t pcc_map_new(const uint8_t *code, size_t length, struct pcc_map *map) {
    size_t size = whole_pages(length);
    if (size == 0)
        return PCC_NO_MEMORY;
    void *pages = mmap(NULL, size, PROT_READ | PROT_WRITE, MAP_PRIVATE | MAP_ANONYMOUS, -1, 0);
    if (pages == MAP_FAILED)
        return status_of(errno);
    memcpy(pages, code, length);
    if (mprotect(pages, size, PROT_READ | PROT_EXEC) != 0) {
        uint32_t status = status_of(errno);
        munmap(pages, size);
        return status;
    }
    memcpy(&map->call, &pages, sizeof pages); /* C has no cast from data to functions; POSIX has one size for both */
    map->size = size;
    return PCC_DONE;
}

uint32_t pcc_map_free(struct pcc_map *map) {
    void *pages;
    memcpy(&pages, &map->call, sizeof pages);
    if (pages != NULL)
        munmap(pages, map->size);
    map->call = NULL;
    map->size = 0;
    return PCC_DONE;
}
