/* The heap of the library: the three functions that libpcc_c.a calls for memory. Each block is at a multiple of 16, as
 * malloc's are, and the library asks for no more. It never passes a null pointer.
 *
 * With PCC_FAIL_AT defined the functions also count their calls, and the call with the number pcc_fail_at, from 1, finds
 * no memory; so does each later one if pcc_fail_on is set. c/try.c needs that. */
#include <stdbool.h>
#include <stddef.h>
#include <stdlib.h>

/* Whether there is memory, and where. */
struct tried {
    bool ok;
    void *at;
};

struct tried rattle_alloc(size_t size, size_t align);
struct tried rattle_realloc(void *at, size_t kept, size_t size, size_t align);
void rattle_dealloc(void *at);

#ifdef PCC_FAIL_AT
size_t pcc_heap_calls, pcc_fail_at;
bool pcc_fail_on;

static bool is_to_fail(void) {
    pcc_heap_calls++;
    return pcc_fail_at != 0 && (pcc_heap_calls == pcc_fail_at || (pcc_fail_on && pcc_heap_calls > pcc_fail_at));
}
#else
static bool is_to_fail(void) {
    return false;
}
#endif

/* The answer if there is no memory points to this byte, at which nothing is read or written. */
static char nothing;

static struct tried tried(void *at) {
    struct tried answer = {at != NULL, at != NULL ? at : &nothing};
    return answer;
}

/* Returns a new block of size bytes. */
struct tried rattle_alloc(size_t size, size_t align) {
    return tried(is_to_fail() ? NULL : malloc(size != 0 ? size : align));
}

/* Returns the block with size bytes, perhaps elsewhere; its first `kept` bytes stay. Without memory the block stays. */
struct tried rattle_realloc(void *at, size_t kept, size_t size, size_t align) {
    (void)kept;
    return tried(is_to_fail() ? NULL : realloc(at, size != 0 ? size : align));
}

/* Frees the block. */
void rattle_dealloc(void *at) {
    free(at);
}
