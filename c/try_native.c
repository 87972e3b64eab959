/* try_native [POLICY CONTAINER PACKETS FUEL]..: for each four words prints what `pcc run` prints of the packets, by native
 * code in the arena of `pcc run`, so that addresses are its own; or `status N` if pcc_native has that status, not 0.
 *
 * Four threads call the same code on the same packets at the same time, in buffers each of which ends where a page begins
 * that may not be touched. Packets of `filter` stand in pages that may not be written. The status is 1, after a line about
 * it, if a thread's answers are others. A call that touches a page that it may not is a signal. */
#define _GNU_SOURCE
#include "pcc_map.h"
#include <inttypes.h>
#include <pthread.h>
#include <stdbool.h>
#include <stdio.h>
#include <stdlib.h>
#include <string.h>
#include <sys/mman.h>

#define THREADS 4
#define WORDS 4
#define ARENA 65536u
enum { PAGE = 4096, ROOM = 17 * PAGE, MOST_PACKETS = 4096, MOST_FILE = 4194305 };

/* What a run of a packet comes to: an `enum pcc_end`, and the words of struct pcc_result. */
struct ends {
    struct pcc_result at[MOST_PACKETS];
};

/* A policy, native code of it, and packets as a file has them. */
struct task {
    const char *policy;
    struct pcc_map map;
    const uint8_t *packets;
    size_t length;
    uint64_t fuel;
};

/* Where a packet, scratch and the area end, with the first of the pages that hold packets. */
struct rooms {
    uint8_t *packet, *scratch, *area;
};

struct thread {
    const struct task *task;
    struct ends *ends;
    size_t count;
};

static void demand(bool holds, const char *what) {
    if (!holds) {
        printf("wrong: %s\n", what);
        exit(1);
    }
}

static size_t read_file(const char *name, uint8_t *to, size_t most) {
    FILE *file = fopen(name, "rb");
    size_t length = file != NULL ? fread(to, 1, most, file) : 0;
    demand(file != NULL && fclose(file) == 0, name);
    return length;
}

/* Returns where so many bytes end, before and behind which is a page that may not be touched. */
static uint8_t *guarded(size_t count) {
    uint8_t *at = mmap(NULL, count + 2 * PAGE, PROT_NONE, MAP_PRIVATE | MAP_ANONYMOUS, -1, 0);
    demand(at != MAP_FAILED && mprotect(at + PAGE, count, PROT_READ | PROT_WRITE) == 0, "no pages");
    return at + PAGE + count;
}

static bool is_filter(const struct task *task) {
    return task->policy[0] == 'f';
}

/* Calls the code on a packet that is at `at`, which has so many bytes, padded. */
static struct pcc_result called(const struct task *task, uint64_t *at, size_t length, uint64_t *scratch, uint64_t *area) {
    bool filter = is_filter(task), table = strcmp(task->policy, "table") == 0;
    size_t quads = (length + 7) / 8;
    struct pcc_answer answer = task->map.call((uintptr_t)at, filter ? length : table ? quads : 0,
                                              filter ? (uintptr_t)scratch : 0, area, task->fuel);
    struct pcc_result result = {answer.spent != 0 ? PCC_OUT_OF_STEPS : PCC_RETURNED, answer.value, 0};
    for (size_t k = 0; k < quads && !filter; k++)
        result.sum += at[k];
    return result;
}

/* Runs a packet in the arena, or between pages that may not be touched. */
static struct pcc_result run(const struct task *task, const uint8_t *packet, size_t length, const struct rooms *rooms) {
    bool filter = is_filter(task), tag = strcmp(task->policy, "tag") == 0;
    struct pcc_result none = {PCC_SHORT, 0, 0};
    uint64_t area[PCC_AREA], *scratch = (uint64_t *)(uintptr_t)ARENA, *at = scratch + (filter ? 2 : 0);
    if (length < (filter ? 64u : tag ? 16u : 0u))
        return none;
    length = tag ? 16 : length;
    size_t quads = (length + 7) / 8;
    if (rooms != NULL) {
        at = (uint64_t *)(void *)rooms->packet - quads;
        scratch = (uint64_t *)(void *)rooms->scratch - 2;
        mprotect(rooms->packet - ROOM, ROOM, PROT_READ | PROT_WRITE);
    }
    memset(at, 0, 8 * quads);
    memcpy(at, packet, length);
    if (filter)
        scratch[0] = scratch[1] = 0;
    if (filter && rooms != NULL)
        mprotect(rooms->packet - ROOM, ROOM, PROT_READ);
    return called(task, at, length, scratch, rooms != NULL ? (uint64_t *)(void *)rooms->area - PCC_AREA : area);
}

/* Runs all packets, and returns how many there are. */
static size_t run_all(const struct task *task, const struct rooms *rooms, struct ends *ends) {
    size_t count = 0;
    for (size_t at = 0, length; at + 4 <= task->length && count < MOST_PACKETS; at += 4 + length) {
        length = task->packets[at] | (size_t)task->packets[at + 1] << 8;
        if (length > task->length - at - 4)
            break;
        ends->at[count++] = run(task, task->packets + at + 4, length, rooms);
    }
    return count;
}

static void *thread(void *given) {
    struct thread *mine = given;
    struct rooms rooms = {guarded(ROOM), guarded(PAGE), guarded(PAGE)};
    mine->count = run_all(mine->task, &rooms, mine->ends);
    munmap(rooms.packet - ROOM - PAGE, ROOM + 2 * PAGE);
    munmap(rooms.scratch - 2 * PAGE, 3 * PAGE);
    munmap(rooms.area - 2 * PAGE, 3 * PAGE);
    return NULL;
}

static bool is_same(const struct pcc_result *a, const struct pcc_result *b) {
    return a->end == b->end && a->r0 == b->r0 && a->sum == b->sum;
}

/* Compares what threads get with what is due. */
static void try_threads(const struct task *task, const struct ends *due, size_t count) {
    static struct ends ends[THREADS];
    struct thread all[THREADS];
    pthread_t threads[THREADS];
    for (int k = 0; k < THREADS; k++) {
        all[k] = (struct thread){task, &ends[k], 0};
        demand(pthread_create(&threads[k], NULL, thread, &all[k]) == 0, "no thread");
    }
    for (int k = 0; k < THREADS; k++) {
        demand(pthread_join(threads[k], NULL) == 0 && all[k].count == count, "a thread's packets");
        for (size_t i = 0; i < count; i++)
            demand(is_same(&ends[k].at[i], &due->at[i]), "a thread's answer");
    }
}

static void print(const struct task *task, const struct ends *ends, size_t count) {
    for (size_t k = 0; k < count; k++) {
        const struct pcc_result *it = &ends->at[k];
        printf("%zu: ", k);
        if (it->end != PCC_RETURNED)
            puts(it->end == PCC_SHORT ? "short" : "out of steps");
        else
            printf(is_filter(task) ? "%" PRIu64 "\n" : "%" PRIu64 " %" PRIu64 "\n", it->r0, it->sum);
    }
}

/* Returns the code, mapped, in pages that can't be written; or prints why there is none. */
static bool has_code(struct task *task, const char *name) {
    static uint8_t container[MOST_FILE], code[MOST_FILE];
    size_t length = read_file(name, container, sizeof container), written = 0;
    uint32_t status = pcc_native((const uint8_t *)task->policy, strlen(task->policy), container, length, code, sizeof code, &written);
    if (status != PCC_DONE) {
        printf("status %u\n", (unsigned)status);
        return false;
    }
    demand(pcc_map_new(code, written, &task->map) == PCC_DONE, "pages for the code");
    return true;
}

static void try_task(char **words) {
    static uint8_t packets[MOST_FILE];
    static struct ends due;
    struct task task = {words[0], PCC_MAP_INIT, packets, 0, strtoull(words[3], NULL, 10)};
    if (!has_code(&task, words[1]))
        return;
    task.length = read_file(words[2], packets, sizeof packets);
    size_t count = run_all(&task, NULL, &due);
    try_threads(&task, &due, count);
    print(&task, &due, count);
    demand(pcc_map_free(&task.map) == PCC_DONE && task.map.call == NULL, "pages that are given back");
}

int main(int count, char **words) {
    void *arena = mmap((void *)(uintptr_t)ARENA, ROOM, PROT_READ | PROT_WRITE, MAP_PRIVATE | MAP_ANONYMOUS | MAP_FIXED_NOREPLACE, -1, 0);
    demand(arena == (void *)(uintptr_t)ARENA, "no pages at the arena's address");
    demand((count - 1) % WORDS == 0, "usage: try_native [POLICY CONTAINER PACKETS FUEL]..");
    for (int k = 1; k < count; k += WORDS)
        try_task(words + k);
    return 0;
}
