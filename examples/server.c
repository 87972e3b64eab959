/* Checks and runs filters of strangers, as native code, over the packets of a file. One thread, any number of clients.
 *
 * usage: server SOCKET PACKETS    a Unix socket that this makes, and a packet file, as for `pcc run`
 *
 * A client sends containers for the policy `filter`, each after its length in four bytes, the lowest first, and gets a line
 * for each, in order:
 *
 *   matched M of N             it is accepted, and its code returned 1 on M of the N packets; short ones don't match
 *   refused 11 NotProof, ..    it isn't: the line of `pcc check`
 *   too slow                   check and run took more than 2 seconds of the processor
 *   no memory                  they took more than 512 MB, or code of more than 4 MB
 *   too long                   it has more than 4,194,304 bytes; the connection ends
 *
 * Check and run are done by a child process of each container. So nothing that a stranger sent is read by this process but
 * its bytes, and it runs no stranger's code. The child hands accepted code over, and it is kept by the SHA-256 of its
 * container: a later child then only runs it. At most 64 are kept. A client that sends nothing for 10 seconds is dropped.
 *
 * After SIGINT or SIGTERM it prints what it counted, and its status is 0; 1 if it can't begin, and 2 for a usage error.
 *
 * cc -O2 examples/server.c examples/sha256.c $(pkg-config --cflags --libs libpcc) -o server */
#define _GNU_SOURCE
#include "pcc_map.h"
#include "sha256.h"
#include <errno.h>
#include <poll.h>
#include <signal.h>
#include <stdbool.h>
#include <stdio.h>
#include <stdlib.h>
#include <string.h>
#include <sys/mman.h>
#include <sys/resource.h>
#include <sys/socket.h>
#include <sys/un.h>
#include <sys/wait.h>
#include <time.h>
#include <unistd.h>

enum { CLIENTS = 64, CHILDREN = 4, KEPT = 64, LONGEST = 4194304, CODE = 4194304, LEAST = 64, IDLE = 10, SECONDS = 2 };
#define MEMORY (512ul << 20)
#define FUEL 1000000

/* A packet at a multiple of 8, with zeros up to one. */
struct packet {
    uint64_t *at;
    size_t length;
};

/* Accepted code, by the digest of its container. */
struct kept {
    uint8_t digest[SHA256_SIZE];
    struct pcc_map map; /* without code where the entry is free */
    uint64_t used;
};

/* What a child hands over: the status of pcc_native, its bytes, and how many packets matched. */
struct result {
    uint32_t status;
    size_t length, matched;
    uint8_t bytes[CODE];
};

enum state { FREE, READING, WAITING, RUNNING };

struct client {
    enum state state;
    int socket;
    uint8_t head[4], digest[SHA256_SIZE], *container;
    size_t have, length; /* have: bytes of head and container */
    time_t heard;
    pid_t child;
    int ended; /* a pipe that ends with the child */
    struct result *result;
};

static struct client clients[CLIENTS];
static struct kept kept[KEPT];
static struct packet *packets;
static size_t packet_count, children;
static uint64_t turn;
static struct {
    unsigned long asked, accepted, refused, slow, exhausted, oversized, from_kept, lost;
} counts;
static volatile sig_atomic_t stopped;

static void stop(int number) {
    stopped = number;
}

static void fail(const char *what) {
    perror(what);
    exit(1);
}

/* ---- packets */

static void add_packet(FILE *file, size_t length) {
    struct packet *longer = realloc(packets, (packet_count + 1) * sizeof *packets);
    uint64_t *at = calloc(length / 8 + 1, 8);
    if (longer == NULL || at == NULL || fread(at, 1, length, file) != length)
        fail("packets");
    packets = longer;
    packets[packet_count++] = (struct packet){at, length};
}

static void read_packets(const char *name) {
    uint8_t head[4];
    FILE *file = fopen(name, "rb");
    if (file == NULL)
        fail(name);
    while (fread(head, 1, sizeof head, file) == sizeof head)
        add_packet(file, head[0] | (size_t)head[1] << 8 | (size_t)head[2] << 16 | (size_t)head[3] << 24);
    fclose(file);
}

static size_t matches(const struct pcc_map *map) {
    size_t matched = 0;
    for (size_t k = 0; k < packet_count; k++) {
        uint64_t scratch[2] = {0, 0}, area[PCC_AREA];
        if (packets[k].length >= LEAST)
            matched += map->call((uintptr_t)packets[k].at, packets[k].length, (uintptr_t)scratch, area, FUEL).value == 1;
    }
    return matched;
}

/* ---- what is kept */

static struct kept *find(const uint8_t *digest) {
    for (struct kept *k = kept; k < kept + KEPT; k++)
        if (k->map.call != NULL && memcmp(k->digest, digest, SHA256_SIZE) == 0)
            return k;
    return NULL;
}

/* Keeps code in the place of that which was used the longest ago. */
static void keep(const uint8_t *digest, const uint8_t *code, size_t length) {
    struct kept *oldest = kept;
    for (struct kept *k = kept; k < kept + KEPT; k++)
        if (k->used < oldest->used)
            oldest = k;
    pcc_map_free(&oldest->map);
    oldest->used = 0;
    if (pcc_map_new(code, length, &oldest->map) != PCC_DONE)
        return;
    memcpy(oldest->digest, digest, SHA256_SIZE);
    oldest->used = ++turn;
}

/* ---- a child */

static void limit(int what, rlim_t most, rlim_t last) {
    struct rlimit both = {most, last};
    if (setrlimit(what, &both) != 0)
        _exit(1);
}

/* Checks the container, unless its code is kept, and runs the code. */
static void work(const struct client *c, const struct kept *known) {
    struct pcc_map map = PCC_MAP_INIT;
    struct result *to = c->result;
    limit(RLIMIT_CPU, SECONDS, SECONDS + 1); /* SIGXCPU at the first, SIGKILL at the last */
    limit(RLIMIT_CORE, 0, 0);
#ifndef WITHOUT_MEMORY_LIMIT /* a sanitizer needs more */
    limit(RLIMIT_AS, MEMORY, MEMORY);
#endif
    uint32_t status = PCC_DONE;
    if (known == NULL) {
        status = pcc_native((const uint8_t *)"filter", 6, c->container, c->length, to->bytes, sizeof to->bytes, &to->length);
        if (status == PCC_DONE)
            status = pcc_map_new(to->bytes, to->length, &map);
    }
    if (status == PCC_DONE)
        to->matched = matches(known != NULL ? &known->map : &map);
    to->status = status;
    _exit(0);
}

static bool is_under_way(const uint8_t *digest) {
    for (struct client *c = clients; c < clients + CLIENTS; c++)
        if (c->state == RUNNING && memcmp(c->digest, digest, SHA256_SIZE) == 0)
            return true;
    return false;
}

/* Begins the child of a client that waits. Without memory for it the client goes on waiting. */
static void begin(struct client *c) {
    int ends[2];
    struct kept *known = find(c->digest);
    if (children == CHILDREN || (known == NULL && is_under_way(c->digest)))
        return;
    void *shared = mmap(NULL, sizeof *c->result, PROT_READ | PROT_WRITE, MAP_SHARED | MAP_ANONYMOUS, -1, 0);
    if (shared == MAP_FAILED || pipe(ends) != 0) {
        if (shared != MAP_FAILED)
            munmap(shared, sizeof *c->result);
        return;
    }
    c->result = shared;
    c->result->status = PCC_NO_MEMORY;
    c->child = fork();
    if (c->child == 0)
        work(c, known);
    close(ends[1]);
    c->ended = ends[0];
    c->state = RUNNING;
    children++;
    counts.from_kept += known != NULL;
    if (known != NULL)
        known->used = ++turn;
}

/* Takes the child away, and returns the status that it ended with. */
static int reap(struct client *c) {
    int status = 0;
    if (c->child > 0)
        waitpid(c->child, &status, 0);
    close(c->ended);
    children--;
    return c->child > 0 ? status : -1;
}

/* ---- a client */

static void next_request(struct client *c) {
    free(c->container);
    c->container = NULL;
    c->have = c->length = 0;
    c->state = READING;
    c->heard = time(NULL);
}

static void drop(struct client *c) {
    counts.lost += c->state != READING || c->have != 0;
    if (c->state == RUNNING) {
        if (c->child > 0)
            kill(c->child, SIGKILL);
        reap(c);
        munmap(c->result, sizeof *c->result);
    }
    free(c->container);
    close(c->socket);
    *c = (struct client){.state = FREE};
}

/* Sends a line and goes on to the client's next request; a client that doesn't take it is dropped. */
static void answer(struct client *c, const char *line) {
    size_t length = strlen(line);
    if (send(c->socket, line, length, MSG_DONTWAIT | MSG_NOSIGNAL) != (ssize_t)length)
        drop(c);
    else
        next_request(c);
}

/* Tells the client what its child came to, and keeps the code that it made. */
static void finish(struct client *c) {
    char line[PCC_LINE + 2];
    int ended = reap(c);
    struct result *result = c->result;
    c->state = WAITING;
    if (WIFSIGNALED(ended) && WTERMSIG(ended) == SIGXCPU) {
        counts.slow++;
        strcpy(line, "too slow\n");
    } else if (ended != 0 || result->status >= PCC_UNKNOWN_POLICY) {
        counts.exhausted++;
        strcpy(line, "no memory\n");
    } else if (result->status != PCC_DONE) {
        counts.refused++;
        snprintf(line, sizeof line, "%.*s\n", (int)result->length, (const char *)result->bytes);
    } else {
        counts.accepted++;
        snprintf(line, sizeof line, "matched %zu of %zu\n", result->matched, packet_count);
        if (result->length != 0 && find(c->digest) == NULL)
            keep(c->digest, result->bytes, result->length);
    }
    munmap(result, sizeof *result);
    answer(c, line);
}

/* Goes on when all of the length, or of the container, is there. */
static void after_read(struct client *c) {
    if (c->have == sizeof c->head) {
        c->length = c->head[0] | (size_t)c->head[1] << 8 | (size_t)c->head[2] << 16 | (size_t)c->head[3] << 24;
        counts.asked++;
        if (c->length > LONGEST) {
            counts.oversized++;
            send(c->socket, "too long\n", 9, MSG_DONTWAIT | MSG_NOSIGNAL);
            next_request(c);
            drop(c);
            return;
        }
        c->container = malloc(c->length + 1);
        if (c->container == NULL) {
            drop(c);
            return;
        }
    }
    if (c->have == sizeof c->head + c->length) {
        sha256(c->container, c->length, c->digest);
        c->state = WAITING;
    }
}

static void read_some(struct client *c) {
    bool is_head = c->have < sizeof c->head;
    uint8_t *to = is_head ? c->head + c->have : c->container + (c->have - sizeof c->head);
    size_t room = is_head ? sizeof c->head - c->have : sizeof c->head + c->length - c->have;
    ssize_t got = recv(c->socket, to, room, MSG_DONTWAIT);
    if (got < 0 && (errno == EAGAIN || errno == EINTR))
        return;
    if (got <= 0) {
        drop(c);
        return;
    }
    c->have += (size_t)got;
    c->heard = time(NULL);
    if ((size_t)got == room)
        after_read(c);
}

static void accept_client(int listener) {
    for (struct client *c = clients; c < clients + CLIENTS; c++)
        if (c->state == FREE) {
            c->socket = accept(listener, NULL, NULL);
            if (c->socket >= 0)
                next_request(c);
            return;
        }
}

/* ---- the server */

static int listening(const char *name) {
    struct sockaddr_un address = {.sun_family = AF_UNIX};
    int listener = socket(AF_UNIX, SOCK_STREAM, 0);
    if (strlen(name) >= sizeof address.sun_path)
        errno = ENAMETOOLONG, fail(name);
    strcpy(address.sun_path, name);
    if (listener < 0 || bind(listener, (struct sockaddr *)&address, sizeof address) != 0 || listen(listener, CLIENTS) != 0)
        fail(name);
    return listener;
}

/* Waits until a client sends something, or a child ends, or a new client comes; a second at most. */
static void serve_once(int listener) {
    struct pollfd wanted[1 + 2 * CLIENTS];
    bool has_place = false;
    for (size_t k = 0; k < CLIENTS; k++) {
        struct client *c = &clients[k];
        has_place |= c->state == FREE;
        wanted[1 + k] = (struct pollfd){c->state != FREE ? c->socket : -1, c->state == READING ? POLLIN : 0, 0};
        wanted[1 + CLIENTS + k] = (struct pollfd){c->state == RUNNING ? c->ended : -1, POLLIN, 0};
    }
    wanted[0] = (struct pollfd){has_place ? listener : -1, POLLIN, 0};
    if (poll(wanted, 1 + 2 * CLIENTS, 1000) < 0)
        return;
    for (size_t k = 0; k < CLIENTS; k++) {
        struct client *c = &clients[k];
        if (wanted[1 + CLIENTS + k].revents != 0)
            finish(c);
        else if (c->state == READING && wanted[1 + k].revents != 0)
            read_some(c);
        else if ((wanted[1 + k].revents & (POLLHUP | POLLERR)) != 0 || (c->state == READING && time(NULL) - c->heard > IDLE))
            drop(c);
    }
    if (wanted[0].revents != 0)
        accept_client(listener);
    for (size_t k = 0; k < CLIENTS; k++) /* not always the same first */
        if (clients[(turn + k) % CLIENTS].state == WAITING)
            begin(&clients[(turn + k) % CLIENTS]);
}

int main(int count, char **words) {
    struct sigaction ends = {.sa_handler = stop};
    if (count != 3)
        return fputs("usage: server SOCKET PACKETS\n", stderr), 2;
    read_packets(words[2]);
    sigaction(SIGINT, &ends, NULL);
    sigaction(SIGTERM, &ends, NULL);
    int listener = listening(words[1]);
    while (stopped == 0)
        serve_once(listener);
    unlink(words[1]);
    for (struct client *c = clients; c < clients + CLIENTS; c++)
        if (c->state != FREE)
            drop(c);
    printf("asked %lu, accepted %lu (%lu of them kept), refused %lu, too slow %lu, no memory %lu, too long %lu, lost %lu\n", counts.asked,
           counts.accepted, counts.from_kept, counts.refused, counts.slow, counts.exhausted, counts.oversized, counts.lost);
    return 0;
}
