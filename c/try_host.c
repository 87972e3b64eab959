/* try_host COUNT [POLICY CONTAINER PACKETS STEPS]..: tries the host of each four words, and prints what `pcc run` prints
 * of the packets, or `status N` if there is no host. COUNT is the most allocations of pcc_host_new that are made to fail.
 * Each packet is run in three orders and in a block of its own; each call is also tried where its status is an error.
 * The status is 1, after a line about it, if a call doesn't do what pcc.h says. Needs heap.c with PCC_FAIL_AT. */
#include "pcc.h"
#include <inttypes.h>
#include <stdbool.h>
#include <stdio.h>
#include <stdlib.h>
#include <string.h>

#define WORDS 4         /* of a host */
#define PACKETS 70000u  /* of a file, at most */
#define FEW 3           /* hosts that are open at the same time */

extern size_t pcc_heap_calls, pcc_fail_at;
extern bool pcc_fail_on;

/* Bytes in a block of their own, so that a read past them is seen. */
struct bytes {
    uint8_t *at;
    size_t length;
};

/* What a host is made of. */
struct made {
    struct bytes policy, container;
    uint64_t steps;
};

static const struct pcc_host closed = PCC_HOST_INIT;
static const struct pcc_result marked = {77, 78, 79};
static struct bytes packets[PACKETS];
static struct pcc_result results[PACKETS];

static void demand(bool holds, const char *what) {
    if (!holds) {
        printf("wrong: %s\n", what);
        exit(1);
    }
}

static struct bytes block(size_t length, const void *from) {
    struct bytes made = {malloc(length != 0 ? length : 1), length};
    demand(made.at != NULL, "no memory for a block");
    if (from != NULL)
        memcpy(made.at, from, length);
    return made;
}

static struct bytes read_file(const char *name) {
    FILE *file = fopen(name, "rb");
    demand(file != NULL && fseek(file, 0, SEEK_END) == 0, name);
    long length = ftell(file);
    demand(length >= 0, name);
    struct bytes made = block((size_t)length, NULL);
    rewind(file);
    demand(fread(made.at, 1, made.length, file) == made.length, name);
    fclose(file);
    return made;
}

/* The packets of the file, each in a block of its own. Returns how many. */
static size_t read_packets(const char *name) {
    struct bytes file = read_file(name);
    size_t count = 0;
    for (size_t at = 0, length; at + 4 <= file.length && count < PACKETS; at += 4 + length) {
        length = file.at[at] | (size_t)file.at[at + 1] << 8;
        demand(length <= file.length - at - 4, name);
        packets[count++] = block(length, file.at + at + 4);
    }
    free(file.at);
    return count;
}

static uint32_t open_host(const struct made *made, struct pcc_host *host) {
    return pcc_host_new(made->policy.at, made->policy.length, made->container.at, made->container.length, made->steps, host);
}

static bool are_same(struct pcc_result one, struct pcc_result other) {
    return one.end == other.end && one.r0 == other.r0 && one.sum == other.sum;
}

/* The result of a packet, for which no memory is taken. */
static struct pcc_result result_of(struct pcc_host *host, struct bytes packet) {
    struct pcc_result result = marked;
    pcc_heap_calls = 0;
    demand(pcc_host_run(host, packet.at, packet.length, &result) == PCC_DONE, "a packet");
    demand(pcc_heap_calls == 0, "a packet takes memory");
    demand(host->live == 1, "a host after a packet");
    return result;
}

/* A handle without a host: run and free say so, and change nothing. */
static void try_closed(struct pcc_host *host) {
    struct pcc_host before = *host;
    struct pcc_result result = marked;
    struct bytes packet = block(64, results);
    demand(pcc_host_run(host, packet.at, packet.length, &result) == PCC_NO_HOST, "a packet without a host");
    demand(are_same(result, marked), "a result without a host");
    demand(pcc_host_free(host) == PCC_NO_HOST, "a host that isn't there");
    demand(host->live == 0 && host->at == before.at, "a handle without a host");
    free(packet.at);
}

/* What an open host refuses, without change. */
static void try_open(const struct made *made, struct pcc_host *host) {
    struct pcc_host before = *host;
    struct pcc_result result = marked;
    struct bytes packet = block(PCC_PACKET + 1, NULL);
    memset(packet.at, 0x5a, packet.length);
    pcc_heap_calls = 0;
    demand(open_host(made, host) == PCC_HOST_OPEN && pcc_heap_calls == 0, "a second host");
    demand(pcc_host_run(host, packet.at, packet.length, &result) == PCC_LONG_PACKET, "a long packet");
    demand(are_same(result, marked), "the result of a long packet");
    demand(host->live == 1 && host->at == before.at, "an open handle after a refusal");
    packet.length = PCC_PACKET;
    result_of(host, packet);
    free(packet.at);
}

/* Each allocation of pcc_host_new fails, alone and with those after it; if there are more than `most`, some of them. */
static void try_failures(const struct made *made, size_t most, uint32_t due) {
    struct pcc_host host = PCC_HOST_INIT;
    pcc_heap_calls = 0;
    demand(open_host(made, &host) == due, "a second try");
    size_t calls = pcc_heap_calls, step = most != 0 ? 1 + calls / most : 0;
    demand(host.live == (due == PCC_DONE), "a second handle");
    if (host.live == 1)
        demand(pcc_host_free(&host) == PCC_DONE && host.live == 0, "a host is freed");
    for (int on = 0; on < 2 && step != 0; on++) {
        pcc_fail_on = on == 1;
        for (pcc_fail_at = 1; pcc_fail_at <= calls; pcc_fail_at += step) {
            pcc_heap_calls = 0;
            demand(open_host(made, &host) == PCC_NO_MEMORY, "an allocation that fails");
            demand(host.live == 0, "a host without memory");
        }
    }
    pcc_fail_at = 0;
}

/* The host's results of all packets, printed as `pcc run` prints them, and again in other orders. */
static void try_packets(struct pcc_host *host, size_t count, bool has_sum) {
    for (size_t k = 0; k < count; k++) {
        struct pcc_result r = results[k] = result_of(host, packets[k]);
        printf("%zu: ", k);
        if (r.end == PCC_RETURNED && has_sum)
            printf("%" PRIu64 " %" PRIu64 "\n", r.r0, r.sum);
        else if (r.end == PCC_RETURNED)
            printf("%" PRIu64 "\n", r.r0);
        else
            puts(r.end == PCC_SHORT ? "short" : "out of steps");
        demand(r.end == PCC_RETURNED || r.r0 == 0, "register 0");
        demand(r.end <= PCC_OUT_OF_STEPS && (r.end != PCC_SHORT || r.sum == 0), "the end of a run");
    }
    for (size_t k = count; k-- > 0;) {
        demand(are_same(result_of(host, packets[k]), results[k]), "a packet in another order");
        demand(are_same(result_of(host, packets[k * 7 % count]), results[k * 7 % count]), "a packet again");
    }
}

static void try_host(char **words, size_t most) {
    struct made made = {block(strlen(words[0]), words[0]), read_file(words[1]), strtoull(words[3], NULL, 10)};
    struct pcc_host hosts[FEW] = {PCC_HOST_INIT, PCC_HOST_INIT, PCC_HOST_INIT};
    size_t count = read_packets(words[2]);
    try_closed(&hosts[0]);
    uint32_t status = open_host(&made, &hosts[0]);
    demand(hosts[0].live == (status == PCC_DONE), "a host exactly if the status is PCC_DONE");
    try_failures(&made, most, status);
    if (status != PCC_DONE) {
        demand(hosts[0].at == closed.at, "a handle after a refusal");
        try_closed(&hosts[0]);
        printf("status %" PRIu32 "\n", status);
    } else {
        try_open(&made, &hosts[0]);
        try_packets(&hosts[0], count, strcmp(words[0], "filter") != 0);
        for (int k = 1; k < FEW; k++)
            demand(open_host(&made, &hosts[k]) == PCC_DONE, "another host");
        for (size_t k = 0; k < count; k++)
            demand(are_same(result_of(&hosts[k % FEW], packets[k]), results[k]), "a packet on another host");
        for (int k = FEW; k-- > 0; try_closed(&hosts[k]))
            demand(pcc_host_free(&hosts[k]) == PCC_DONE, "a host at the end");
    }
    for (size_t k = 0; k < count; k++)
        free(packets[k].at);
    free(made.policy.at);
    free(made.container.at);
}

int main(int count, char **words) {
    demand(pcc_abi() == PCC_ABI, "the ABI");
    if (count < 2 || (count - 2) % WORDS != 0) {
        fputs("usage: try_host COUNT [POLICY CONTAINER PACKETS STEPS]..\n", stderr);
        return 2;
    }
    for (int i = 2; i < count; i += WORDS)
        try_host(words + i, strtoul(words[1], NULL, 10));
    return 0;
}
