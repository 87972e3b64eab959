/* try_threads POLICY CONTAINER PACKETS: runs the packets in four threads at the same time, each with a host of its own.
 * The status is 1 if a thread's results aren't those of a host that is alone. */
#include "pcc.h"
#include <pthread.h>
#include <stdio.h>
#include <stdlib.h>
#include <string.h>

#define THREADS 4
#define ROUNDS 200

static uint8_t container[4194305], packets[4194305];
static size_t container_length, packets_length;
static const char *policy;

static size_t read_file(const char *name, uint8_t *to, size_t most) {
    FILE *file = fopen(name, "rb");
    size_t length = file != NULL ? fread(to, 1, most, file) : 0;
    if (file == NULL || fclose(file) != 0)
        perror(name);
    return length;
}

/* Runs all packets on a new host so many times. Stores a number that all results give; UINT64_MAX says that a call
 * failed. */
static uint64_t run_all(int rounds) {
    struct pcc_host host = PCC_HOST_INIT;
    struct pcc_result result;
    uint64_t total = 0;
    if (pcc_host_new((const uint8_t *)policy, strlen(policy), container, container_length, 1000000, &host) != PCC_DONE)
        return UINT64_MAX;
    for (int round = 0; round < rounds; round++) {
        total = 0;
        for (size_t at = 0, length; at + 4 <= packets_length; at += 4 + length) {
            length = packets[at] | (size_t)packets[at + 1] << 8;
            if (pcc_host_run(&host, packets + at + 4, length, &result) != PCC_DONE)
                return UINT64_MAX;
            total = total * 31 + result.end + result.r0 + result.sum;
        }
    }
    return pcc_host_free(&host) == PCC_DONE ? total : UINT64_MAX;
}

static void *thread(void *total) {
    *(uint64_t *)total = run_all(ROUNDS);
    return NULL;
}

int main(int count, char **words) {
    pthread_t threads[THREADS];
    uint64_t totals[THREADS] = {0};
    if (count != 4)
        return 2;
    policy = words[1];
    container_length = read_file(words[2], container, sizeof container);
    packets_length = read_file(words[3], packets, sizeof packets);
    for (int k = 0; k < THREADS; k++)
        if (pthread_create(&threads[k], NULL, thread, &totals[k]) != 0)
            return 1;
    uint64_t alone = run_all(1);
    for (int k = 0; k < THREADS; k++)
        if (pthread_join(threads[k], NULL) != 0 || totals[k] != alone || alone == UINT64_MAX)
            return 1;
    return 0;
}
