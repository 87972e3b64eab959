/* library ROUNDS EXPRESSION..: times pcc_host_run beside libpcap's bpf_filter, on the same filters and packets. For each
 * expression and length of packets it prints nanoseconds a packet, the best of five turns of so many rounds. With 0 rounds
 * only the answers are compared. The status is 1 if the two disagree on a packet. */
#include "../c/pcc.h"
#include <pcap/pcap.h>
#include <stdbool.h>
#include <stdio.h>
#include <stdlib.h>
#include <string.h>
#include <time.h>

#define PACKETS 64
#define TURNS 5

static const size_t lengths[] = {64, 576, 1500, 9000};
static uint8_t packets[PACKETS][9000], container[4194304];

/* What both run. */
struct filter {
    struct bpf_program program;
    struct pcc_host host;
};

static double seconds(void) {
    struct timespec now;
    clock_gettime(CLOCK_MONOTONIC, &now);
    return (double)now.tv_sec + (double)now.tv_nsec * 1e-9;
}

/* Random packets of Ethernet: three of four are IPv4, half of them UDP, some from or to 10.0.0.1. */
static void make_packets(void) {
    srand(1);
    for (int k = 0; k < PACKETS; k++) {
        for (size_t i = 0; i < sizeof packets[k]; i++)
            packets[k][i] = (uint8_t)rand();
        packets[k][12] = 8, packets[k][13] = k % 4 == 3 ? 6 : 0;
        packets[k][14] = 0x45, packets[k][20] = packets[k][21] = 0;
        packets[k][23] = k % 2 != 0 ? 17 : 6;
        if (k % 8 == 1)
            memcpy(packets[k] + 26, "\12\0\0\1", 4);
    }
}

static struct filter compile(const char *expression) {
    struct filter made = {{0, NULL}, PCC_HOST_INIT};
    pcap_t *device = pcap_open_dead(DLT_EN10MB, 65535);
    size_t length = 0;
    if (pcap_compile(device, &made.program, expression, 1, PCAP_NETMASK_UNKNOWN) != 0 ||
        pcc_bpf((const uint8_t *)made.program.bf_insns, 8 * made.program.bf_len, container, sizeof container, &length) != 0 ||
        pcc_host_new((const uint8_t *)"filter", 6, container, length, 1000000, &made.host) != 0) {
        fprintf(stderr, "library: %s isn't compiled\n", expression);
        exit(1);
    }
    pcap_close(device);
    return made;
}

static bool by_pcap(struct filter *filter, int k, size_t length) {
    return bpf_filter(filter->program.bf_insns, packets[k], (unsigned)length, (unsigned)length) != 0;
}

static bool by_host(struct filter *filter, int k, size_t length) {
    struct pcc_result result;
    return pcc_host_run(&filter->host, packets[k], length, &result) == PCC_DONE && result.r0 != 0;
}

/* Returns nanoseconds a packet, the best of five turns. */
static double time_of(bool (*run)(struct filter *, int, size_t), struct filter *filter, size_t length, long rounds) {
    double best = 1e9;
    static volatile long taken;
    for (int turn = 0; turn < TURNS; turn++) {
        double begun = seconds();
        for (long k = 0; k < rounds; k++)
            taken += run(filter, (int)(k % PACKETS), length);
        double took = seconds() - begun;
        best = took < best ? took : best;
    }
    return best / (double)rounds * 1e9;
}

static void try_filter(const char *expression, long rounds) {
    struct filter filter = compile(expression);
    for (size_t n = 0; n < sizeof lengths / sizeof *lengths; n++) {
        for (int k = 0; k < PACKETS; k++)
            if (by_pcap(&filter, k, lengths[n]) != by_host(&filter, k, lengths[n])) {
                fprintf(stderr, "library: %s, %zu bytes: packet %d differs\n", expression, lengths[n], k);
                exit(1);
            }
        if (rounds == 0)
            continue;
        double pcap = time_of(by_pcap, &filter, lengths[n], rounds), host = time_of(by_host, &filter, lengths[n], rounds);
        printf("| `%s`, %u | %zu | %.0f | %.0f | %.1f |\n", expression, filter.program.bf_len, lengths[n], pcap, host, host / pcap);
    }
    pcap_freecode(&filter.program);
    pcc_host_free(&filter.host);
}

int main(int count, char **words) {
    if (count < 3)
        return 2;
    make_packets();
    for (int k = 2; k < count; k++)
        try_filter(words[k], atol(words[1]));
    return 0;
}
