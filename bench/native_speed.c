/* Times functions on the same packets, in turn, for bench/native.sh.

   usage: native_speed PACKETS ROUNDS REPEATS KIND:FILE..
   KIND is N: a shared object with `pcc_code`, as pcc_native writes it; C: a shared object with `filter`, of a packet and its
   length; B: a program of libpcap's interpreter, as `tcpdump -ddd` prints it; with -DWITH_LIBRARY, L: a container for the
   policy `filter`, for libpcc's host; E: nothing, for what a call takes.
   In each repeat every file has ROUNDS passes over the packets. A line for each: nanoseconds of processor time a packet, of
   each repeat, and how many packets it takes. */
#define _GNU_SOURCE
#include <dlfcn.h>
#include <pcap/pcap.h>
#include <stdint.h>
#include <stdio.h>
#include <stdlib.h>
#include <string.h>
#include <time.h>
#ifdef WITH_LIBRARY
#include "../c/pcc.h"
#else
struct pcc_host { void *none; };
#endif

struct end { uint64_t word, why; };
typedef struct end (*code_t)(const uint8_t *, uint64_t, uint64_t *, uint64_t *, uint64_t);
typedef uint64_t (*filter_t)(const uint8_t *, uint64_t);
struct packet { uint8_t *bytes; uint32_t length; };
struct runner { char kind; code_t code; filter_t filter; struct bpf_insn *insns; struct pcc_host host; double *times; uint64_t taken; };

static struct packet *packets;
static size_t count;
static uint64_t area[31], scratch[2];

static double now(void) {
    struct timespec t;
    clock_gettime(CLOCK_THREAD_CPUTIME_ID, &t);
    return t.tv_sec * 1e9 + t.tv_nsec;
}

__attribute__((noinline)) static struct end nothing(const uint8_t *a, uint64_t b, uint64_t *c, uint64_t *d, uint64_t e) {
    __asm__ volatile("" : : "r"(a), "r"(b), "r"(c), "r"(d), "r"(e));
    return (struct end){0, 0};
}

static void call_code(struct runner *r) {
    for (size_t i = 0; i < count; i++) {
        scratch[0] = scratch[1] = 0;
        struct end e = r->code(packets[i].bytes, packets[i].length, scratch, area, UINT64_MAX);
        r->taken += e.word + e.why;
    }
}

#ifdef WITH_LIBRARY
static void run_host(struct runner *r) {
    for (size_t i = 0; i < count; i++) {
        struct pcc_result result = {0};
        if (pcc_host_run(&r->host, packets[i].bytes, packets[i].length, &result) != PCC_DONE) exit(3);
        r->taken += result.r0 != 0;
    }
}

static void make_host(struct runner *r, const char *path) {
    static uint8_t container[1 << 22];
    FILE *file = fopen(path, "rb");
    if (!file) exit(3);
    size_t length = fread(container, 1, sizeof container, file);
    fclose(file);
    if (pcc_host_new((const uint8_t *)"filter", 6, container, length, 1000000000, &r->host) != PCC_DONE) exit(3);
}
#else
static void run_host(struct runner *r) { (void)r; exit(2); }
static void make_host(struct runner *r, const char *path) { (void)r, (void)path; exit(2); }
#endif

static void pass(struct runner *r) {
    r->taken = 0;
    if (r->kind == 'N' || r->kind == 'E') call_code(r);
    else if (r->kind == 'L') run_host(r);
    else if (r->kind == 'C') for (size_t i = 0; i < count; i++) r->taken += r->filter(packets[i].bytes, packets[i].length);
    else for (size_t i = 0; i < count; i++)
        r->taken += bpf_filter(r->insns, packets[i].bytes, packets[i].length, packets[i].length) != 0;
}

/* Packets stand at multiples of 8 with zeros behind them. Those below 64 bytes are left out. */
static void read_packets(const char *path) {
    FILE *file = fopen(path, "rb");
    uint32_t length;
    if (!file || !(packets = malloc(sizeof *packets << 16))) exit(3);
    while (count < 1 << 16 && fread(&length, 4, 1, file) == 1) {
        size_t room = (length + 15) / 8 * 8;
        uint8_t *bytes = aligned_alloc(8, room);
        if (!bytes || fread(memset(bytes, 0, room), 1, length, file) != length) exit(3);
        if (length >= 64) packets[count++] = (struct packet){bytes, length};
    }
    fclose(file);
}

static struct bpf_insn *read_program(const char *path) {
    FILE *file = fopen(path, "r");
    unsigned n, code, jt, jf;
    unsigned long k;
    if (!file || fscanf(file, "%u", &n) != 1) exit(3);
    struct bpf_insn *insns = calloc(n, sizeof *insns);
    for (unsigned i = 0; i < n; i++) {
        if (fscanf(file, "%u %u %u %lu", &code, &jt, &jf, &k) != 4) exit(3);
        insns[i] = (struct bpf_insn){code, jt, jf, k};
    }
    fclose(file);
    return insns;
}

static void *symbol(const char *path, const char *name) {
    void *object = dlopen(path, RTLD_NOW), *found = object ? dlsym(object, name) : NULL;
    if (!found) fprintf(stderr, "%s\n", dlerror()), exit(3);
    return found;
}

static void load(struct runner *r, const char *word, long repeats) {
    r->kind = word[0];
    r->times = calloc(repeats, sizeof(double));
    if (r->kind == 'E') r->code = nothing;
    else if (r->kind == 'N') r->code = (code_t)symbol(word + 2, "pcc_code");
    else if (r->kind == 'L') make_host(r, word + 2);
    else if (r->kind == 'C') r->filter = (filter_t)symbol(word + 2, "filter");
    else r->insns = read_program(word + 2);
}

int main(int words, char **word) {
    if (words < 5) return 2;
    read_packets(word[1]);
    long rounds = atol(word[2]), repeats = atol(word[3]);
    int runners = words - 4;
    struct runner *r = calloc(runners, sizeof *r);
    for (int i = 0; i < runners; i++) {
        load(r + i, word[4 + i], repeats);
        pass(r + i);
    }
    for (long k = 0; k < repeats; k++)
        for (int i = 0; i < runners; i++) {
            double start = now();
            for (long n = 0; n < rounds; n++) pass(r + i);
            r[i].times[k] = (now() - start) / rounds / count;
        }
    for (int i = 0; i < runners; i++) {
        for (long k = 0; k < repeats; k++) printf("%.4f ", r[i].times[k]);
        printf("%lu\n", r[i].taken);
    }
    return 0;
}
