/* The filters of examples/checksum and examples/port as native loops, for bench/all.sh and bench/bpf.sh.

   usage: native PACKETS TIMES [PROGRAM]  prints, of TIMES passes over the packets: seconds a pass of each
                                          filter, and how many packets each takes
   With -DWITH_PCAP -lpcap it also has libpcap's filter `tcp dst port 80` go over the same packets, and
   libpcap's interpreter go round a loop of six instructions (seconds, and how many instructions). With
   PROGRAM, instructions of classic BPF as `pcc bpf` reads them, it has libpcap's interpreter run that
   over the packets, and nothing else. */
#include <stdint.h>
#include <stdio.h>
#include <stdlib.h>
#include <string.h>
#include <time.h>
#ifdef WITH_PCAP
#include <pcap/pcap.h>
#endif

struct packet { const unsigned char *bytes; uint32_t length; };

static uint64_t quadword(const unsigned char *bytes) {
    uint64_t word;
    memcpy(&word, bytes, 8); /* little-endian machines, as the format is */
    return word;
}

/* Packets are copied to multiples of 8 with zeros behind them, so the last quadword may be read. */
static int checksum(const struct packet *p) {
    uint64_t sum, at;
    if (p->length < 64 || p->bytes[12] != 8 || p->bytes[13] != 0 || p->bytes[23] != 1) return 0;
    sum = quadword(p->bytes + 8) >> 48;
    for (at = 16; at < p->length; at += 8) {
        uint64_t word = quadword(p->bytes + at);
        sum += (word >> 32) + (word & 0xFFFFFFFF);
    }
    sum = (sum & 0xFFFFFFFF) + (sum >> 32);
    while (sum >> 16) sum = (sum & 0xFFFF) + (sum >> 16);
    return sum == 0xFFFF;
}

static int port(const struct packet *p) {
    const unsigned char *b = p->bytes;
    unsigned words, at;
    if (p->length < 64 || b[12] != 8 || b[13] != 0 || b[14] >> 4 != 4 || b[23] != 6 || (b[20] & 31) || b[21]) return 0;
    words = b[14] & 15;
    at = 16 + 4 * words;
    if (words < 5 || (at & ~7u) >= p->length) return 0;
    return b[at] == 0 && b[at + 1] == 80;
}

static double now(void) {
    struct timespec t;
    clock_gettime(CLOCK_PROCESS_CPUTIME_ID, &t); /* as run is measured */
    return t.tv_sec + t.tv_nsec / 1e9;
}

static void pass(const char *name, int (*taken)(const struct packet *), const struct packet *packets, size_t count, long times) {
    volatile long sum = 0;
    double start = now();
    for (long k = 0; k < times; k++)
        for (size_t i = 0; i < count; i++) sum += taken(packets + i);
    printf("%s %.9f %ld\n", name, (now() - start) / times, sum / times);
}

#ifdef WITH_PCAP
#define MAX_INSNS 4096

static struct bpf_program program;

/* Fields as they stand in a file are those in memory, on a little-endian machine. */
static int read_program(const char *path) {
    static struct bpf_insn insns[MAX_INSNS];
    FILE *file = fopen(path, "rb");
    if (file == NULL) return 0;
    program.bf_insns = insns;
    program.bf_len = fread(insns, sizeof *insns, MAX_INSNS, file);
    return fclose(file) == 0 && bpf_validate(insns, (int)program.bf_len);
}

static int libpcap(const struct packet *p) {
    struct pcap_pkthdr header;
    memset(&header, 0, sizeof header);
    header.caplen = header.len = p->length;
    return p->length >= 64 && pcap_offline_filter(&program, &header, p->bytes) != 0;
}

#define ROUNDS 50000000

/* Its jumps back are those that libpcap itself makes for `ip6 protochain`. */
static void six(void) {
    static const unsigned char packet[64];
    struct bpf_insn code[] = {
        BPF_STMT(BPF_LD | BPF_IMM, ROUNDS),
        BPF_STMT(BPF_MISC | BPF_TAX, 0),
        BPF_STMT(BPF_ALU | BPF_AND | BPF_K, 255),
        BPF_STMT(BPF_MISC | BPF_TXA, 0),
        BPF_STMT(BPF_ALU | BPF_SUB | BPF_K, 1),
        BPF_JUMP(BPF_JMP | BPF_JEQ | BPF_K, 0, 1, 0),
        BPF_STMT(BPF_JMP | BPF_JA, -6u),
        BPF_STMT(BPF_RET | BPF_K, 1),
    };
    double start = now();
    if (bpf_filter(code, packet, sizeof packet, sizeof packet) == 1)
        printf("six %.9f %ld\n", now() - start, 6L * ROUNDS);
}
#endif

int main(int argc, char **argv) {
    FILE *file = argc == 3 || argc == 4 ? fopen(argv[1], "rb") : NULL;
    long times = file != NULL ? atol(argv[2]) : 0;
    struct packet *packets = calloc(1 << 20, sizeof *packets);
    size_t count = 0;
    unsigned char field[4];
    if (file == NULL || times < 1 || packets == NULL) return 1;
    while (count < 1 << 20 && fread(field, 1, 4, file) == 4) {
        uint32_t length = field[0] | field[1] << 8 | field[2] << 16 | (uint32_t)field[3] << 24;
        unsigned char *bytes = length > 65535 ? NULL : calloc(1, length + 64);
        if (bytes == NULL || fread(bytes, 1, length, file) != length) return 1;
        packets[count].bytes = bytes;
        packets[count++].length = length;
    }
#ifdef WITH_PCAP
    if (argc == 4) {
        if (!read_program(argv[3])) return 1;
        pass("program", libpcap, packets, count, times);
        return 0;
    }
#endif
    pass("checksum", checksum, packets, count, times);
    pass("port", port, packets, count, times);
#ifdef WITH_PCAP
    pcap_t *dead = pcap_open_dead(DLT_EN10MB, 65535);
    if (dead == NULL || pcap_compile(dead, &program, "tcp dst port 80", 1, PCAP_NETMASK_UNKNOWN) != 0) return 1;
    pass("libpcap", libpcap, packets, count, times);
    six();
#endif
    return 0;
}
