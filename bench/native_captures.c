/* Writes the frames of a capture that an expression takes, by `bpf_filter`, or by a function of a shared object: what
 * bench/native_captures compares examples/capture.c with.
 *
 * usage: native_captures FILE OUT EXPRESSION [OBJECT]     OBJECT defines uint64_t filter(const uint8_t *, uint64_t) */
#define _DEFAULT_SOURCE /* u_char, for libpcap */
#include <dlfcn.h>
#include <pcap/pcap.h>
#include <stdio.h>
#include <stdlib.h>
#include <string.h>

typedef uint64_t function(const uint8_t *frame, uint64_t length);

struct run {
    struct bpf_program program;
    function *filter; /* or null for the program */
    pcap_dumper_t *out;
};

static void demand(int holds, const char *what) {
    if (!holds) {
        fprintf(stderr, "native_captures: %s\n", what);
        exit(1);
    }
}

static void take(u_char *user, const struct pcap_pkthdr *head, const u_char *bytes) {
    struct run *run = (struct run *)(void *)user;
    if (run->filter != NULL ? run->filter(bytes, head->caplen) != 0
                            : bpf_filter(run->program.bf_insns, bytes, head->len, head->caplen) != 0)
        pcap_dump((u_char *)run->out, head, bytes);
}

static function *function_of(const char *object) {
    function *found;
    void *library = dlopen(object, RTLD_NOW), *symbol = library != NULL ? dlsym(library, "filter") : NULL;
    demand(symbol != NULL, object);
    memcpy(&found, &symbol, sizeof found);
    return found;
}

int main(int count, char **words) {
    char why[PCAP_ERRBUF_SIZE];
    struct run run = {.filter = NULL};
    demand(count == 4 || count == 5, "usage: native_captures FILE OUT EXPRESSION [OBJECT]");
    pcap_t *in = pcap_open_offline(words[1], why);
    demand(in != NULL, words[1]);
    demand(pcap_compile(in, &run.program, words[3], 1, PCAP_NETMASK_UNKNOWN) == 0, words[3]);
    if (count == 5)
        run.filter = function_of(words[4]);
    run.out = pcap_dump_open(in, words[2]);
    demand(run.out != NULL, words[2]);
    demand(pcap_loop(in, -1, take, (u_char *)&run) == 0 && pcap_dump_flush(run.out) == 0, "the capture");
    pcap_dump_close(run.out);
    pcap_close(in);
    return 0;
}
