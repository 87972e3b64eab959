/* Filters Ethernet frames by native code: of a capture, pcap or pcapng, or of a device.
 *
 * usage: capture [-p PROGRAM | -c CONTAINER] [-w OUT] [-n COUNT] -r FILE | -i DEVICE [EXPRESSION]
 *
 *   EXPRESSION    as for tcpdump: libpcap and pcc_bpf compile it. Without one every frame matches
 *   -p PROGRAM    a program of classic BPF in its place, 8 bytes an instruction, as examples/from_tcpdump makes them
 *   -c CONTAINER  a container for the policy `filter` in its place
 *   -w OUT        writes the matching frames to the capture OUT; - is standard output
 *   -n COUNT      ends after so many frames
 *   -r FILE       the capture; - is standard input
 *   -i DEVICE     a device that the system lets you listen to
 *
 * At the end it prints how many frames there were, how many matched, how many were short, below 64 bytes, and how many
 * were cut. Short frames are filled with zeros up to 64 bytes. A frame is cut, and doesn't match, if the capture lacks
 * bytes of it that the filter may read: those of the first 64, or any if there is a CONTAINER.
 *
 * The status is 0; 1 if something can't be read, compiled, checked or written; 2 for a usage error; 130 after Ctrl-C and
 * 143 after SIGTERM, with OUT and counts of the frames so far.
 *
 * cc -O2 examples/capture.c $(pkg-config --cflags --libs libpcc) -lpcap -o capture */
#define _DEFAULT_SOURCE /* u_char, for libpcap */
#include "pcc_map.h"
#include <pcap/pcap.h>
#include <signal.h>
#include <stdarg.h>
#include <stdbool.h>
#include <stdio.h>
#include <stdlib.h>
#include <string.h>
#include <time.h>
#include <unistd.h>

#define POLICY (const uint8_t *)"filter", 6
#define FUEL 1000000
enum { LEAST = 64, MOST = 262144, MOST_FILE = 4194305, BATCH = 4096, WAIT = 100 };

struct bytes {
    uint8_t *at;
    size_t count;
};

/* What the words of the command say. */
struct words {
    const char *program, *container, *out, *file, *device, *expression;
    uint64_t most;
};

/* A filter: native code, and whether it reads whole frames, or their first 64 bytes alone. */
struct filter {
    struct pcc_map map;
    bool is_whole;
};

struct counts {
    uint64_t frames, matched, brief, cut, spent;
};

/* A capture that is being filtered. */
struct run {
    pcap_t *in;
    pcap_dumper_t *out;
    struct filter filter;
    struct counts counts;
};

static pcap_t *reading;
static volatile sig_atomic_t stopped;

static void stop(int number) {
    stopped = number;
    pcap_breakloop(reading);
}

static void fail(const char *form, ...) {
    va_list rest;
    va_start(rest, form);
    fputs("capture: ", stderr);
    vfprintf(stderr, form, rest);
    fputc('\n', stderr);
    va_end(rest);
    exit(1);
}

/* ---- the filter */

static struct bytes new_bytes(size_t count) {
    struct bytes made = {malloc(count), count};
    if (made.at == NULL)
        fail("there is no memory");
    return made;
}

static struct bytes contents(const char *name) {
    struct bytes found = new_bytes(MOST_FILE);
    FILE *file = fopen(name, "rb");
    if (file == NULL)
        fail("%s can't be read", name);
    found.count = fread(found.at, 1, found.count, file);
    if (ferror(file) || fclose(file) != 0)
        fail("%s can't be read", name);
    return found;
}

static struct bytes compiled(const char *expression, struct bpf_program *program) {
    pcap_t *ethernet = pcap_open_dead(DLT_EN10MB, MOST); /* for a device pcap_compile may use what only its kernel knows */
    if (ethernet == NULL || pcap_compile(ethernet, program, expression, 1, PCAP_NETMASK_UNKNOWN) != 0)
        fail("%s", ethernet != NULL ? pcap_geterr(ethernet) : "there is no memory");
    pcap_close(ethernet);
    return (struct bytes){(uint8_t *)program->bf_insns, 8 * (size_t)program->bf_len};
}

/* Ends with what is wrong with a program: the line of pcc_bpf, which begins with the instruction's number, and a way out. */
static void refuse_program(struct bytes program, const char *line) {
    unsigned number;
    struct bpf_insn insn;
    if (sscanf(line, "bpf %u Opcode", &number) != 1 || number >= program.count / sizeof insn)
        fail("%s", line);
    memcpy(&insn, program.at + number * sizeof insn, sizeof insn);
    bool is_index = insn.code == 0xB1 || insn.code == 0x40 || insn.code == 0x48 || insn.code == 0x50;
    fail("%s: there is no such instruction here:\n  %s\n%s", line, bpf_image(&insn, (int)number),
         is_index ? "For IP headers of 20 bytes, let examples/from_tcpdump --no-options make a program of what\n"
                    "`tcpdump -ddd -y EN10MB EXPRESSION` prints, and give it by -p."
                  : "docs/BPF.md has those that there are.");
}

/* Returns the container of a program, or ends. */
static struct bytes container_of(struct bytes program) {
    struct bytes made = new_bytes(MOST_FILE);
    size_t room = made.count;
    uint32_t status = pcc_bpf(program.at, program.count, made.at, room - 1, &made.count);
    if (status == PCC_BAD_PROGRAM) {
        made.at[made.count] = 0;
        refuse_program(program, (const char *)made.at);
    }
    if (status != PCC_DONE)
        fail("the program isn't compiled, status %u", (unsigned)status);
    return made;
}

/* Returns native code of the container, or ends with the line that says why it isn't accepted. */
static struct pcc_map mapped(struct bytes container) {
    struct pcc_map map = PCC_MAP_INIT;
    struct bytes code = new_bytes(65536);
    size_t room = code.count;
    uint32_t status;
    while ((status = pcc_native(POLICY, container.at, container.count, code.at, room, &code.count)) == PCC_NO_ROOM) {
        free(code.at);
        room = code.count;
        code = new_bytes(room);
    }
    if (status < PCC_UNKNOWN_POLICY && status != PCC_DONE)
        fail("%.*s", (int)code.count, (const char *)code.at);
    if (status == PCC_DONE)
        status = pcc_map_new(code.at, code.count, &map);
    if (status != PCC_DONE)
        fail(status == PCC_FORBIDDEN ? "the system forbids executable pages" : "there is no memory");
    free(code.at);
    return map;
}

/* Returns the container that the words tell. */
static struct bytes given_container(const struct words *words) {
    struct bpf_program program = {0, NULL};
    if (words->container != NULL)
        return contents(words->container);
    struct bytes bytes = words->program != NULL ? contents(words->program) : compiled(words->expression, &program);
    struct bytes container = container_of(bytes);
    if (words->program != NULL)
        free(bytes.at);
    pcap_freecode(&program);
    return container;
}

static struct filter new_filter(const struct words *words) {
    struct bytes container = given_container(words);
    struct filter made = {mapped(container), words->container != NULL};
    free(container.at);
    return made;
}

/* ---- frames */

/* A frame, with zeros up to a multiple of 8 bytes. libpcap's own may be at any address, and end where a page ends. */
static uint64_t packet[MOST / 8 + 1];

/* Copies what the filter reads of a frame, and returns how many bytes that is; or 0 if the frame is cut. */
static size_t copy_frame(const struct filter *filter, const struct pcap_pkthdr *head, const u_char *bytes) {
    size_t length = head->caplen, needed = filter->is_whole || head->len < LEAST ? head->len : LEAST;
    if (length < needed || needed > MOST)
        return 0;
    if (!filter->is_whole && length >= LEAST) {
        memcpy(packet, bytes, LEAST);
        return LEAST;
    }
    if (length < LEAST)
        memset(packet, 0, LEAST);
    else
        packet[length / 8] = 0;
    memcpy(packet, bytes, length);
    return length < LEAST ? LEAST : length;
}

static void take(u_char *user, const struct pcap_pkthdr *head, const u_char *bytes) {
    struct run *run = (struct run *)(void *)user;
    uint64_t scratch[2] = {0, 0}, area[PCC_AREA];
    size_t length = copy_frame(&run->filter, head, bytes);
    run->counts.frames++;
    run->counts.brief += head->len < LEAST;
    run->counts.cut += length == 0;
    if (length == 0)
        return;
    struct pcc_answer answer = run->filter.map.call((uintptr_t)packet, length, (uintptr_t)scratch, area, FUEL);
    run->counts.spent += answer.spent;
    if (answer.value == 0)
        return;
    run->counts.matched++;
    if (run->out != NULL)
        pcap_dump((u_char *)run->out, head, bytes);
}

/* ---- the run */

static void print_counts(FILE *to, const struct run *run, const char *end) {
    const struct counts *c = &run->counts;
    fprintf(to, "frames %llu, matched %llu, short %llu, cut %llu", (unsigned long long)c->frames, (unsigned long long)c->matched,
            (unsigned long long)c->brief, (unsigned long long)c->cut);
    if (c->spent != 0)
        fprintf(to, ", out of fuel %llu", (unsigned long long)c->spent);
    fputs(end, to);
    fflush(to);
}

/* Shows the counts on a terminal, every tenth of a second. */
static void show_progress(const struct run *run) {
    static struct timespec last;
    struct timespec now;
    if (!isatty(2) || clock_gettime(CLOCK_MONOTONIC, &now) != 0 ||
        (now.tv_sec - last.tv_sec) * 10 + (now.tv_nsec - last.tv_nsec) / 100000000 < 1)
        return;
    last = now;
    fputs("\r", stderr);
    print_counts(stderr, run, "\033[K");
}

/* Returns whether OUT could be written so far. */
static bool is_written(const struct run *run) {
    return run->out == NULL || ferror(pcap_dump_file(run->out)) == 0;
}

/* Filters all frames. Of a device it takes those that are there, and then waits for more. */
static void filter_all(struct run *run, const struct words *words) {
    int taken = 1;
    while (stopped == 0 && is_written(run) && run->counts.frames < words->most && (taken > 0 || words->device != NULL)) {
        uint64_t left = words->most - run->counts.frames;
        taken = pcap_dispatch(run->in, left < BATCH ? (int)left : BATCH, take, (u_char *)run);
        if (taken < 0)
            break;
        if (words->device != NULL && run->out != NULL)
            pcap_dump_flush(run->out);
        show_progress(run);
    }
    if (isatty(2))
        fputs("\r\033[K", stderr);
    if (taken == PCAP_ERROR && stopped == 0) {
        fprintf(stderr, "capture: %s\n", pcap_geterr(run->in));
        stopped = -1;
    }
}

static pcap_t *opened(const struct words *words) {
    char why[PCAP_ERRBUF_SIZE] = "";
    pcap_t *in = words->file != NULL ? pcap_open_offline(words->file, why) : pcap_open_live(words->device, MOST, 1, WAIT, why);
    if (in == NULL)
        fail("%s", why);
    if (pcap_datalink(in) != DLT_EN10MB)
        fail("%s has no Ethernet frames", words->file != NULL ? words->file : words->device);
    return in;
}

static void refuse_words(void) {
    fputs("usage: capture [-p PROGRAM | -c CONTAINER] [-w OUT] [-n COUNT] -r FILE | -i DEVICE [EXPRESSION]\n", stderr);
    exit(2);
}

static struct words words_of(int count, char **given) {
    struct words words = {.expression = "", .most = UINT64_MAX};
    int letter;
    while ((letter = getopt(count, given, "p:c:w:n:r:i:")) != -1) {
        const char **place = letter == 'p'   ? &words.program
                             : letter == 'c' ? &words.container
                             : letter == 'w' ? &words.out
                             : letter == 'r' ? &words.file
                             : letter == 'i' ? &words.device
                                             : NULL;
        if (place != NULL)
            *place = optarg;
        else if (letter == 'n')
            words.most = strtoull(optarg, NULL, 10);
        else
            refuse_words();
    }
    bool has_expression = optind < count;
    int filters = (words.program != NULL) + (words.container != NULL) + has_expression;
    if ((words.file == NULL) == (words.device == NULL) || filters > 1 || optind + 1 < count || words.most == 0)
        refuse_words();
    if (has_expression)
        words.expression = given[optind];
    return words;
}

static void catch_signals(void) {
    struct sigaction ends = {.sa_handler = stop};
    sigaction(SIGINT, &ends, NULL);
    sigaction(SIGTERM, &ends, NULL);
    signal(SIGPIPE, SIG_DFL); /* so a reader that goes away ends this */
}

int main(int count, char **given) {
    struct words words = words_of(count, given);
    struct run run = {.filter = new_filter(&words), .in = opened(&words)};
    bool is_piped = words.out != NULL && strcmp(words.out, "-") == 0;
    reading = run.in;
    catch_signals();
    if (words.out != NULL && (run.out = pcap_dump_open(run.in, words.out)) == NULL)
        fail("%s", pcap_geterr(run.in));
    filter_all(&run, &words);
    bool is_good = is_written(&run) && (run.out == NULL || pcap_dump_flush(run.out) == 0);
    print_counts(is_piped ? stderr : stdout, &run, "\n");
    if (!is_good)
        fail("%s can't be written", words.out);
    if (run.out != NULL)
        pcap_dump_close(run.out);
    pcap_close(run.in);
    pcc_map_free(&run.filter.map);
    return stopped > 0 ? 128 + stopped : stopped != 0;
}
