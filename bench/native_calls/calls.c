/* Calls the functions of object files on packets, with guard pages, for bench/native_calls/calls.

   usage: calls < JOBS   a job a line: POLICY FUEL OBJECT PACKETS
     POLICY   filter, tag or table
     FUEL     the fuel of each call
     OBJECT   an object file of pcc_native
     PACKETS  a packet file
   prints `== POLICY FUEL OBJECT PACKETS`, and a line for each packet as `pcc run` prints it; or `fault`, if the call raised a
   signal; or `lost`, if a register that a function keeps, or a quadword beside the area, has changed.

   Each packet, scratch and area ends where a page begins that may be neither read nor written. A filter's packet may not be
   written. The area lies behind such a page, too. */
#define _GNU_SOURCE
#include <inttypes.h>
#include <setjmp.h>
#include <signal.h>
#include <stdint.h>
#include <stdio.h>
#include <stdlib.h>
#include <string.h>
#include <sys/mman.h>

enum { PAGE = 4096, ROOM = 17 * PAGE, AREA = 31, TEXT_AT = 448, TEXT_SIZE_AT = 64 + 64 + 32 };

struct end {
    uint64_t value, spent;
};

struct bytes {
    unsigned char *at;
    size_t count;
};

/* Buffers, each of which ends at a page that may not be touched. */
struct rooms {
    unsigned char *packet, *scratch, *area;
};

static sigjmp_buf back;

static void caught(int number) {
    siglongjmp(back, number);
}

static void fail(const char *what) {
    perror(what);
    exit(3);
}

static struct bytes contents(const char *name) {
    struct bytes b;
    long count;
    FILE *file = fopen(name, "rb");
    if (!file || fseek(file, 0, SEEK_END) || (count = ftell(file)) < 0) {
        fail(name);
    }
    rewind(file);
    b.count = (size_t)count;
    b.at = malloc(b.count + 1);
    if (!b.at || fread(b.at, 1, b.count, file) != b.count || fclose(file)) {
        fail(name);
    }
    return b;
}

/* Maps room for so many bytes with a page on each side that may not be touched. */
static unsigned char *guarded(size_t count) {
    unsigned char *p = mmap(NULL, count + 2 * PAGE, PROT_NONE, MAP_PRIVATE | MAP_ANONYMOUS, -1, 0);
    if (p == MAP_FAILED || mprotect(p + PAGE, count, PROT_READ | PROT_WRITE)) {
        fail("mmap");
    }
    return p + PAGE;
}

/* Maps the text of an object file where it may be executed. */
static void *text_of(struct bytes object, size_t *size) {
    uint64_t count;
    void *p;
    memcpy(&count, object.at + TEXT_SIZE_AT, sizeof count);
    *size = ((size_t)count + PAGE - 1) / PAGE * PAGE;
    p = mmap(NULL, *size, PROT_READ | PROT_WRITE, MAP_PRIVATE | MAP_ANONYMOUS, -1, 0);
    if (p == MAP_FAILED) {
        fail("mmap");
    }
    memcpy(p, object.at + TEXT_AT, (size_t)count);
    if (mprotect(p, *size, PROT_READ | PROT_EXEC)) {
        fail("mprotect");
    }
    return p;
}

/* Calls the function, with known words in the registers that it keeps; returns 1 if they stand. `args` are the function's
 * five arguments. */
int kept_call(const void *function, const uint64_t *args, struct end *end);
uint64_t stack_before;
__asm__(".intel_syntax noprefix\n.text\n.globl kept_call\nkept_call:\n"
        "push rbx\npush rbp\npush r12\npush r13\npush r14\npush r15\npush rdx\n"
        "mov rax, rdi\nmov r10, rsi\n"
        "mov rdi, [r10]\nmov rsi, [r10 + 8]\nmov rdx, [r10 + 16]\nmov rcx, [r10 + 24]\nmov r8, [r10 + 32]\n"
        "mov rbx, 0x1111\nmov rbp, 0x2222\nmov r12, 0x3333\nmov r13, 0x4444\nmov r14, 0x5555\nmov r15, 0x6666\n"
        "mov r9, 0xdead9\nmov r10, 0xdead10\nmov r11, 0xdead11\nmov stack_before[rip], rsp\ncall rax\n"
        "xor r8d, r8d\ncmp rsp, stack_before[rip]\njne 1f\ncmp rbx, 0x1111\njne 1f\ncmp rbp, 0x2222\njne 1f\n"
        "cmp r12, 0x3333\njne 1f\ncmp r13, 0x4444\njne 1f\ncmp r14, 0x5555\njne 1f\ncmp r15, 0x6666\njne 1f\nmov r8d, 1\n"
        "1: mov rsp, stack_before[rip]\npop r9\nmov [r9], rax\nmov [r9 + 8], rdx\nmov eax, r8d\n"
        "pop r15\npop r14\npop r13\npop r12\npop rbp\npop rbx\nret\n.att_syntax\n");

/* Prints how a call ended, with the sum of the region's quadwords if there is one. */
static void print_end(struct end end, const uint64_t *region, size_t quads, unsigned k) {
    uint64_t sum = 0;
    if (end.spent) {
        printf("%u: out of steps\n", k);
        return;
    }
    if (!region) {
        printf("%u: %" PRIu64 "\n", k, end.value);
        return;
    }
    for (size_t i = 0; i < quads; i++) {
        sum += region[i];
    }
    printf("%u: %" PRIu64 " %" PRIu64 "\n", k, end.value, sum);
}

/* Calls the function on a packet, and prints its line. */
static void run_packet(const char *policy, uint64_t fuel, const void *code, struct rooms rooms, const unsigned char *bytes,
                       uint32_t length, unsigned k) {
    int filter = policy[0] == 'f', table = !strcmp(policy, "table"), number;
    size_t quads;
    uint64_t *packet, *area = (uint64_t *)(rooms.area + PAGE) - AREA;
    struct end end = {0, 0};
    if ((filter && length < 64) || (!filter && !table && length < 16)) {
        printf("%u: short\n", k);
        return;
    }
    if (!filter && !table) {
        length = 16;
    }
    quads = (length + 7) / 8;
    packet = (uint64_t *)(rooms.packet + ROOM) - quads;
    mprotect(rooms.packet, ROOM, PROT_READ | PROT_WRITE);
    memset(packet, 0, 8 * quads);
    memcpy(packet, bytes, length);
    if (filter) {
        mprotect(rooms.packet, ROOM, PROT_READ);
    }
    memset(rooms.scratch + PAGE - 16, 0, 16);
    memset(rooms.area, 0x51, PAGE);
    {
        uint64_t args[5] = {(uintptr_t)packet, filter ? length : table ? quads : 0,
                            filter ? (uintptr_t)(rooms.scratch + PAGE - 16) : 0, (uintptr_t)area, fuel};
        number = sigsetjmp(back, 1);
        if (number) {
            printf("%u: fault %d\n", k, number);
            return;
        }
        if (!kept_call(code, args, &end) || area[-1] != 0x5151515151515151) {
            printf("%u: lost\n", k);
            return;
        }
    }
    print_end(end, filter ? NULL : packet, quads, k);
}

int main(void) {
    static char line[9000], policy[16], object[4000], packets[4000];
    static unsigned char stack[65536];
    stack_t other = {.ss_sp = stack, .ss_size = sizeof stack};
    struct sigaction action = {.sa_handler = caught, .sa_flags = SA_ONSTACK | SA_NODEFER};
    struct rooms rooms = {guarded(ROOM), guarded(PAGE), guarded(PAGE)};
    uint64_t fuel;
    sigaltstack(&other, NULL);
    sigaction(SIGSEGV, &action, NULL);
    sigaction(SIGBUS, &action, NULL);
    sigaction(SIGILL, &action, NULL);
    while (fgets(line, sizeof line, stdin)) {
        struct bytes file, all;
        size_t size;
        void *code;
        unsigned k = 0;
        if (sscanf(line, "%15s %" SCNu64 " %3999s %3999s", policy, &fuel, object, packets) != 4) {
            return 2;
        }
        file = contents(object);
        all = contents(packets);
        code = text_of(file, &size);
        printf("== %s %" PRIu64 " %s %s\n", policy, fuel, object, packets);
        for (size_t at = 0; at + 4 <= all.count; k++) {
            uint32_t length;
            memcpy(&length, all.at + at, sizeof length);
            if (length > all.count - at - 4) {
                break;
            }
            run_packet(policy, fuel, code, rooms, all.at + at + 4, length, k);
            at += 4 + length;
        }
        munmap(code, size);
        free(file.at);
        free(all.at);
    }
    return 0;
}
