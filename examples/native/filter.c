/* Calls a filter on each packet of a file, and prints what `pcc run filter` prints. The file has, of each packet, its
 * length in four bytes, little-endian, and its bytes.
 *
 *     pcc_native filter examples/port/container ../port.o
 *     cc -Ic -o ../filter examples/native/filter.c ../port.o && ../filter examples/frames/packets */
#include "pcc.h"
#include <inttypes.h>
#include <stdio.h>
#include <string.h>

enum { MOST = 65535, LEAST = 64 };

/* The function of the object file. */
extern pcc_function pcc_code;

/* A packet, with zeros up to a multiple of 8 bytes. */
static uint64_t packet[MOST / 8 + 1];

/* Reads the next packet, and returns its length, or -1 if there is none. */
static long next_packet(FILE *file) {
    unsigned char head[4];
    size_t length;
    if (fread(head, 1, sizeof head, file) != sizeof head) {
        return -1;
    }
    length = head[0] | (size_t)head[1] << 8 | (size_t)head[2] << 16 | (size_t)head[3] << 24;
    if (length > MOST) {
        return -1;
    }
    memset(packet, 0, sizeof packet);
    return fread(packet, 1, length, file) == length ? (long)length : -1;
}

int main(int argc, char **argv) {
    FILE *file = argc == 2 ? fopen(argv[1], "rb") : NULL;
    long length;
    if (!file) {
        fputs("usage: filter PACKETS\n", stderr);
        return 2;
    }
    for (int k = 0; (length = next_packet(file)) >= 0; k++) {
        uint64_t scratch[2] = {0, 0}, area[PCC_AREA];
        struct pcc_answer answer;
        if (length < LEAST) {
            printf("%d: short\n", k);
            continue;
        }
        answer = pcc_code((uintptr_t)packet, (uint64_t)length, (uintptr_t)scratch, area, 1000000);
        if (answer.spent) {
            printf("%d: out of fuel\n", k);
        } else {
            printf("%d: %" PRIu64 "\n", k, answer.value);
        }
    }
    return fclose(file) != 0;
}
