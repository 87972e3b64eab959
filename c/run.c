/* run POLICY CONTAINER PACKETS: prints what `pcc run` does: a line for each packet of the file, or why the container
 * isn't accepted. The status is 0 if it is accepted, else 1. */
#include "pcc.h"
#include <inttypes.h>
#include <stdio.h>
#include <string.h>

static size_t read_file(const char *name, uint8_t *to, size_t most) {
    FILE *file = fopen(name, "rb");
    size_t length = file != NULL ? fread(to, 1, most, file) : 0;
    if (file == NULL || fclose(file) != 0)
        perror(name);
    return length;
}

int main(int count, char **words) {
    static uint8_t container[4194305], packets[4194305], line[PCC_LINE]; /* a byte more than is ever accepted */
    struct pcc_host host = PCC_HOST_INIT;
    struct pcc_result result;
    if (count != 4 || pcc_abi() != PCC_ABI)
        return fputs("usage: run POLICY CONTAINER PACKETS\n", stderr), 2;
    const uint8_t *policy = (const uint8_t *)words[1];
    size_t policy_length = strlen(words[1]), length = read_file(words[2], container, sizeof container);
    if (pcc_host_new(policy, policy_length, container, length, 1000000, &host) != PCC_DONE) {
        pcc_explain(policy, policy_length, container, length, line, sizeof line, &length);
        return printf("%.*s\n", (int)length, (const char *)line), 1;
    }
    size_t end = read_file(words[3], packets, sizeof packets);
    for (size_t at = 0, number = 0; at + 4 <= end; at += 4 + length) {
        length = packets[at] | (size_t)packets[at + 1] << 8; /* the other two bytes are 0 */
        if (length > end - at - 4 || pcc_host_run(&host, packets + at + 4, length, &result) != PCC_DONE)
            break;
        printf("%zu: ", number++);
        if (result.end != PCC_RETURNED)
            puts(result.end == PCC_SHORT ? "short" : "out of steps");
        else
            printf(policy[0] == 'f' ? "%" PRIu64 "\n" : "%" PRIu64 " %" PRIu64 "\n", result.r0, result.sum);
    }
    return pcc_host_free(&host) != PCC_DONE;
}
