/* pcc.h: makes, checks and runs containers of proof-carrying code. For C99 and C++.
 *
 * Link libpcc.a. Each function is proved, in crates/pcc_c, to do what is said here of it. The caller has to see to the
 * rest:
 *
 * - A pointer isn't null, even if its length is 0. It points to as many bytes as its length says.
 * - A buffer for a result overlaps no other argument.
 * - No function is called from a signal handler, nor in a forked child of a process with threads. Threads may call at
 *   the same time; but for hosts, no function keeps anything from one call to the next.
 * - A `struct pcc_host` begins as PCC_HOST_INIT. It isn't copied, and only the functions change it. One thread makes all
 *   calls with it.
 * - The stack has 5 MiB free. That is enough for the worst input that is known; no theorem says so.
 * - Native code gets what pcc_function says below.
 *
 * A function writes to `out`, `written`, `host` and `result` alone, and keeps no pointer. */
#ifndef PCC_H
#define PCC_H

#include <stddef.h>
#include <stdint.h>

#ifdef __cplusplus
extern "C" {
#endif

/* The number of this interface; also the one in the name libpcc.so.1. A change that breaks callers raises it. */
#define PCC_ABI 1

/* The room that any line needs, in bytes. */
#define PCC_LINE 128

/* The bytes that a packet has at most. */
#define PCC_PACKET 65535

/* What a function returns. A number never changes its meaning. 1 to 14 are the number after `refused` in the line that
 * `pcc` prints: the first acceptance check that fails. */
enum pcc_status {
    PCC_DONE = 0, /* the container is accepted, or the result is made */
    PCC_TOO_LONG = 1,
    PCC_MALFORMED = 2,
    PCC_OTHER_POLICY = 3,
    PCC_BAD_CODE = 4,
    PCC_HEIGHT = 5,
    PCC_INV_NOT_FORM = 6,
    PCC_UNCUT = 7,
    PCC_UNFOLD_LIMIT = 8,
    PCC_NO_PROOF = 9,
    PCC_PROOF_WEIGHT = 10,
    PCC_NOT_PROOF = 11,
    PCC_ALREADY = 12, /* the container to be upgraded is of a later version */
    PCC_LEMMA_NOT_FORM = 13,
    PCC_LEMMA_NOT_PROOF = 14,
    PCC_UNKNOWN_POLICY = 32,   /* the policy is at most one line, and no name; or version 1, and it is no name */
    PCC_BAD_POLICY = 33,       /* the policy is a policy file that spells no policy */
    PCC_NO_MEMORY = 34,        /* memory ran out: says nothing about the arguments */
    PCC_TOO_MANY_RESULTS = 35, /* past the limit of cached results: says nothing about the arguments */
    PCC_NO_ROOM = 36,          /* the result doesn't fit in `out`, which is unchanged; *written is its length */
    PCC_BAD_SOURCE = 37,       /* the text can't be assembled: the first line that is wrong, or it is too long */
    PCC_BAD_PROGRAM = 38,      /* the bytes are no program of classic BPF that can be compiled */
    PCC_NOT_EASY = 39,         /* the prover finds no proof of a part of the verification condition */
    PCC_TOO_BIG = 40,          /* the container would be past a limit */
    PCC_BAD_VERSION = 41,      /* no such version, or not with this bound */
    PCC_HOST_OPEN = 42,        /* the handle has a host already */
    PCC_NO_HOST = 43,          /* the handle has no host */
    PCC_LONG_PACKET = 44,      /* the packet has more than PCC_PACKET bytes */
    PCC_FORBIDDEN = 45         /* of pcc_map.h: the system forbids executable pages */
};

/* A policy is given as bytes: `filter`, `tag` or `table`, or the two lines of a policy file (docs/POLICIES.md). */

/* Checks whether the container is accepted under the policy. Returns PCC_DONE if it is. Then its code, started in any
 * state that satisfies the policy's precondition, makes no access that its start state's rights forbid, and if it
 * returns, the postcondition holds. If the container has a step bound, the code returns within it. */
uint32_t pcc_check(const uint8_t *policy, size_t policy_length, const uint8_t *container, size_t container_length);

/* The functions below put a result at the front of `out`, which has `room` bytes, and its length into *written. If it
 * doesn't fit, they return PCC_NO_ROOM, `out` is unchanged, and *written is the length needed. If a function refuses,
 * its result is the line that `pcc` prints, without LF, and the status says which kind of line. On PCC_NO_MEMORY and
 * PCC_TOO_MANY_RESULTS, *written is 0 and `out` is unchanged. */

/* Checks the container as pcc_check does, and returns what pcc_check would. Its result is the line of `pcc check`, of at
 * most PCC_LINE bytes. */
uint32_t pcc_explain(const uint8_t *policy, size_t policy_length, const uint8_t *container, size_t container_length,
                     uint8_t *out, size_t room, size_t *written);

/* Assembles the source text into a container without a proof. `version` is 1 to 4; `bound` is the step bound, from 1 to
 * 1,000,000,000, in version 3, and 0 in the others. Version 1 takes the policies with names alone. Else the status is
 * PCC_BAD_SOURCE, PCC_UNKNOWN_POLICY or PCC_BAD_POLICY, or PCC_BAD_VERSION, which has no line. */
uint32_t pcc_asm(uint32_t version, uint32_t bound, const uint8_t *policy, size_t policy_length, const uint8_t *text,
                 size_t text_length, uint8_t *out, size_t room, size_t *written);

/* Makes the container with a proof in place of its own. pcc_check accepts it under the policy. Else the status is 1 to
 * 8, 10, 13 or 14, PCC_NOT_EASY, PCC_TOO_BIG, PCC_UNKNOWN_POLICY or PCC_BAD_POLICY. */
uint32_t pcc_prove(const uint8_t *policy, size_t policy_length, const uint8_t *container, size_t container_length,
                   uint8_t *out, size_t room, size_t *written);

/* Compiles a program of classic BPF, of 8 bytes an instruction, into a container that pcc_check accepts under `filter`.
 * On a packet of 64 bytes or more its code returns 0 if the program's value is 0, else 1. Else the status is
 * PCC_BAD_PROGRAM. */
uint32_t pcc_bpf(const uint8_t *program, size_t program_length, uint8_t *out, size_t room, size_t *written);

/* Makes the container of version 2 with the code, the invariants and the proof of one of version 1. Each policy that
 * accepts that accepts this. Else the status is 1, 2, 3, PCC_ALREADY or PCC_TOO_BIG. */
uint32_t pcc_upgrade(const uint8_t *container, size_t container_length, uint8_t *out, size_t room, size_t *written);

/* Makes the digest by which containers name the policy, 32 bytes: the SHA-256 of its text. Else the status is
 * PCC_UNKNOWN_POLICY or PCC_BAD_POLICY. */
uint32_t pcc_policy(const uint8_t *policy, size_t policy_length, uint8_t *out, size_t room, size_t *written);

/* Checks the container as pcc_check does, and returns what pcc_check would. If it is accepted, the result is its code for
 * x86-64, of less than 2^30 bytes: a pcc_function that begins at the first byte and may stand at any address. pcc_map.h has
 * pages to call it in. Other translations of the same container may have other lengths: on PCC_NO_ROOM, call again until
 * the room suffices. */
uint32_t pcc_native(const uint8_t *policy, size_t policy_length, const uint8_t *container, size_t container_length,
                    uint8_t *out, size_t room, size_t *written);

/* The quadwords of an area. */
#define PCC_AREA 31

/* How a call of native code ended: `spent` is 0 if the code returned `value`, and 1 if it ran out of fuel; `value` is then
 * 0. */
struct pcc_answer {
    uint64_t value;
    uint64_t spent;
};

/* Native code, by the System V calling convention. A call reads and writes only what the policy permits, and the area, and
 * it ends, if the caller sees to this:
 *
 * - Arguments and memory satisfy the policy's precondition:
 *     filter   r16 is a packet, r17 its length in bytes, at least 64, and r18 has 16 bytes of scratch
 *     tag      r16 is a tag and a quadword of data, 16 bytes; r17 and r18 are 0
 *     table    r16 is a table, r17 its length in quadwords, and r18 is 0
 *   What a policy file asks of other registers has to hold of 0.
 * - Packet, scratch, tag, table and area begin at multiples of 8. A packet is padded with zeros to a multiple of 8 bytes,
 *   since its last quadword is loaded whole.
 * - The area has PCC_AREA quadwords. Buffers, area and code don't overlap.
 * - Nobody else writes the buffers or the area during the call: each thread has its own area and scratch.
 * - The code is unchanged since pcc_native or the program pcc_native made it, and isn't written during the call.
 *
 * Each arrival at a loop head takes a unit of fuel. Code without loops needs none, nor does code with a step bound, which
 * returns within it whatever the fuel. */
typedef struct pcc_answer pcc_function(uint64_t r16, uint64_t r17, uint64_t r18, uint64_t *area, uint64_t fuel);

/* A host runs the code of one accepted container on packets. It tests no access: what it makes of a packet is proved to
 * be what a machine makes of it that tests each one. It is freed by pcc_host_free alone. */
struct pcc_host {
    uint32_t live; /* 1 if there is a host, else 0 */
    void *at;
};
#define PCC_HOST_INIT {0, 0}

/* How a run ends. A number never changes its meaning. */
enum pcc_end {
    PCC_SHORT = 0,       /* the packet is too short for the policy: below 64 bytes for `filter`, 16 for `tag` */
    PCC_RETURNED = 1,    /* the code returned */
    PCC_OUT_OF_STEPS = 2 /* the code made all its steps without a return */
};

/* The result of a packet. There is padding after `end`, so results aren't compared by memcmp. */
struct pcc_result {
    uint32_t end; /* an `enum pcc_end` */
    uint64_t r0;  /* register 0 if the code returned, else 0 */
    uint64_t sum; /* of the quadwords that the code may change under `tag` and `table`, modulo 2^64; 0 under `filter` */
};

/* Checks the container as pcc_check does and, if it is accepted, makes a host of it, which is PCC_DONE. The host makes at
 * most `steps` steps for each packet; a return is a step. The policy is a name. On any other status *host is unchanged:
 * PCC_HOST_OPEN if it has a host, else what pcc_check returns, and PCC_UNKNOWN_POLICY for a policy file. */
uint32_t pcc_host_new(const uint8_t *policy, size_t policy_length, const uint8_t *container, size_t container_length,
                      uint64_t steps, struct pcc_host *host);

/* Runs the host's code on the packet, from the policy's start state. Nothing of an earlier packet is left. Takes no
 * memory. Returns PCC_DONE; or, with *result unchanged, PCC_NO_HOST or PCC_LONG_PACKET. */
uint32_t pcc_host_run(struct pcc_host *host, const uint8_t *packet, size_t packet_length, struct pcc_result *result);

/* Frees the host, and returns PCC_DONE; or PCC_NO_HOST. *host has no host afterwards. */
uint32_t pcc_host_free(struct pcc_host *host);

/* Returns PCC_ABI of the library that is linked. */
uint32_t pcc_abi(void);

#ifdef __cplusplus
}
#endif
#endif
