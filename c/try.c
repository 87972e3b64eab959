/* try COUNT [CALL VERSION BOUND POLICY FILE]..: tries a call of the library on each five words, and prints a line for
 * each: the status, and the result, in hexadecimal if it isn't text. COUNT is the most allocations of a call that are
 * made to fail, 0 for none. CALL is explain, asm, prove, bpf, native, upgrade or policy; with explain, pcc_check is tried
 * too.
 * POLICY is a name, or @FILE, or @ alone for no bytes. A word that the call doesn't have is `-`.
 * The status is 1, after a line about it, if a call doesn't do what pcc.h says. Needs heap.c with PCC_FAIL_AT. */
#include "pcc.h"
#include <stdbool.h>
#include <stdio.h>
#include <stdlib.h>
#include <string.h>

#define GUARD 0xa5
#define SPARE 32    /* bytes after a result that have to stay as they are */
#define SLOW 20000u /* bytes of input from which on a call is tried in few rooms */
#define WORDS 5     /* of a call */

extern size_t pcc_heap_calls, pcc_fail_at;
extern bool pcc_fail_on;

/* Bytes in a block of their own, so that a read past them is seen. */
struct bytes {
    uint8_t *at;
    size_t length;
};

struct task;
typedef uint32_t call(const struct task *task, uint8_t *out, size_t room, size_t *written);

/* A call with its arguments, and what it first returned. */
struct task {
    call *run;
    uint32_t version, bound;
    struct bytes policy, input;
    uint32_t status;
    struct bytes result;
};

static void demand(bool holds, const char *what) {
    if (!holds) {
        printf("wrong: %s\n", what);
        exit(1);
    }
}

static struct bytes block(size_t length) {
    struct bytes made = {malloc(length != 0 ? length : 1), length};
    demand(made.at != NULL, "no memory for a block");
    return made;
}

static struct bytes read_file(const char *name) {
    FILE *file = fopen(name, "rb");
    demand(file != NULL && fseek(file, 0, SEEK_END) == 0, name);
    long length = ftell(file);
    demand(length >= 0, name);
    struct bytes made = block((size_t)length);
    rewind(file);
    demand(fread(made.at, 1, made.length, file) == made.length, name);
    fclose(file);
    return made;
}

static struct bytes policy_of(const char *word) {
    if (word[0] == '@')
        return word[1] == '\0' ? block(0) : read_file(word + 1);
    struct bytes made = block(strlen(word));
    memcpy(made.at, word, made.length);
    return made;
}

/* ---- the calls */

static uint32_t explain(const struct task *t, uint8_t *out, size_t room, size_t *written) {
    return pcc_explain(t->policy.at, t->policy.length, t->input.at, t->input.length, out, room, written);
}

static uint32_t assemble(const struct task *t, uint8_t *out, size_t room, size_t *written) {
    return pcc_asm(t->version, t->bound, t->policy.at, t->policy.length, t->input.at, t->input.length, out, room, written);
}

static uint32_t prove(const struct task *t, uint8_t *out, size_t room, size_t *written) {
    return pcc_prove(t->policy.at, t->policy.length, t->input.at, t->input.length, out, room, written);
}

static uint32_t compile(const struct task *t, uint8_t *out, size_t room, size_t *written) {
    return pcc_bpf(t->input.at, t->input.length, out, room, written);
}

static uint32_t translate(const struct task *t, uint8_t *out, size_t room, size_t *written) {
    return pcc_native(t->policy.at, t->policy.length, t->input.at, t->input.length, out, room, written);
}

static uint32_t upgrade(const struct task *t, uint8_t *out, size_t room, size_t *written) {
    return pcc_upgrade(t->input.at, t->input.length, out, room, written);
}

static uint32_t digest(const struct task *t, uint8_t *out, size_t room, size_t *written) {
    return pcc_policy(t->policy.at, t->policy.length, out, room, written);
}

static call *call_named(const char *name) {
    static const struct {
        const char *name;
        call *run;
    } calls[] = {{"explain", explain},  {"asm", assemble},    {"prove", prove},  {"bpf", compile},
                 {"native", translate}, {"upgrade", upgrade}, {"policy", digest}};
    for (size_t i = 0; i < sizeof calls / sizeof calls[0]; i++)
        if (strcmp(calls[i].name, name) == 0)
            return calls[i].run;
    demand(false, name);
    return NULL;
}

/* ---- what is tried */

static bool are_all(const uint8_t *bytes, size_t from, size_t to, int value) {
    for (size_t i = from; i < to; i++)
        if (bytes[i] != value)
            return false;
    return true;
}

/* The call in a buffer that is larger than its result, which the task gets. */
static void try_first(struct task *task) {
    size_t length = 77, written = 77;
    task->status = task->run(task, task->policy.at, 0, &length);
    struct bytes out = block(length + SPARE);
    memset(out.at, GUARD, out.length);
    demand(length == 0 || task->status == PCC_NO_ROOM, "a buffer of no bytes");
    task->status = task->run(task, out.at, out.length, &written);
    demand(written == length && are_all(out.at, length, out.length, GUARD), "bytes after the result");
    out.length = length;
    task->result = out;
    if (task->run != explain)
        return;
    demand(length <= PCC_LINE, "a line that is too long");
    demand(pcc_check(task->policy.at, task->policy.length, task->input.at, task->input.length) == task->status,
           "pcc_check and pcc_explain differ");
}

/* The call in a buffer of so many bytes. */
static void try_room(const struct task *task, size_t room) {
    struct bytes out = block(room);
    size_t written = 77, length = task->result.length;
    memset(out.at, GUARD, room);
    uint32_t status = task->run(task, out.at, room, &written);
    demand(written == length, "the length of the result");
    if (room < length)
        demand(status == PCC_NO_ROOM && are_all(out.at, 0, room, GUARD), "a buffer without room");
    else
        demand(status == task->status && memcmp(out.at, task->result.at, length) == 0, "a buffer that just suffices");
    free(out.at);
}

/* The call in buffers that are too small, of each size for a line, and in one that just suffices. */
static void try_rooms(const struct task *task) {
    size_t length = task->result.length;
    size_t few = task->input.length > SLOW ? length : length / 4, step = length <= PCC_LINE ? 1 : few;
    if (task->input.length > SLOW)
        step = few;
    for (size_t room = 0; room < length; room += step)
        try_room(task, room);
    if (length > PCC_LINE)
        try_room(task, length - 1);
    try_room(task, length);
}

/* The call with the allocation that is set to fail. Returns whether it came to that. */
static bool try_failure(const struct task *task) {
    size_t written = 77, length = task->result.length;
    struct bytes out = block(length);
    memset(out.at, GUARD, length);
    pcc_heap_calls = 0;
    uint32_t status = task->run(task, out.at, length, &written);
    bool is_reached = pcc_heap_calls >= pcc_fail_at;
    if (is_reached)
        demand(status == PCC_NO_MEMORY && written == 0 && are_all(out.at, 0, length, GUARD), "an allocation that fails");
    else
        demand(status == task->status && written == length, "an allocation that doesn't fail");
    free(out.at);
    if (task->run != explain)
        return is_reached;
    pcc_heap_calls = 0;
    status = pcc_check(task->policy.at, task->policy.length, task->input.at, task->input.length);
    demand(status == (pcc_heap_calls >= pcc_fail_at ? (uint32_t)PCC_NO_MEMORY : task->status), "pcc_check without memory");
    return is_reached;
}

/* Each allocation fails, alone and with those after it; if there are more than `most`, some of them. */
static void try_failures(const struct task *task, size_t most) {
    struct bytes out = block(task->result.length);
    size_t written;
    pcc_heap_calls = 0;
    task->run(task, out.at, out.length, &written);
    size_t calls = pcc_heap_calls, step = most != 0 ? 1 + calls / most : 0;
    free(out.at);
    for (int on = 0; on < 2 && step != 0; on++) {
        pcc_fail_on = on == 1;
        for (pcc_fail_at = 1; pcc_fail_at <= calls; pcc_fail_at += step)
            demand(try_failure(task), "an allocation that isn't reached");
        pcc_fail_at = calls + 1;
        demand(!try_failure(task), "more allocations than before");
    }
    pcc_fail_at = 0;
}

static void print(const struct task *task) {
    printf("%u ", (unsigned)task->status);
    if (task->run == explain || task->status != PCC_DONE)
        printf("%.*s", (int)task->result.length, (const char *)task->result.at);
    else
        for (size_t i = 0; i < task->result.length; i++)
            printf("%02x", task->result.at[i]);
    putchar('\n');
}

/* Tries the call of five words. */
static void try_call(char **words, size_t most) {
    struct task task;
    task.run = call_named(words[0]);
    task.version = (uint32_t)strtoul(words[1], NULL, 10);
    task.bound = (uint32_t)strtoul(words[2], NULL, 10);
    task.policy = policy_of(words[3]);
    task.input = strcmp(words[4], "-") == 0 ? block(0) : read_file(words[4]);
    try_first(&task);
    try_rooms(&task);
    try_failures(&task, most);
    print(&task);
    free(task.result.at);
    free(task.policy.at);
    free(task.input.at);
}

int main(int count, char **words) {
    demand(pcc_abi() == PCC_ABI, "the ABI");
    if (count < 2 || (count - 2) % WORDS != 0) {
        fputs("usage: try COUNT [CALL VERSION BOUND POLICY FILE]..\n", stderr);
        return 2;
    }
    for (int i = 2; i < count; i += WORDS)
        try_call(words + i, strtoul(words[1], NULL, 10));
    return 0;
}
