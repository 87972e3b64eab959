/* Stands before the C library in a run of bench/devices: counts the calls that take memory, open,
   read, write and close, and lets the one fail that the environment names.

   DEVICES_KIND    allocation, open, read, write or close
   DEVICES_NUMBER  which of them fails, from 1 on
   DEVICES_ERRNO   how; a write that fails with 0 takes nothing and reports no fault
   DEVICES_ON      if set, all from that one on fail
   DEVICES_READ, DEVICES_WRITE  the most bytes that one read, one write takes
   DEVICES_TRACE   a file that gets a line each call at the end */
#define _GNU_SOURCE
#include <dlfcn.h>
#include <errno.h>
#include <fcntl.h>
#include <stdarg.h>
#include <stdio.h>
#include <stdlib.h>
#include <string.h>
#include <unistd.h>

enum kind { ALLOCATION, OPEN, READ, WRITE, CLOSE, KINDS };

static const char *const NAMES[KINDS] = {"allocation", "open", "read", "write", "close"};

static int active; /* what is called before the program begins and after its end isn't counted */
static long counts[KINDS];
static int failing = KINDS;
static long number, most_read, most_write;
static int how, all_from;
static char *trace;
static size_t used, room;

static long setting(const char *name) {
    const char *text = getenv(name);
    return text ? atol(text) : 0;
}

static void *real(const char *name) { return dlsym(RTLD_NEXT, name); }

#define REAL(name) \
    static __typeof__(&name) to_##name; \
    if (!to_##name) to_##name = (__typeof__(&name))real(#name)

/* Room for so many more bytes of the trace. */
static char *more(size_t count) {
    REAL(realloc);
    if (used + count > room) {
        room = 2 * (used + count);
        trace = to_realloc(trace, room);
        if (!trace) _exit(99);
    }
    return trace + used;
}

/* A line of the trace: the kind and the file's number. */
static void note(enum kind kind, int file) {
    if (active) used += (size_t)sprintf(more(40), "%s %d\n", NAMES[kind], file);
}

/* The same of an open, with what the file is opened for and its name, in hexadecimal digits. */
static void note_open(int file, int flags, const char *name) {
    size_t length = strlen(name);
    char *at = more(2 * length + 60);
    int count = sprintf(at, "%s %d %d ", NAMES[OPEN], file, flags & O_ACCMODE);
    for (size_t i = 0; i < length; i++) count += sprintf(at + count, "%02x", (unsigned char)name[i]);
    at[count++] = '\n';
    used += (size_t)count;
}

/* Counts the call, and says whether it is to fail. */
static int fails(enum kind kind) {
    if (!active) return 0;
    counts[kind]++;
    if ((int)kind != failing) return 0;
    if (counts[kind] != number && !(all_from && counts[kind] > number)) return 0;
    errno = how;
    return 1;
}

__attribute__((constructor)) static void begin(void) {
    const char *kind = getenv("DEVICES_KIND");
    for (int i = 0; kind && i < KINDS; i++)
        if (strcmp(kind, NAMES[i]) == 0) failing = i;
    number = setting("DEVICES_NUMBER");
    how = (int)setting("DEVICES_ERRNO");
    all_from = getenv("DEVICES_ON") != NULL;
    most_read = setting("DEVICES_READ");
    most_write = setting("DEVICES_WRITE");
    active = 1;
}

__attribute__((destructor)) static void end(void) {
    active = 0;
    const char *path = getenv("DEVICES_TRACE");
    FILE *out = path ? fopen(path, "wb") : NULL;
    if (!out) return;
    fwrite(trace, 1, used, out);
    fputs("end\n", out);
    fclose(out);
}

/* The same of an allocation. */
static int refused(void) {
    note(ALLOCATION, 0);
    return fails(ALLOCATION);
}

void *malloc(size_t size) {
    REAL(malloc);
    return refused() ? NULL : to_malloc(size);
}

void *calloc(size_t count, size_t size) {
    REAL(calloc);
    return refused() ? NULL : to_calloc(count, size);
}

void *realloc(void *at, size_t size) {
    REAL(realloc);
    return refused() ? NULL : to_realloc(at, size);
}

int posix_memalign(void **at, size_t alignment, size_t size) {
    REAL(posix_memalign);
    return refused() ? ENOMEM : to_posix_memalign(at, alignment, size);
}

void *aligned_alloc(size_t alignment, size_t size) {
    REAL(aligned_alloc);
    return refused() ? NULL : to_aligned_alloc(alignment, size);
}

int open(const char *path, int flags, ...) {
    REAL(open);
    va_list rest;
    va_start(rest, flags);
    mode_t mode = flags & O_CREAT ? va_arg(rest, mode_t) : 0;
    va_end(rest);
    int file = fails(OPEN) ? -1 : to_open(path, flags, mode);
    if (active) note_open(file, flags, path);
    return file;
}

/* So many bytes, or the most that one call takes. */
static size_t within(size_t size, long most) {
    return active && most > 0 && size > (size_t)most ? (size_t)most : size;
}

ssize_t read(int file, void *at, size_t size) {
    REAL(read);
    note(READ, file);
    return fails(READ) ? -1 : to_read(file, at, within(size, most_read));
}

ssize_t write(int file, const void *at, size_t size) {
    REAL(write);
    note(WRITE, file);
    if (fails(WRITE)) return how ? -1 : 0;
    return to_write(file, at, within(size, most_write));
}

/* The C library's other name for it. */
ssize_t __write(int file, const void *at, size_t size) { return write(file, at, size); }

/* A file is closed all the same, as Linux does it. */
int close(int file) {
    REAL(close);
    note(CLOSE, file);
    int failed = fails(CLOSE);
    int result = to_close(file);
    if (!failed) return result;
    errno = how;
    return -1;
}
