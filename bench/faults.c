/* Stands between a program and the C library, and makes one call go wrong, or all, as the environment says.
 *
 *   FAULT_CALL   allocate, read or write: the kind of call that goes wrong
 *   FAULT_AT     its number, from 1; 0: none
 *   FAULT_HOW    refuse: there is no memory, or an error of the device; interrupt: the call was interrupted by a signal
 *   FAULT_SHORT  read or write: every call of this kind moves one byte at most
 *   FAULT_COUNTS a file: how many calls of each kind there were is written into it at the end
 */
#define _GNU_SOURCE
#include <dlfcn.h>
#include <errno.h>
#include <stdio.h>
#include <stdlib.h>
#include <string.h>
#include <unistd.h>

enum kind { ALLOCATE, READ, WRITE, KINDS };
static const char *const names[KINDS] = {"allocate", "read", "write"};
static unsigned long counts[KINDS];
static enum kind call = KINDS;
static unsigned long at;
static int is_interrupt;
static int is_short[KINDS];
static int is_ready;

static enum kind kind_of(const char *name) {
    for (int kind = 0; name && kind < KINDS; kind++)
        if (!strcmp(name, names[kind])) return kind;
    return KINDS;
}

__attribute__((constructor)) static void prepare(void) {
    const char *number = getenv("FAULT_AT"), *how = getenv("FAULT_HOW");
    call = kind_of(getenv("FAULT_CALL"));
    at = number ? strtoul(number, NULL, 10) : 0;
    is_interrupt = how && !strcmp(how, "interrupt");
    enum kind cut = kind_of(getenv("FAULT_SHORT"));
    if (cut < KINDS) is_short[cut] = 1;
    is_ready = 1;
}

static int goes_wrong(enum kind kind) { return is_ready && ++counts[kind] == at && call == kind; }

__attribute__((destructor)) static void tell(void) {
    const char *path = getenv("FAULT_COUNTS");
    is_ready = 0;
    FILE *out = path ? fopen(path, "w") : NULL;
    if (!out) return;
    fprintf(out, "%lu %lu %lu\n", counts[ALLOCATE], counts[READ], counts[WRITE]);
    fclose(out);
}

void *malloc(size_t size) {
    static void *(*real)(size_t);
    if (!real) real = dlsym(RTLD_NEXT, "malloc");
    if (goes_wrong(ALLOCATE)) return errno = ENOMEM, NULL;
    return real(size);
}

void *realloc(void *old, size_t size) {
    static void *(*real)(void *, size_t);
    if (!real) real = dlsym(RTLD_NEXT, "realloc");
    if (goes_wrong(ALLOCATE)) return errno = ENOMEM, NULL;
    return real(old, size);
}

ssize_t read(int file, void *bytes, size_t size) {
    static ssize_t (*real)(int, void *, size_t);
    if (!real) real = dlsym(RTLD_NEXT, "read");
    if (goes_wrong(READ)) return errno = is_interrupt ? EINTR : EIO, -1;
    return real(file, bytes, is_short[READ] && size > 1 ? 1 : size);
}

ssize_t write(int file, const void *bytes, size_t size) {
    static ssize_t (*real)(int, const void *, size_t);
    if (!real) real = dlsym(RTLD_NEXT, "write");
    if (goes_wrong(WRITE)) return errno = is_interrupt ? EINTR : EIO, -1;
    return real(file, bytes, is_short[WRITE] && size > 1 ? 1 : size);
}
