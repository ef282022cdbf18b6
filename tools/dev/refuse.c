// Is between a program and the C library, for tools/dev/refuse: it counts the program's calls, and has one of them fail
// or come short. REFUSE has a word for the kind of call and its number, from 1 on; REFUSE_TELL has a file to which the
// counts of all kinds are written at the end.
#include <errno.h>
#include <stdio.h>
#include <stdlib.h>
#include <string.h>
#include <unistd.h>

enum kind { MEMORY, READ, WRITE, SHORT_READ, SHORT_WRITE, KINDS };
static const char *const WORDS[KINDS] = {"memory", "read", "write", "short-read", "short-write"};
static long counts[KINDS];
static long refused_number;
static int refused_kind = KINDS;

void *__real_malloc(size_t size);
void *__real_realloc(void *old, size_t size);
int __real_open(const char *name, int flags, ...);
ssize_t __real_read(int file, void *to, size_t size);
ssize_t __real_write(int file, const void *from, size_t size);

__attribute__((constructor)) static void begin(void) {
    const char *asked = getenv("REFUSE");
    const char *space = asked ? strchr(asked, ' ') : NULL;
    for (int kind = 0; space && kind < KINDS; kind++) {
        if (strlen(WORDS[kind]) == (size_t)(space - asked) && !strncmp(asked, WORDS[kind], space - asked)) {
            refused_kind = kind;
            refused_number = atol(space + 1);
        }
    }
}

__attribute__((destructor)) static void tell(void) {
    const char *name = getenv("REFUSE_TELL");
    FILE *file = name ? fopen(name, "w") : NULL;
    if (file) {
        for (int kind = 0; kind < KINDS; kind++) fprintf(file, "%s %ld\n", WORDS[kind], counts[kind]);
        fclose(file);
    }
}

// Counts a call, and returns whether it is the one to refuse.
static int is_refused(enum kind kind) {
    return ++counts[kind] == refused_number && (int)kind == refused_kind;
}

void *__wrap_malloc(size_t size) {
    return is_refused(MEMORY) ? NULL : __real_malloc(size);
}

void *__wrap_realloc(void *old, size_t size) {
    return is_refused(MEMORY) ? NULL : __real_realloc(old, size);
}

static int fails(enum kind kind) {
    int refused = is_refused(kind);
    if (refused) errno = EIO;
    return refused;
}

// The program makes no file, so there is no mode.
int __wrap_open(const char *name, int flags) {
    return fails(READ) ? -1 : __real_open(name, flags);
}

ssize_t __wrap_read(int file, void *to, size_t size) {
    if (fails(READ)) return -1;
    return __real_read(file, to, size > 1 && is_refused(SHORT_READ) ? 1 : size);
}

ssize_t __wrap_write(int file, const void *from, size_t size) {
    if (fails(WRITE)) return -1;
    return __real_write(file, from, size > 1 && is_refused(SHORT_WRITE) ? 1 : size);
}
