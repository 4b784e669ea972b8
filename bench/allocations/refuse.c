// Refuses one allocation of the program that it is loaded into, and tells how many there were.
//
// REFUSE is the number of the allocation to refuse, from 1; 0 or nothing refuses none. With REFUSE_ALL each one from it on is
// refused. REFUSE_TOLD names a file for the number of allocations.
#define _GNU_SOURCE
#include <dlfcn.h>
#include <errno.h>
#include <fcntl.h>
#include <stdio.h>
#include <stdlib.h>
#include <string.h>
#include <sys/syscall.h>
#include <unistd.h>

static unsigned long calls, refused_at;
static int is_ready, is_all;
static void *(*real_malloc)(size_t);
static void *(*real_calloc)(size_t, size_t);
static void *(*real_realloc)(void *, size_t);
static int (*real_posix_memalign)(void **, size_t, size_t);
static void *(*real_aligned_alloc)(size_t, size_t);
static void (*real_free)(void *);

// What is allocated while the real functions are looked up comes from here and is never given back.
static char early[8192];
static size_t early_used;

static void *take_early(size_t size) {
    size_t from = early_used;
    if (size > sizeof early - from) return NULL;
    early_used = (from + size + 15) & ~(size_t)15;
    return early + from;
}

__attribute__((constructor)) static void begin(void) {
    real_malloc = dlsym(RTLD_NEXT, "malloc");
    real_calloc = dlsym(RTLD_NEXT, "calloc");
    real_realloc = dlsym(RTLD_NEXT, "realloc");
    real_posix_memalign = dlsym(RTLD_NEXT, "posix_memalign");
    real_aligned_alloc = dlsym(RTLD_NEXT, "aligned_alloc");
    real_free = dlsym(RTLD_NEXT, "free");
    const char *number = getenv("REFUSE");
    refused_at = number ? strtoul(number, NULL, 10) : 0;
    is_all = getenv("REFUSE_ALL") != NULL;
    is_ready = 1;
}

__attribute__((destructor)) static void end(void) {
    const char *file = getenv("REFUSE_TOLD");
    if (!file) return;
    char text[32];
    int length = snprintf(text, sizeof text, "%lu\n", calls);
    int to = open(file, O_WRONLY | O_CREAT | O_TRUNC, 0644);
    if (to < 0) return;
    if (write(to, text, length) != length) unlink(file);
    close(to);
}

// A program with threads may end by _exit, which runs no destructor.
__attribute__((noreturn)) void _exit(int status) {
    end();
    syscall(SYS_exit_group, status);
    __builtin_unreachable();
}

// Threads may allocate at the same time: which of them gets a number is left to chance, and each number is given once.
static int is_refused(void) {
    if (!is_ready) return 0;
    unsigned long number = __atomic_add_fetch(&calls, 1, __ATOMIC_SEQ_CST);
    if (!refused_at || number < refused_at || (number > refused_at && !is_all)) return 0;
    errno = ENOMEM;
    return 1;
}

void *malloc(size_t size) {
    if (!real_malloc) return take_early(size);
    return is_refused() ? NULL : real_malloc(size);
}

void *calloc(size_t count, size_t size) {
    if (!real_calloc) return take_early(count * size);
    return is_refused() ? NULL : real_calloc(count, size);
}

static int is_early(void *it) {
    return (char *)it >= early && (char *)it < early + sizeof early;
}

void free(void *it) {
    if (real_free && !is_early(it)) real_free(it);
}

void *realloc(void *old, size_t size) {
    if (!real_realloc || is_early(old)) {
        void *it = malloc(size);
        if (it && old) memcpy(it, old, size);
        return it;
    }
    return is_refused() ? NULL : real_realloc(old, size);
}

int posix_memalign(void **to, size_t align, size_t size) {
    return is_refused() ? ENOMEM : real_posix_memalign(to, align, size);
}

void *aligned_alloc(size_t align, size_t size) {
    return is_refused() ? NULL : real_aligned_alloc(align, size);
}
