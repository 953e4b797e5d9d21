/* Refuses one allocation of a program, for tools/refuse_memory.sh: that of the number REFUSE, counted from 1 since the program
   began. At its end it writes how many were asked for to the file COUNT, where one is named. */
#define _GNU_SOURCE
#include <dlfcn.h>
#include <errno.h>
#include <stddef.h>
#include <stdio.h>
#include <stdlib.h>
#include <sys/syscall.h>
#include <unistd.h>

static unsigned long asked, refused = ~0ul;

__attribute__((constructor)) static void begin(void) {
    const char *number = getenv("REFUSE");
    asked = 0;
    refused = number ? strtoul(number, NULL, 10) : 0;
}

/* A test ends by `exit`. */
__attribute__((destructor)) static void tell(void) {
    const char *name = getenv("COUNT");
    unsigned long count = asked;
    FILE *file = name ? fopen(name, "w") : NULL;
    if (file) {
        fprintf(file, "%lu\n", count);
        fclose(file);
    }
}

/* A program of Rattle ends by this call. */
void _exit(int status) {
    tell();
    syscall(SYS_exit_group, status);
    __builtin_unreachable();
}

static int is_refused(void) {
    int is = __atomic_add_fetch(&asked, 1, __ATOMIC_SEQ_CST) == refused;
    if (is) errno = ENOMEM;
    return is;
}

void *malloc(size_t size) {
    static void *(*real)(size_t);
    if (!real) real = (void *(*)(size_t))dlsym(RTLD_NEXT, "malloc");
    return is_refused() ? NULL : real(size);
}

void *realloc(void *old, size_t size) {
    static void *(*real)(void *, size_t);
    if (!real) real = (void *(*)(void *, size_t))dlsym(RTLD_NEXT, "realloc");
    return is_refused() ? NULL : real(old, size);
}

void *aligned_alloc(size_t align, size_t size) {
    static void *(*real)(size_t, size_t);
    if (!real) real = (void *(*)(size_t, size_t))dlsym(RTLD_NEXT, "aligned_alloc");
    return is_refused() ? NULL : real(align, size);
}

int posix_memalign(void **place, size_t align, size_t size) {
    static int (*real)(void **, size_t, size_t);
    if (!real) real = (int (*)(void **, size_t, size_t))dlsym(RTLD_NEXT, "posix_memalign");
    return is_refused() ? ENOMEM : real(place, align, size);
}
