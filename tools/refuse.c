/* Refuses one growth of the program that it is loaded before: the one of number REFUSE, counted from 1, and none for 0. At the
   end it writes how many there were into the file that REFUSE_COUNT names. For tools/refusals. */
#define _GNU_SOURCE
#include <dlfcn.h>
#include <stdio.h>
#include <stdlib.h>

static long refused, count;

__attribute__((constructor)) static void begin(void) {
    const char *number = getenv("REFUSE");
    refused = number ? atol(number) : 0;
    count = 0;
}

__attribute__((destructor)) static void end(void) {
    const char *name = getenv("REFUSE_COUNT");
    long found = count;
    FILE *file = name ? fopen(name, "w") : NULL;
    if (file) {
        fprintf(file, "%ld\n", found);
        fclose(file);
    }
}

/* A program with threads ends without the destructors. */
void _exit(int status) {
    void (*next)(int) = (void (*)(int))dlsym(RTLD_NEXT, "_exit");
    end();
    next(status);
    __builtin_unreachable();
}

void *malloc(size_t size) {
    static void *(*next)(size_t);
    if (!next)
        next = dlsym(RTLD_NEXT, "malloc");
    return __atomic_add_fetch(&count, 1, __ATOMIC_SEQ_CST) == refused ? NULL : next(size);
}

void *realloc(void *memory, size_t size) {
    static void *(*next)(void *, size_t);
    if (!next)
        next = dlsym(RTLD_NEXT, "realloc");
    return __atomic_add_fetch(&count, 1, __ATOMIC_SEQ_CST) == refused ? NULL : next(memory, size);
}
