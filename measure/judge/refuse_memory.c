// Refuses the request for memory of the number FAIL_AT, from 1, of the program that it is loaded into:
// gcc -shared -fPIC -o refuse.so measure/judge/refuse_memory.c; FAIL_AT=7 LD_PRELOAD=./refuse.so steiner ..
// After each request it writes how many there were into the file that COUNT_TO names.
#define _GNU_SOURCE
#include <dlfcn.h>
#include <errno.h>
#include <fcntl.h>
#include <stdatomic.h>
#include <stdlib.h>
#include <unistd.h>

static atomic_long requests;

static void tell(long number) {
    static atomic_int file = -1;
    char digits[20];
    int at = sizeof digits;
    if (file == -1) {
        const char *name = getenv("COUNT_TO");
        file = name ? open(name, O_WRONLY | O_CREAT | O_TRUNC, 0600) : -2;
    }
    if (file < 0) return;
    do digits[--at] = '0' + number % 10; while ((number /= 10) > 0);
    while (at > 0) digits[--at] = ' ';
    if (pwrite(file, digits, sizeof digits, 0) < 0) _exit(99);
}

static int refused(void) {
    const char *place = getenv("FAIL_AT");
    long number = ++requests;
    tell(number);
    if (!place || number != atol(place)) return 0;
    errno = ENOMEM;
    return 1;
}

void *malloc(size_t size) {
    static void *(*real)(size_t);
    if (!real) real = (void *(*)(size_t))dlsym(RTLD_NEXT, "malloc");
    return refused() ? NULL : real(size);
}

void *realloc(void *memory, size_t size) {
    static void *(*real)(void *, size_t);
    if (!real) real = (void *(*)(void *, size_t))dlsym(RTLD_NEXT, "realloc");
    return refused() ? NULL : real(memory, size);
}
