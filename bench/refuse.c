/* Refuses memory to a program that is run with this library in front of the C library's (LD_PRELOAD): the request
   whose number, from 1, is in REFUSE_AT, and with REFUSE_ON each later one too. Where the first is refused, a byte is
   written to the file descriptor REFUSE_TELL. */
#define _GNU_SOURCE
#include <dlfcn.h>
#include <errno.h>
#include <stdlib.h>
#include <unistd.h>

static long at = -1, asked = 0;
static int tell = -1, on = 0;

__attribute__((constructor)) static void begin(void) {
    const char *number = getenv("REFUSE_AT"), *descriptor = getenv("REFUSE_TELL");
    on = getenv("REFUSE_ON") != NULL;
    tell = descriptor ? atoi(descriptor) : -1;
    asked = 0;
    at = number ? atol(number) : -1;
}

static int refused(void) {
    asked += 1;
    if (at < 0 || asked < at || (asked > at && !on)) return 0;
    if (asked == at && tell >= 0 && write(tell, "r", 1) != 1) _exit(99);
    errno = ENOMEM;
    return 1;
}

void *malloc(size_t size) {
    static void *(*real)(size_t);
    if (!real) real = (void *(*)(size_t))dlsym(RTLD_NEXT, "malloc");
    return refused() ? NULL : real(size);
}

void *realloc(void *block, size_t size) {
    static void *(*real)(void *, size_t);
    if (!real) real = (void *(*)(void *, size_t))dlsym(RTLD_NEXT, "realloc");
    return refused() ? NULL : real(block, size);
}
