/* Lets one call for memory of the first thread fail: the one whose number is in REFUSED, counted from 1. Calls that make a thread aren't
   counted. On the descriptor in REFUSED_FD it tells a call that fails by `!`, and each call of another thread by `t`. For
   bench/refuse-memory, which preloads it. */
#define _GNU_SOURCE
#include <dlfcn.h>
#include <errno.h>
#include <pthread.h>
#include <stdlib.h>
#include <sys/syscall.h>
#include <unistd.h>

extern void *__libc_malloc(size_t);
extern void *__libc_realloc(void *, size_t);
extern void *__libc_calloc(size_t, size_t);

typedef int make_thread(pthread_t *, const pthread_attr_t *, void *(*)(void *), void *);

static long left;
static int told = -1;
static int making; /* set by the first thread alone */

__attribute__((constructor)) static void begin(void) {
    const char *number = getenv("REFUSED"), *descriptor = getenv("REFUSED_FD");
    told = descriptor ? atoi(descriptor) : -1;
    left = number ? atol(number) : 0;
}

static void tell(const char *what) {
    if (told >= 0 && write(told, what, 1) != 1) _exit(99);
}

static int refused(void) {
    if (syscall(SYS_gettid) != getpid()) {
        tell("t");
        return 0;
    }
    if (making || left == 0 || --left != 0) return 0;
    tell("!");
    errno = ENOMEM;
    return 1;
}

int pthread_create(pthread_t *thread, const pthread_attr_t *attributes, void *(*body)(void *), void *argument) {
    make_thread *next = (make_thread *)dlsym(RTLD_NEXT, "pthread_create");
    making = 1;
    int answer = next(thread, attributes, body, argument);
    making = 0;
    return answer;
}

void *malloc(size_t size) { return refused() ? NULL : __libc_malloc(size); }
void *calloc(size_t count, size_t size) { return refused() ? NULL : __libc_calloc(count, size); }
void *realloc(void *old, size_t size) { return refused() ? NULL : __libc_realloc(old, size); }
