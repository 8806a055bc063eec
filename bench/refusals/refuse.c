// Stands before the C library of a program: refuses its request for memory of the number REFUSED_MEMORY, or its thread of
// the number REFUSED_THREAD, from 1, and counts the threads that began and those that ended. At the end it writes into the
// file COUNTED how many requests and threads were asked for, how many threads began and ended, and how many pieces of memory
// were given and not given back.
#define _GNU_SOURCE
#include <dlfcn.h>
#include <errno.h>
#include <fcntl.h>
#include <pthread.h>
#include <stdatomic.h>
#include <stdio.h>
#include <stdlib.h>
#include <sys/syscall.h>
#include <unistd.h>

extern void *__libc_malloc(size_t);
extern void *__libc_calloc(size_t, size_t);
extern void *__libc_realloc(void *, size_t);
extern void *__libc_memalign(size_t, size_t);
extern void __libc_free(void *);

static atomic_long requests, threads, began, ended, held;
static long refused_request, refused_thread;

static long number_in(const char *name) {
    const char *text = getenv(name);
    return text ? atol(text) : 0;
}

__attribute__((constructor)) static void begin(void) {
    refused_request = number_in("REFUSED_MEMORY");
    refused_thread = number_in("REFUSED_THREAD");
    atomic_store(&requests, 0);
    atomic_store(&held, 0);
}

__attribute__((destructor)) static void end(void) {
    const char *name = getenv("COUNTED");
    int file = name ? open(name, O_WRONLY | O_CREAT | O_TRUNC, 0644) : -1;
    char line[100];
    int length = snprintf(line, sizeof line, "%ld %ld %ld %ld %ld\n", atomic_load(&requests), atomic_load(&threads),
                          atomic_load(&began), atomic_load(&ended), atomic_load(&held));
    if (file < 0 || write(file, line, length) != length) abort();
    close(file);
}

// The program ends by this call, which runs no destructor.
void _exit(int status) {
    end();
    syscall(SYS_exit_group, status);
    __builtin_unreachable();
}

static int is_refused(void) {
    if (atomic_fetch_add(&requests, 1) + 1 != refused_request) return 0;
    errno = ENOMEM;
    return 1;
}

static void *given(void *memory) {
    if (memory) atomic_fetch_add(&held, 1);
    return memory;
}

void *malloc(size_t size) {
    return is_refused() ? NULL : given(__libc_malloc(size));
}

void *calloc(size_t count, size_t size) {
    return is_refused() ? NULL : given(__libc_calloc(count, size));
}

void *realloc(void *old, size_t size) {
    if (is_refused()) return NULL;
    void *made = __libc_realloc(old, size);
    return old ? made : given(made);
}

void *aligned_alloc(size_t align, size_t size) {
    return is_refused() ? NULL : given(__libc_memalign(align, size));
}

int posix_memalign(void **made, size_t align, size_t size) {
    if (is_refused()) return ENOMEM;
    *made = given(__libc_memalign(align, size));
    return *made ? 0 : ENOMEM;
}

void free(void *memory) {
    if (memory) atomic_fetch_sub(&held, 1);
    __libc_free(memory);
}

struct start {
    void *(*run)(void *);
    void *what;
};

static void *run(void *given) {
    struct start start = *(struct start *)given;
    free(given);
    atomic_fetch_add(&began, 1);
    void *result = start.run(start.what);
    atomic_fetch_add(&ended, 1);
    return result;
}

int pthread_create(pthread_t *thread, const pthread_attr_t *attributes, void *(*body)(void *), void *what) {
    static int (*real)(pthread_t *, const pthread_attr_t *, void *(*)(void *), void *);
    if (!real) real = dlsym(RTLD_NEXT, "pthread_create");
    if (atomic_fetch_add(&threads, 1) + 1 == refused_thread) return EAGAIN;
    struct start *start = __libc_malloc(sizeof *start);
    if (!start) return EAGAIN;
    *start = (struct start){body, what};
    int refused = real(thread, attributes, run, start);
    if (refused) free(start);
    return refused;
}
