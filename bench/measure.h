// What the measurements share: the processor's time, the least of many runs, and the memory that is
// held.
#define _POSIX_C_SOURCE 200809L
#include <malloc.h>
#include <openssl/crypto.h>
#include <stdint.h>
#include <stdio.h>
#include <stdlib.h>
#include <time.h>

// nanoseconds of this process alone
static inline double now(void) {
    struct timespec t;
    clock_gettime(CLOCK_PROCESS_CPUTIME_ID, &t);
    return t.tv_sec * 1e9 + t.tv_nsec;
}

// how often to do what took this long once, so that it takes about two milliseconds
static inline uint32_t rounds_for(double once) {
    return once > 2e6 ? 1 : (uint32_t)(2e6 / once) + 1;
}

// Does the call, and keeps in `least` its time for each round, where that is less. What is compared
// is called in turn, run after run.
#define LEAST(least, rounds, call)                      \
    do {                                                \
        double start = now();                           \
        call;                                           \
        double took = (now() - start) / (rounds);       \
        if (least == 0 || took < least) least = took;   \
    } while (0)

static inline size_t contents(const char *name, unsigned char *octets, size_t room) {
    FILE *file = fopen(name, "rb");
    size_t len = file == NULL ? 0 : fread(octets, 1, room, file);
    if (file != NULL) fclose(file);
    return len;
}

// The octets that are held of the heap, and the most that there were. The linker hands on the
// library's calls (--wrap).
static size_t held, most;
void *__real_malloc(size_t len);
void *__real_realloc(void *at, size_t len);
void __real_free(void *at);

static inline void *took(void *at) {
    held += malloc_usable_size(at);
    if (held > most) most = held;
    return at;
}

void *__wrap_malloc(size_t len) {
    return took(__real_malloc(len));
}

void __wrap_free(void *at) {
    held -= malloc_usable_size(at);
    __real_free(at);
}

void *__wrap_realloc(void *at, size_t len) {
    held -= malloc_usable_size(at);
    return took(__real_realloc(at, len));
}

static void *openssl_malloc(size_t len, const char *file, int line) {
    (void)file, (void)line;
    return __wrap_malloc(len);
}

static void *openssl_realloc(void *at, size_t len, const char *file, int line) {
    (void)file, (void)line;
    return __wrap_realloc(at, len);
}

static void openssl_free(void *at, const char *file, int line) {
    (void)file, (void)line;
    __wrap_free(at);
}

// So that what OpenSSL holds is seen too: to be called before anything else of it is.
static inline int watch_openssl(void) {
    return CRYPTO_set_mem_functions(openssl_malloc, openssl_realloc, openssl_free);
}

// The octets that a call holds at most beyond those that were held before it.
#define MOST(octets, call)      \
    do {                        \
        size_t before = held;   \
        most = held;            \
        call;                   \
        octets = most - before; \
    } while (0)
