/* A library to load before the C library (LD_PRELOAD): it refuses requests for memory, and counts what is held.
 *
 * A program marks by requests of lengths that nothing else asks for what is to be refused.
 *
 * The program of crates/rpki_vectors makes one call (`call PATH`) between BEGIN and END; both are refused, which it
 * doesn't mind. REFUSE=N refuses the Nth request of the call, and REFUSE_REST=1 all that follow it too; with 0 or nothing
 * none is refused. At the end of the process five numbers are written to standard error: the requests of the call, how many
 * of them were refused, how many blocks more were held where the call ended than where it began, how many were held at
 * the end of the process, and how many of the refused requests only gave room back: they asked for less than their block
 * had, by more than the C library rounds.
 *
 * With test vectors it asks a question over and over. AGAIN is refused for as long as there is another request to refuse:
 * the first alone, the first and all after it, the second alone, and so on. The answer ends with AS_WANTED, or with
 * OUT_OF_MEMORY; they are refused, and a line on standard error says why, where more blocks are held than before, and
 * where memory can't have run out since nothing that was needed was refused. With REFUSE_COUNT=1 the end of the process
 * writes to standard error how many requests of all questions were refused. */
#include <errno.h>
#include <malloc.h>
#include <stddef.h>
#include <stdio.h>
#include <stdlib.h>
#include <unistd.h>

enum { BEGIN = 7340033, END = 7340035, AGAIN = 7340037, AS_WANTED = 7340039, OUT_OF_MEMORY = 7340041, ROUNDING = 48 };

void *__libc_malloc(size_t);
void *__libc_realloc(void *, size_t);
void *__libc_memalign(size_t, size_t);
void *__libc_calloc(size_t, size_t);
void __libc_free(void *);

static long asked, refused, returned, live, before, held, nth, is_inside, refuses_rest, questions, all_refused;
static int is_counted;

__attribute__((constructor)) static void start(void)
{
    const char *number = getenv("REFUSE"), *rest = getenv("REFUSE_REST"), *count = getenv("REFUSE_COUNT");
    nth = number ? atol(number) : 0;
    refuses_rest = rest && *rest == '1';
    is_counted = count && *count == '1';
}

static void say(const char *line, int length)
{
    if (length < 0 || write(2, line, length) != length)
        _exit(99);
}

__attribute__((destructor)) static void finish(void)
{
    char line[120];
    long left = live;
    if (is_counted)
        say(line, snprintf(line, sizeof line, "%ld requests of %ld questions refused\n", all_refused, questions));
    else
        say(line, snprintf(line, sizeof line, "%ld %ld %ld %ld %ld\n", asked, refused, held, left, returned));
}

static void begin(void)
{
    asked = refused = returned = 0;
    before = live;
    is_inside = 1;
}

/* Whether a question is asked once more: what is refused next, or that nothing was refused, so that nothing is left. */
static int is_asked_again(void)
{
    if (nth && !refused) {
        nth = 0;
        return 0;
    }
    questions += !nth;
    if (!nth || refuses_rest)
        nth++, refuses_rest = 0;
    else
        refuses_rest = 1;
    begin();
    return 1;
}

/* Whether the answer can't stand. */
static int is_fault(int is_out_of_memory)
{
    char line[120];
    is_inside = 0;
    held = live - before;
    all_refused += refused && !refuses_rest;
    if (held)
        say(line, snprintf(line, sizeof line, "request %ld refused%s: holds %ld blocks\n", nth,
                           refuses_rest ? " and all after it" : "", held));
    else if (is_out_of_memory && refused == returned)
        say(line, snprintf(line, sizeof line, "request %ld refused%s: out of memory where all was there\n", nth,
                           refuses_rest ? " and all after it" : ""));
    else
        return 0;
    return 1;
}

/* Whether a request is a mark, and then whether it is refused. */
static int is_mark(size_t size, int *is_refused)
{
    *is_refused = 1;
    if (size == BEGIN) {
        begin();
    } else if (size == END) {
        is_inside = 0;
        held = live - before;
    } else if (size == AGAIN) {
        *is_refused = is_asked_again();
    } else if (size == AS_WANTED || size == OUT_OF_MEMORY) {
        *is_refused = is_fault(size == OUT_OF_MEMORY);
    } else {
        return 0;
    }
    return 1;
}

static int is_refused(size_t size)
{
    int is_refused_mark;
    if (is_mark(size, &is_refused_mark))
        return is_refused_mark;
    if (!is_inside)
        return 0;
    asked++;
    if (!nth || asked < nth || (asked > nth && !refuses_rest))
        return 0;
    refused++;
    return 1;
}

static void *given(void *block)
{
    live += block != NULL;
    return block;
}

static void *nothing(void)
{
    errno = ENOMEM;
    return NULL;
}

void *malloc(size_t size)
{
    return is_refused(size) ? nothing() : given(__libc_malloc(size));
}

void *calloc(size_t count, size_t size)
{
    return is_refused(count * size) ? nothing() : given(__libc_calloc(count, size));
}

void *aligned_alloc(size_t alignment, size_t size)
{
    return is_refused(size) ? nothing() : given(__libc_memalign(alignment, size));
}

int posix_memalign(void **to, size_t alignment, size_t size)
{
    void *block = aligned_alloc(alignment, size);
    if (!block)
        return ENOMEM;
    *to = block;
    return 0;
}

void free(void *block)
{
    live -= block != NULL;
    __libc_free(block);
}

void *realloc(void *block, size_t size)
{
    if (!block)
        return malloc(size);
    if (!size) {
        free(block);
        return NULL;
    }
    if (!is_refused(size))
        return __libc_realloc(block, size);
    returned += size + ROUNDING < malloc_usable_size(block);
    return nothing();
}
