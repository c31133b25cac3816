/* What tests/hostile.c stands on: chance, the library's memory, and that of its arguments. Each block
 * of memory has an address that is a multiple of no greater power of two than include/rpki.h says, is full
 * of garbage, and is watched at both ends. Each argument ends with a page, and no page follows. */
#ifndef HOSTILE_MEMORY_H
#define HOSTILE_MEMORY_H

#include <stdint.h>
#include <stdio.h>
#include <stdlib.h>
#include <string.h>
#include <sys/mman.h>
#include <unistd.h>

/* Tells that something isn't so of this call. */
static void differs(const char *what);

/* ---- chance */

static uint64_t state;

static uint64_t next(void) {
    uint64_t z = state += 0x9e3779b97f4a7c15u;
    z = (z ^ (z >> 30)) * 0xbf58476d1ce4e5b9u;
    z = (z ^ (z >> 27)) * 0x94d049bb133111ebu;
    return z ^ (z >> 31);
}
static uint64_t below(uint64_t bound) { return next() % bound; }
static int one_in(uint64_t count) { return below(count) == 0; }

static int calm; /* whether little is wrong of the call, so that it gets far */
static int amiss(uint64_t count) { return one_in(calm ? 50 * count : count); }
static void garbage(void *to, size_t length) {
    for (size_t i = 0; i < length; i++) ((uint8_t *)to)[i] = (uint8_t)next();
}

/* ---- the library's memory */

void *__real_malloc(size_t), *__real_realloc(void *, size_t);
void __real_free(void *);
static int inside;    /* whether the library is being called */
static uint8_t other; /* turns all garbage: 0, or 0xff in the second of two calls */
static uint64_t requests, refused_from, refused_to;
static int64_t held;

/* What stands before each block: 16 octets, and 8 behind it. */
struct head {
    uint64_t size, mark;
};
#define MARK 0x5afe5afe5afe5afeu

/* How many octets stand before a block, whose address is a multiple of no greater power of two than the
 * header says. */
static size_t before(size_t size) {
    size_t step = size & -size;
    return step == 0 || step > 8 ? 32 : 32 + step;
}

void *__wrap_malloc(size_t size) {
    const uint64_t mark = MARK;
    if (!inside) return __real_malloc(size);
    requests++;
    if (requests >= refused_from && requests < refused_to) return NULL;
    if (size > (size_t)1 << 28) {
        differs("it asks for more than 256 MiB");
        return NULL;
    }
    uint8_t *at = (uint8_t *)__real_malloc(size + 64) + before(size);
    struct head head = {size, MARK};
    memcpy(at - sizeof head, &head, sizeof head);
    memset(at, 0xa5 ^ other, size);
    memcpy(at + size, &mark, sizeof mark);
    held++;
    return at;
}

void __wrap_free(void *block) {
    struct head head;
    uint8_t *at = block;
    if (!inside || at == NULL) {
        __real_free(block);
        return;
    }
    memcpy(&head, at - sizeof head, sizeof head);
    if (head.mark != MARK || memcmp(at + head.size, &head.mark, sizeof head.mark) != 0) {
        differs("it frees what is no block, or writes around one");
        abort();
    }
    memset(at - sizeof head, 0xdd ^ other, head.size + sizeof head);
    held--;
    __real_free(at - before(head.size));
}

void *__wrap_realloc(void *block, size_t size) {
    struct head head;
    if (!inside) return __real_realloc(block, size);
    void *moved = __wrap_malloc(size);
    if (moved == NULL || block == NULL) return moved;
    memcpy(&head, (uint8_t *)block - sizeof head, sizeof head);
    memcpy(moved, block, head.size < size ? head.size : size);
    __wrap_free(block);
    return moved;
}

/* ---- the memory of arguments */

/* A slot ends with a page, and no page follows. Inputs are written through other addresses than
 * those the library gets, at which nothing can be written. */
#define SLOT ((size_t)1 << 22)
#define STEP (SLOT + 4096)
#define SLOTS 24
#define OUTS 6
static uint8_t *written, *read_only, *outputs;
static size_t inputs_used, outs_used, ignored_used;
static struct out {
    uint8_t *at, *first; /* what the library writes, and what the first call wrote */
    size_t size;
    int is_kept; /* whether nothing is written at a fault */
} outs[OUTS];
static struct ignored {
    uint8_t *at;
    size_t size;
} ignored[400];

static void make_slots(void) {
    int file = memfd_create("inputs", 0);
    if (file < 0 || ftruncate(file, SLOTS * SLOT) != 0) exit(2);
    written = mmap(NULL, SLOTS * SLOT, PROT_READ | PROT_WRITE, MAP_SHARED, file, 0);
    read_only = mmap(NULL, SLOTS * STEP, PROT_NONE, MAP_PRIVATE | MAP_ANONYMOUS, -1, 0);
    outputs = mmap(NULL, OUTS * STEP, PROT_NONE, MAP_PRIVATE | MAP_ANONYMOUS, -1, 0);
    for (size_t i = 0; i < SLOTS; i++)
        mmap(read_only + i * STEP, SLOT, PROT_READ, MAP_SHARED | MAP_FIXED, file, (off_t)(i * SLOT));
    for (size_t i = 0; i < OUTS; i++) {
        mprotect(outputs + i * STEP, SLOT, PROT_READ | PROT_WRITE);
        outs[i].first = malloc(SLOT);
    }
}

/* Puts an input to the end of a slot. */
static void *input(const void *from, size_t size) {
    size_t slot = inputs_used++;
    if (slot >= SLOTS || size > SLOT) abort();
    if (size == 0 && one_in(2)) return NULL;
    if (size > 0) memcpy(written + slot * SLOT + SLOT - size, from, size);
    return read_only + slot * STEP + SLOT - size;
}

/* Marks a part of an input that the library is to ignore: the second call has other octets there. */
static void ignore(const void *at, size_t size) {
    size_t offset = (size_t)((const uint8_t *)at - read_only);
    if (ignored_used < sizeof ignored / sizeof *ignored)
        ignored[ignored_used++] = (struct ignored){written + offset / STEP * SLOT + offset % STEP, size};
}

/* Gives an output its place. */
static void *output(size_t size) {
    struct out *out = &outs[outs_used++];
    if (outs_used > OUTS || size > SLOT) abort();
    out->at = outputs + (outs_used - 1) * STEP + SLOT - size;
    out->size = size, out->is_kept = 0;
    return size == 0 && one_in(2) ? NULL : out->at;
}
static uint8_t blank(size_t place) { return (uint8_t)(place * 37 + 11) ^ other; }
static void blanks(void) {
    for (size_t i = 0; i < outs_used; i++)
        for (size_t j = 0; j < outs[i].size; j++) outs[i].at[j] = blank(j);
}
static int is_blank(const struct out *out, size_t from) {
    for (size_t i = from; i < out->size; i++)
        if (out->at[i] != blank(i)) return 0;
    return 1;
}

#endif
