/* The heap for Rattle's collections: blocks of powers of two from one arena, with free lists by size. It has the interface of the
   kit's C code over malloc, realloc and free (c/liblibc_c.a, heap.o): a request for no bytes allocates `align` bytes, and a failed one
   returns a valid pointer. */
#include "heap.h"
#include <stdint.h>

#ifndef HEAP_SIZE
#define HEAP_SIZE (1ul << 20)
#endif

struct tried { uint64_t ok; void *at; };
struct block { uint64_t class; struct block *next; };

static uint8_t own_arena[HEAP_SIZE] __attribute__((aligned(16)));
static uint8_t *arena = own_arena;
static size_t arena_size = sizeof own_arena;
static struct block *kept[48];
static uint64_t nothing[2];
size_t heap_most, heap_blocks, heap_calls, heap_refused_call;

void *memcpy(void *to, const void *from, size_t n);

/* Without a frame of its own, because it is the deepest call of a boot. */
static __attribute__((noinline)) struct tried take(size_t bytes)
{
    uint64_t class = 0;
    heap_calls++;
    if (heap_calls == heap_refused_call)
        return (struct tried){0, nothing};
    while (class < 40 && (16ul << class) < bytes)
        class++;
    struct block *b = kept[class];
    if (b) {
        kept[class] = b->next;
    } else {
        size_t whole = sizeof(struct block) + (16ul << class);
        if (class >= 40 || whole > arena_size - heap_most)
            return (struct tried){0, nothing};
        b = (struct block *)(arena + heap_most);
        heap_most += whole;
        b->class = class;
    }
    heap_blocks++;
    return (struct tried){1, b + 1};
}

struct tried rattle_alloc(uint64_t bytes, uint64_t align)
{
    return take(bytes ? bytes : align);
}

void rattle_dealloc(void *at)
{
    struct block *b = (struct block *)at - 1;
    b->next = kept[b->class];
    kept[b->class] = b;
    heap_blocks--;
}

struct tried rattle_realloc(void *at, uint64_t had, uint64_t bytes, uint64_t align)
{
    size_t wanted = bytes ? bytes : align, room = 16ul << ((struct block *)at - 1)->class;
    if (wanted <= room)
        return (struct tried){1, at};
    struct tried got = take(wanted);
    if (got.ok) {
        memcpy(got.at, at, had < bytes ? had : bytes);
        rattle_dealloc(at);
    }
    return got;
}

void begin_heap(void *at, size_t size)
{
    arena = at ? at : own_arena;
    arena_size = at ? size : sizeof own_arena;
    heap_most = 0;
    for (unsigned i = 0; i < sizeof kept / sizeof kept[0]; i++)
        kept[i] = 0;
}
