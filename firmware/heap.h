/* The heap of the firmware, with statistics for the test. */
#ifndef HEAP_H
#define HEAP_H
#include <stddef.h>

/* The bytes of the arena ever used, the blocks allocated now, the number of allocation calls, and the number of the call that fails
   (0 for none). */
extern size_t heap_most, heap_blocks, heap_calls, heap_refused_call;
/* Starts with an empty arena, which is the heap's own if `at` is 0. No block may be allocated. */
void begin_heap(void *at, size_t size);
#endif
