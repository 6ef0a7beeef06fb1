// What a pool call takes at its worst, on x86-64: the stack of the deepest visit (a chain of 128 functions), by painting a thread's stack and looking how
// far the paint is gone; and the time of the longest walk of one body, a loop of 12,288 bytes that borrows one buffer a round at pool 65,534.
//
//   cc -O2 -Itests/driver tests/bench/deep.c crates/probe/out/libprobe.a -lpthread -o deep && ./deep
#include <pthread.h>
#include <stdio.h>
#include <stdlib.h>
#include <string.h>
#include <time.h>

#include "probe.h"

enum { CODE = 12288, FUNCTIONS = 128, STACK = 8 << 20, PAINT = 0xA5 };

static uint8_t marks[CODE], cells[16384], code[CODE];
static uint32_t depths[CODE + 1], answer[6];
static uint16_t queue[2 * CODE + 2], queue_depths[2 * CODE + 2], ids[FUNCTIONS], zeros[FUNCTIONS], entries[1];
static size_t offsets[FUNCTIONS], lengths[FUNCTIONS], functions, bytes;
static uint16_t pool;

static void *call(void *nothing) {
    probe_pool(answer, 6, marks, CODE, depths, CODE + 1, queue, 2 * CODE + 2, queue_depths, 2 * CODE + 2, cells, 16384, ids, functions,
               zeros, functions, zeros, functions, offsets, functions, lengths, functions, zeros, 0, zeros, 0, zeros, 0, code, bytes, zeros,
               0, zeros, 0, entries, 1, pool);
    return nothing;
}

// The bytes of stack that one call takes.
static size_t stack_of_call(void) {
    void *stack;
    pthread_attr_t attributes;
    pthread_t thread;
    if (posix_memalign(&stack, 4096, STACK) != 0) abort();
    memset(stack, PAINT, STACK);
    pthread_attr_init(&attributes);
    pthread_attr_setstack(&attributes, stack, STACK);
    if (pthread_create(&thread, &attributes, call, NULL) != 0) abort();
    pthread_join(thread, NULL);
    size_t left = 0;
    while (left < STACK && ((uint8_t *)stack)[left] == PAINT) left++;
    free(stack);
    return STACK - left;
}

static double seconds(void) {
    struct timespec t;
    clock_gettime(CLOCK_MONOTONIC, &t);
    return (double)t.tv_sec + (double)t.tv_nsec * 1e-9;
}

int main(void) {
    for (size_t i = 0; i < FUNCTIONS; i++) ids[i] = (uint16_t)i;
    functions = 1;
    printf("empty body: %zu bytes of stack, answer %u\n", stack_of_call(), answer[0]);
    functions = FUNCTIONS;
    for (size_t i = 0; i < FUNCTIONS; i++) {
        offsets[i] = bytes;
        lengths[i] = i + 1 < FUNCTIONS ? 5 : 0;
        if (lengths[i] == 0) break;
        code[bytes] = 0x84;
        code[bytes + 1] = (uint8_t)(i + 1);
        bytes += 5;
    }
    printf("chain of 128 functions: %zu bytes of stack, answer %u\n", stack_of_call(), answer[0]);
    memset(code, 0x91, CODE);
    memcpy(code, "\xBC\0\0\0\0", 5);
    memcpy(code + CODE - 3, "\x7C\x00\xD0", 3);
    functions = 1;
    lengths[0] = bytes = CODE;
    pool = 65534;
    double begun = seconds();
    call(NULL);
    printf("longest walk of one body: %.2f s, answer %u, depth %u of %u\n", seconds() - begun, answer[0], answer[3], answer[4]);
    return 0;
}
