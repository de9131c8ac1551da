/*
 * Measures the C library: the time of a block's head and of its verdict, and the stack that its calls use. It neither
 * reads nor digests samples.
 *
 *     cc -O2 -I../c -o heads heads.c ../release/c/x86-64/libbwi.a && ./heads
 */
#define _POSIX_C_SOURCE 200809L
#include "bwi.h"

#include <pthread.h>
#include <stdio.h>
#include <stdlib.h>
#include <string.h>
#include <time.h>

enum { REQUESTS = 4000000, STACK = 1 << 20, PATTERN = 0xa5 };

static uint8_t samples[32768], head[BWI_LONGEST_HEAD];
static bwi_sender sender;
static bwi_reply reply;
static uint8_t verdict[] = {14, 0, 0, 0, 0x81, 8, 't', 'a', 'k', 'e', '-', '0', '0', '1', 0, 0, 0, 0, BWI_STORED};

static double seconds(void) {
    struct timespec now;
    clock_gettime(CLOCK_MONOTONIC, &now);
    return now.tv_sec + now.tv_nsec / 1e9;
}

/* Offers a block, and hears that it is stored. */
static void one(uint32_t number) {
    size_t i;
    if (bwi_block_head(&sender, samples, sizeof samples, head, sizeof head) == 0)
        abort();
    for (i = 0; i < 4; i++)
        verdict[14 + i] = (uint8_t)(number >> (8 * i));
    verdict[0] = sizeof verdict - 4;
    if (bwi_hear(&sender, verdict, sizeof verdict, &reply) == 0 || reply.heard != BWI_COUNTED)
        abort();
}

static void begin(void) {
    if (!bwi_begin(&sender, (const uint8_t *)"take-001", 8, 0))
        abort();
}

static void *once(void *nothing) {
    begin();
    one(0);
    return nothing;
}

static void *nothing_at_all(void *nothing) {
    return nothing;
}

/* How many bytes of the stack of a thread that does this aren't as they were. */
static size_t stack_of(void *(*calls)(void *)) {
    uint8_t *stack = aligned_alloc(65536, STACK);
    pthread_attr_t with;
    pthread_t thread;
    size_t at = 0;
    memset(stack, PATTERN, STACK);
    pthread_attr_init(&with);
    if (pthread_attr_setstack(&with, stack, STACK) || pthread_create(&thread, &with, calls, NULL))
        abort();
    pthread_join(thread, NULL);
    while (at < STACK && stack[at] == PATTERN)
        at++;
    return STACK - at;
}

int main(void) {
    double start, both, heads;
    uint32_t number;
    begin();
    start = seconds();
    for (number = 0; number < REQUESTS; number++)
        one(number);
    both = seconds() - start;
    start = seconds();
    for (number = 0; number < REQUESTS; number++) {
        begin();
        if (bwi_block_head(&sender, samples, sizeof samples, head, sizeof head) == 0)
            abort();
    }
    heads = seconds() - start;
    printf("a head and its verdict %.0f ns, a start and a head %.0f ns\n", both / REQUESTS * 1e9,
           heads / REQUESTS * 1e9);
    printf("sizes: sender %zu, reply %zu; stack %zu\n", sizeof sender, sizeof reply,
           stack_of(once) - stack_of(nothing_at_all));
    return sender.offered != 1;
}
