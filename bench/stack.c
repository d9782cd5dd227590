/* How much stack one call of pebblerut_render takes, or with EDITION defined of pebblerut_render_edition: each record on descriptor 0 is rendered in a
 * thread whose stack is painted first, and the most that any call left other than painted is said. */
#include <pthread.h>
#include <stdint.h>
#include <stdio.h>
#include <stdlib.h>
#include <string.h>
#include "pebblerut.h"

#define STACK (1 << 20)
#define PAINT 0xa5

/* By the form that the function has today: one that takes no peaks, of a tree from before them, leaves the last two arguments alone. */
typedef uint8_t rendering(pebblerut_history *, const uint8_t *, size_t, float *, size_t, uint32_t *, uint32_t *);

static pebblerut_history history;
static uint8_t record[PEBBLERUT_RECORD_BYTES];
static float out[2 * PEBBLERUT_CHANNEL_OUTPUTS];
static uint8_t *top; /* where the stack stood before the call, to a few bytes */
static int rendered;

static void *one_call(void *unused) {
    uint32_t left, right;
    uint8_t here;
#ifdef EDITION
    top = &here;
    rendered += pebblerut_render_edition(&history, EDITION, record, sizeof record, out, 2 * PEBBLERUT_CHANNEL_OUTPUTS, &left, &right) == 0;
#else
    rendering *render = (rendering *)(void (*)(void))pebblerut_render;
    top = &here;
    rendered += render(&history, record, sizeof record, out, 2 * PEBBLERUT_CHANNEL_OUTPUTS, &left, &right) == 0;
#endif
    return unused;
}

/* The bytes of a painted stack that one call used. */
static size_t used(uint8_t *stack) {
    pthread_attr_t attributes;
    pthread_t thread;
    size_t clean = 0;
    memset(stack, PAINT, STACK);
    if (pthread_attr_init(&attributes) || pthread_attr_setstack(&attributes, stack, STACK) || pthread_create(&thread, &attributes, one_call, NULL) || pthread_join(thread, NULL)) exit(2);
    pthread_attr_destroy(&attributes);
    while (clean < STACK && stack[clean] == PAINT) clean++;
    return (size_t)(top - (stack + clean));
}

int main(void) {
    uint8_t *stack = aligned_alloc(4096, STACK);
    size_t most = 0;
    int calls = 0;
    if (!stack) return 2;
    while (fread(record, sizeof record, 1, stdin) == 1) {
        size_t bytes;
        pebblerut_fresh(&history); /* a record may leave what the next would be refused for */
        bytes = used(stack);
        if (bytes > most) most = bytes;
        calls++;
    }
    printf("%zu bytes at most in %d calls, %d rendered\n", most, calls, rendered);
    return 0;
}
