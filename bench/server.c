/* The archive as a server calls it: renders the records on descriptor 0 from a fresh history, and says how many were rendered,
 * the bits of their first outputs added up, and the nanoseconds that the calls took, without the reading. The function is called
 * by the form that it has today: one that takes no peaks, of a tree from before them, leaves the last two arguments alone. With EDITION defined
 * it is the one that takes the edition. */
#include <stdint.h>
#include <stdio.h>
#include <stdlib.h>
#include <string.h>
#include <time.h>
#include "pebblerut.h"

typedef uint8_t rendering(pebblerut_history *, const uint8_t *, size_t, float *, size_t, uint32_t *, uint32_t *);

static uint8_t *records;
static size_t bytes;

/* All of descriptor 0. */
static void read_records(void) {
    size_t room = 1 << 20, got = 1;
    records = malloc(room);
    while (records && got) {
        got = fread(records + bytes, 1, room - bytes, stdin);
        bytes += got;
        if (bytes == room) records = realloc(records, room *= 2);
    }
    if (!records) exit(2);
}

#ifdef EDITION
static uint8_t at_edition(pebblerut_history *history, const uint8_t *record, size_t record_bytes, float *out, size_t out_floats, uint32_t *left, uint32_t *right) {
    return pebblerut_render_edition(history, EDITION, record, record_bytes, out, out_floats, left, right);
}
#else
#define at_edition pebblerut_render
#endif

int main(void) {
    static pebblerut_history history;
    static float out[2 * PEBBLERUT_CHANNEL_OUTPUTS];
    rendering *render = (rendering *)(void (*)(void))at_edition;
    uint32_t left = 0, right = 0, sum = 0, first;
    int rendered = 0;
    struct timespec start, end;
    read_records();
    pebblerut_fresh(&history);
    clock_gettime(CLOCK_MONOTONIC, &start);
    for (size_t at = 0; at + PEBBLERUT_RECORD_BYTES <= bytes; at += PEBBLERUT_RECORD_BYTES) {
        if (render(&history, records + at, PEBBLERUT_RECORD_BYTES, out, 2 * PEBBLERUT_CHANNEL_OUTPUTS, &left, &right)) continue;
        memcpy(&first, out, sizeof first);
        sum += first;
        rendered++;
    }
    clock_gettime(CLOCK_MONOTONIC, &end);
    printf("%d %08x %lld\n", rendered, sum, (end.tv_sec - start.tv_sec) * 1000000000LL + end.tv_nsec - start.tv_nsec);
    return 0;
}
