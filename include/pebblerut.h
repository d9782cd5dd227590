/* Pebblerut: an MP3 decoder's back end, from records to sound. docs/EMBEDDING.md tells how to use it.
 *
 * The functions keep nothing of their own. A history belongs to one listener, and the caller keeps it; calls on different histories may run at
 * the same time. Link libpebblerut.a, which `rt lib` in crates/pebblerut writes to crates/pebblerut/out/ (x86-64). */
#ifndef PEBBLERUT_H
#define PEBBLERUT_H

#include <stdbool.h>
#include <stddef.h>
#include <stdint.h>

#ifdef __cplusplus
extern "C" {
#endif

#define PEBBLERUT_RECORD_BYTES 2448
#define PEBBLERUT_CHANNEL_OUTPUTS 576

/* What one channel leaves to its next granule. */
typedef struct {
    float overlap[576];
    float blocks[1024];
} pebblerut_channel;

/* What a listener's next granule starts from: 12,800 bytes. */
typedef struct {
    pebblerut_channel left;
    pebblerut_channel right;
} pebblerut_history;

/* What pebblerut_render and pebblerut_render_edition answer: 0, or the number of the first check that failed. */
enum {
    PEBBLERUT_RENDERED = 0,
    PEBBLERUT_CHANNEL_COUNT = 1,    /* channel count is not 1 or 2 */
    PEBBLERUT_STEREO_OF_ONE = 2,    /* mid-side or intensity asked for with one channel */
    PEBBLERUT_BAND_TABLE = 3,       /* band table above 2 */
    PEBBLERUT_COUNT1 = 4,           /* count1 above 576 */
    PEBBLERUT_SCALE_FACTOR = 5,     /* a scale factor above 15 */
    PEBBLERUT_SUBBLOCK_GAIN = 6,    /* a subblock gain above 7 */
    PEBBLERUT_SPECTRUM_NUMBER = 7,  /* a spectrum number beyond -8206 to 8206 */
    PEBBLERUT_POSITION = 8,         /* intensity applies to a band or window with a position above 7: the left channel's at edition 1, the right one's at edition 2 */
    PEBBLERUT_NOT_FINITE = 10,      /* a used channel's history holds an infinite number or a NaN */
    PEBBLERUT_ROOM = 11,            /* room for fewer than 576 outputs per channel */
    PEBBLERUT_RECORD_BYTE = 12,     /* a block type, reserved or flag byte out of its range */
    PEBBLERUT_RECORD_LENGTH = 13,   /* fewer than 2,448 bytes */
    PEBBLERUT_EDITION = 18          /* edition is not 1 or 2 */
};

/* Makes a history fresh: all +0.0. A listener starts with this. */
void pebblerut_fresh(pebblerut_history *history);

/* Renders one record. The first 576 floats of `out` are the left or only channel's outputs, the next 576 the right one's; what lies beyond is not touched.
 * The history becomes the next one; with one channel nothing is stored in `right`. At a refusal nothing is stored in `out` or in the history. Of a record longer
 * than 2,448 bytes the first 2,448 are read.
 * Each peak is the largest of that channel's 576 outputs as bits with the sign bit cleared, read as a whole number: 0x3f800000 is 1.0, 0x7f800000 an infinite output,
 * 0x7fc00000 a NaN. Every call stores both: 0 at a refusal, and 0 in `right_peak` with one channel.
 * `history`, `record`, `out`, `left_peak` and `right_peak` do not overlap, and none is a null pointer, also where its length is 0. */
uint8_t pebblerut_render(pebblerut_history *history, const uint8_t *record, size_t record_bytes, float *out, size_t out_floats, uint32_t *left_peak, uint32_t *right_peak);

/* The same with the edition named, anew for each record; pebblerut_render is this at edition 1. Edition 1 goes by the steps of the Rust crate, for renders that were
 * approved with it. Edition 2 goes by ISO/IEC 11172-3 in the points of request 5: the overlapping halves of short windows are added, band 12 is reordered, intensity
 * takes its positions from the right channel and a short window's own numbers, and mid-side skips what intensity takes. A history serves both, in any order. */
uint8_t pebblerut_render_edition(pebblerut_history *history, uint8_t edition, const uint8_t *record, size_t record_bytes, float *out, size_t out_floats, uint32_t *left_peak, uint32_t *right_peak);

/* Whether a number of the history, in either channel, is infinite or a NaN: a record that uses that channel would be refused with 10. */
bool pebblerut_not_finite(const pebblerut_history *history);

#ifdef __cplusplus
}
#endif
#endif
