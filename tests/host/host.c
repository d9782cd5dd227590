/* A server in C: links libpebblerut.a, and checks answers and untouched memory.
 *
 *     host                  checks with records made here: every pair of faults, one channel, overflow, rooms of every size around the edge,
 *                           NaNs of four kinds in memory that has to stay as it is, a history and a room that cannot be written to;
 *                           after every call both peaks, and the words around them. All of it through pebblerut_render, and with the
 *                           edition named, 1 and 2. Then wrong editions, and where the three agree and differ
 *     host render           records on descriptor 0, outputs on descriptor 1, refusals on descriptor 2, as the program `render` does it
 *     host peaks            records on descriptor 0, a line with both peaks of each on descriptor 1
 *     host editions         as `host render`, a byte with the edition before each record
 *     host edition-peaks    as `host peaks`, likewise
 *
 * It uses no header of the C library, so that the toolchain's own compiler builds it on every machine that the toolchain runs on. */
#include "pebblerut.h"

long read(int descriptor, void *to, unsigned long bytes);
long write(int descriptor, const void *from, unsigned long bytes);
int dprintf(int descriptor, const char *format, ...);
void *mmap(void *at, unsigned long bytes, int protection, int flags, int descriptor, long offset);
int mprotect(void *at, unsigned long bytes, int protection);
long sysconf(int name);

static int failures = 0;

/* How a call is made: through pebblerut_render, or with the edition named. */
typedef struct {
    const char *name;
    bool names_edition;
    uint8_t edition;
} way;

static const way ways[] = {{"pebblerut_render", false, 1}, {"edition 1", true, 1}, {"edition 2", true, 2}};
enum { UNNAMED, FIRST, SECOND, WAYS };
static const way *by = ways + UNNAMED;

/* What the host says goes out at once: a call that ends the program leaves all lines before it. */
#define SAY(...) dprintf(1, __VA_ARGS__)

static void expect(bool held, const char *what, int a, int b) {
    if (!held) {
        SAY("host: FAILED: %s: %s (%d, %d)\n", by->name, what, a, b);
        failures++;
    }
}

static void copy(void *to, const void *from, size_t bytes) {
    for (size_t i = 0; i < bytes; i++) ((unsigned char *)to)[i] = ((const unsigned char *)from)[i];
}

static bool same(const void *a, const void *b, size_t bytes) {
    for (size_t i = 0; i < bytes; i++)
        if (((const unsigned char *)a)[i] != ((const unsigned char *)b)[i]) return false;
    return true;
}

static float from_bits(uint32_t bits) {
    float x;
    copy(&x, &bits, 4);
    return x;
}

/* ---- a record, the history and the room that a call gets */

enum { LEFT = 4, RIGHT = 1226, ROOM = 1200 };

typedef struct {
    uint8_t edition, record[PEBBLERUT_RECORD_BYTES];
    size_t bytes, floats;
    pebblerut_history history;
    float out[ROOM];
} call;

static void put16(uint8_t *at, unsigned value) {
    at[0] = value & 255;
    at[1] = value >> 8 & 255;
}

/* An accepted call of two channels with intensity on, every number different from the next. */
static void accepted(call *c) {
    for (size_t i = 0; i < sizeof *c; i++) ((unsigned char *)c)[i] = 0;
    c->edition = by->edition;
    c->bytes = PEBBLERUT_RECORD_BYTES;
    c->floats = 1152;
    c->record[1] = 2;
    c->record[2] = 1;
    for (int part = LEFT; part <= RIGHT; part += RIGHT - LEFT) {
        c->record[part + 1] = 210;
        for (int i = 0; i < 61; i++) c->record[part + 6 + i] = i % 8;
        put16(c->record + part + 68, 30);
        for (int i = 0; i < 576; i++) put16(c->record + part + 70 + 2 * i, (unsigned)(i % 17 - 8));
    }
    for (int i = 0; i < 576; i++) {
        c->history.left.overlap[i] = (float)i / 4096;
        c->history.right.overlap[i] = -(float)i / 4096;
    }
    for (int i = 0; i < 1024; i++) {
        c->history.left.blocks[i] = (float)i / 2048;
        c->history.right.blocks[i] = (float)(1024 - i) / 2048;
    }
    for (int i = 0; i < ROOM; i++) c->out[i] = (float)(i + 1);
}

/* ---- faults: each makes one check of the table fail, in the given channel where the check is one of a channel */

static const int number_of[] = {13, 18, 1, 12, 2, 3, 4, 5, 6, 7, 8, 10, 11};
enum { FAULTS = sizeof number_of / sizeof *number_of };

static const uint8_t wrong_editions[] = {0, 3, 255};
enum { WRONG_EDITIONS = sizeof wrong_editions };

/* No edition is named to pebblerut_render, and so none is wrong. */
static bool can_be(int fault) { return by->names_edition || number_of[fault] != 18; }

/* The channel whose factors are intensity's positions, and the other. */
static int positions_of(uint8_t edition) { return edition == 2 ? RIGHT : LEFT; }
static int no_positions_of(uint8_t edition) { return edition == 2 ? LEFT : RIGHT; }

static void break_it(call *c, int fault, int channel) {
    int part = channel ? RIGHT : LEFT;
    pebblerut_channel *history = channel ? &c->history.right : &c->history.left;
    switch (number_of[fault]) {
    case 13: c->bytes = PEBBLERUT_RECORD_BYTES - 1 - 2000 * channel; break;
    case 18: c->edition = wrong_editions[channel]; break;
    case 1: c->record[1] = channel ? 3 : 0; break;
    case 12: c->record[part + (channel ? 67 : 0)] = channel ? 1 : 5; break;
    case 2: c->record[1] = 1; break;
    case 3: c->record[0] = channel ? 255 : 3; break;
    case 4: put16(c->record + part + 68, 577); break;
    case 5: c->record[part + (channel ? 66 : 27)] = 16; break;
    case 6: c->record[part + 3 + channel] = 8; break;
    case 7: put16(c->record + part + 70 + 2 * 575, channel ? 8207 : 65536 - 8207); break;
    case 8: c->record[positions_of(by->edition) + 6 + 20] = 8; break;
    case 10: (channel ? history->blocks : history->overlap)[channel ? 1023 : 0] = from_bits(channel ? 0x7fc00000 : 0xff800000); break;
    case 11: c->floats = channel ? 1151 : 0; break;
    }
}

/* Fault 1 leaves no channel count, fault 2 one channel: what then stands in channel 1 is not looked at. */
static bool seen(int fault, int channel, bool mono) {
    int k = number_of[fault];
    bool of_channel_1 = channel == 1 && (k == 12 || k == 4 || k == 5 || k == 6 || k == 7 || k == 10);
    return !(mono && of_channel_1);
}

static call before, now;

/* ---- the peaks: every call stores both, a refusal too */

/* Where they are stored, with words around each that are nobody's. Before a call no two are the same, and none can be a peak: the highest bit is set. */
typedef struct {
    uint32_t before, left, between, right, after;
} peak_words;

static const peak_words filled = {0xffffff01, 0xffffff02, 0xffffff03, 0xffffff04, 0xffffff05};
static peak_words peaks;

static int rendered(pebblerut_history *history, float *out, size_t floats) {
    peaks = filled;
    if (by->names_edition) return pebblerut_render_edition(history, now.edition, now.record, now.bytes, out, floats, &peaks.left, &peaks.right);
    return pebblerut_render(history, now.record, now.bytes, out, floats, &peaks.left, &peaks.right);
}

/* An output's pattern with the sign bit cleared. */
static uint32_t level(const float *output) {
    uint32_t bits;
    copy(&bits, output, 4);
    return bits & 0x7fffffff;
}

static uint32_t highest_level(const float *outputs) {
    uint32_t highest = 0;
    for (int i = 0; i < PEBBLERUT_CHANNEL_OUTPUTS; i++)
        if (level(outputs + i) > highest) highest = level(outputs + i);
    return highest;
}

/* Each used channel's own peak, 0 for one that is not used, and 0 for both at a refusal. */
static void peaks_hold(int answer, const float *out, int a, int b) {
    int channels = answer == 0 ? now.record[1] : 0;
    expect(peaks.left == (channels >= 1 ? highest_level(out) : 0), "the left peak", a, b);
    expect(peaks.right == (channels == 2 ? highest_level(out + PEBBLERUT_CHANNEL_OUTPUTS) : 0), "the right peak", a, b);
    expect(peaks.before == filled.before && peaks.between == filled.between && peaks.after == filled.after, "the words around the peaks stay", a, b);
}

/* The call answers `wanted`. Where that is a refusal nothing has changed but the peaks, which are 0. */
static void answers(int wanted, const char *what, int a, int b) {
    copy(&before, &now, sizeof now);
    int got = rendered(&now.history, now.out, now.floats);
    expect(got == wanted, what, got, wanted);
    peaks_hold(got, now.out, a, b);
    if (got != 0) expect(same(&before, &now, sizeof now), "a refusal changes nothing but the peaks", a, b);
    else expect(same(before.out + now.floats, now.out + now.floats, (ROOM - now.floats) * 4) && same(before.record, now.record, sizeof now.record), "nothing beyond the room is touched", a, b);
}

static void pairs_of_faults(void) {
    int calls = 0;
    for (int first = 0; first < FAULTS; first++)
        for (int second = first; second < FAULTS; second++)
            for (int channels = 0; channels < 4 && can_be(first) && can_be(second); channels++) {
                accepted(&now);
                break_it(&now, second, channels >> 1);
                break_it(&now, first, channels & 1);
                bool mono = now.record[1] == 1;
                int wanted = seen(first, channels & 1, mono) ? number_of[first] : seen(second, channels >> 1, mono) ? number_of[second] : 2;
                answers(wanted, "the first failing check answers", number_of[first], number_of[second]);
                calls++;
            }
    SAY("host: %s: %d pairs of faults answered by the first\n", by->name, calls);
}

static void one_channel_alone(void) {
    now.record[1] = 1;
    now.record[2] = 0;
}

/* One channel: channel 1's part and history are neither tested nor changed. */
static void one_channel(void) {
    for (int fault = 0; fault < FAULTS; fault++) {
        if (seen(fault, 1, true)) continue;
        accepted(&now);
        one_channel_alone();
        now.floats = 576;
        break_it(&now, fault, 1);
        pebblerut_channel right;
        copy(&right, &now.history.right, sizeof right);
        answers(0, "channel 1 is not tested", number_of[fault], 1);
        expect(same(&right, &now.history.right, sizeof right), "channel 1 is not changed", number_of[fault], 1);
    }
    for (int channels = 1; channels <= 2; channels++)
        for (int floats = 0; floats <= ROOM; floats += floats % 576 > 4 && floats % 576 < 570 ? 11 : 1) {
            accepted(&now);
            now.record[1] = channels;
            now.record[2] = 0;
            now.floats = floats;
            answers(floats < 576 * channels ? 11 : 0, "room", floats, channels);
            if (floats >= 576 * channels) expect(same(before.out + 576 * channels, now.out + 576 * channels, (ROOM - 576 * channels) * 4), "room beyond is untouched", floats, channels);
        }
    SAY("host: %s: one channel and rooms\n", by->name);
}

/* How many of the numbers are NaNs of the pattern that an x86-64 makes of an operation with no result; less than 0 where one is another NaN. */
static int machine_nans(const float *x, int count) {
    int found = 0;
    for (int i = 0; i < count; i++) {
        uint32_t bits;
        copy(&bits, x + i, 4);
        if (x[i] == x[i]) continue;
        if (bits != 0xffc00000) return -1;
        found++;
    }
    return found;
}

static void silence(void) {
    accepted(&now);
    for (int i = 4; i < PEBBLERUT_RECORD_BYTES; i++) now.record[i] = 0;
}

/* Silence with the largest overlap: the sums of matrixing overflow, nothing is refused, and the next call is refused with 10 until the history is fresh. */
static void overflow(void) {
    silence();
    for (int i = 0; i < 576; i++) now.history.left.overlap[i] = from_bits(0x7f7fffff);
    expect(!pebblerut_not_finite(&now.history), "the largest numbers are finite", 0, 0);
    answers(0, "a huge finite history is taken", 0, 0);
    expect(pebblerut_not_finite(&now.history), "an overflow is seen", 0, 0);
    expect(machine_nans(now.out, 576) > 0, "sums of infinite numbers of both signs are NaNs, with the machine's bits", 0, 0);
    expect(peaks.left == 0x7fc00000, "the peak of a NaN", (int)peaks.left, 0x7fc00000);
    for (int again = 0; again < 3; again++) answers(10, "a history that is not finite is refused", again, 0);
    now.record[1] = 3;
    answers(1, "an earlier check comes first", 0, 0);
    now.record[1] = 2;
    pebblerut_fresh(&now.history);
    expect(!pebblerut_not_finite(&now.history), "a fresh history is finite", 0, 0);
    for (size_t i = 0; i < sizeof now.history; i++) expect(((unsigned char *)&now.history)[i] == 0, "a fresh history is +0.0", (int)i, 0);
    answers(0, "a fresh history is taken", 0, 0);
    now.history.right.blocks[5] = from_bits(0x7f800000);
    one_channel_alone();
    answers(0, "one channel does not test the other's history", 0, 0);
    expect(pebblerut_not_finite(&now.history), "channel 1 is asked for too", 0, 0);
    SAY("host: %s: overflow, 10, and a fresh start\n", by->name);
}

/* Silence, and a fresh history but for one number of a channel. By the window's largest entry, which is above 1, it makes the channel's first output the
 * largest; or, as a sample of the last slot, the last. */
static void one_number(int channel, bool last, float number) {
    silence();
    pebblerut_fresh(&now.history);
    pebblerut_channel *history = channel ? &now.history.right : &now.history.left;
    *(last ? history->overlap + 17 : history->blocks + 448) = number;
}

static void peaks_alone(void) {
    for (int channel = 0; channel < 2; channel++)
        for (int last = 0; last < 2; last++) {
            one_number(channel, last, 1);
            answers(0, "a history with one number is taken", channel, last);
            uint32_t at_the_end = level(now.out + 576 * channel + 575 * last);
            expect((channel ? peaks.right : peaks.left) == at_the_end, "the first output, or the last, is the largest", channel, last);
            expect((channel ? peaks.left : peaks.right) == 0, "the peak of silence", channel, last);
        }
    one_number(1, false, from_bits(0x7f7fffff));
    answers(0, "a history with the largest number is taken", 0, 0);
    expect(machine_nans(now.out, 1152) == 0, "no output is a NaN", 0, 0);
    expect(peaks.right == 0x7f800000, "the peak of an infinite output", (int)peaks.right, 0x7f800000);
    SAY("host: %s: each channel's own peak, at its first output and its last, and infinite\n", by->name);
}

/* ---- memory that has to stay as it is, to the bit: the promise speaks of numbers, and a NaN is one of them whatever its sign and payload */

static const uint32_t nan_kinds[] = {0x7fc00000, 0x7f800001, 0xffc00000, 0xff800001};
enum { NAN_KINDS = sizeof nan_kinds / sizeof *nan_kinds };

/* Quiet, signalling and negative ones, each place with a payload of its own. */
static void fill_with_nans(float *at, int count, int kind) {
    for (int i = 0; i < count; i++) {
        uint32_t bits = nan_kinds[kind] | (uint32_t)(i + 1) << 1;
        copy(at + i, &bits, 4);
    }
}

static void fill_channel(pebblerut_channel *channel, int kind) {
    fill_with_nans(channel->overlap, 576, kind);
    fill_with_nans(channel->blocks, 1024, kind);
}

static void payloads(void) {
    for (int kind = 0; kind < NAN_KINDS; kind++) {
        for (int fault = 0; fault < FAULTS; fault++)
            for (int broken = 0; broken < 4 && can_be(fault); broken++) {
                accepted(&now);
                fill_with_nans(now.out, ROOM, kind);
                if (broken & 1) fill_channel(&now.history.left, kind);
                if (broken & 2) fill_channel(&now.history.right, kind);
                break_it(&now, fault, 0);
                answers(broken && number_of[fault] == 11 ? 10 : number_of[fault], "a refusal with NaNs in memory", number_of[fault], kind);
            }
        for (int channels = 1; channels <= 2; channels++) {
            accepted(&now);
            if (channels == 1) one_channel_alone();
            fill_with_nans(now.out, ROOM, kind);
            if (channels == 1) fill_channel(&now.history.right, kind);
            answers(0, "NaNs where nothing is tested", channels, kind);
            expect(same(before.out + 576 * channels, now.out + 576 * channels, (ROOM - 576 * channels) * 4), "NaNs beyond the outputs stay", channels, kind);
            if (channels == 1) expect(same(&before.history.right, &now.history.right, sizeof now.history.right), "channel 1's NaNs stay", channels, kind);
        }
    }
    SAY("host: %s: NaNs of %d kinds stay as they are\n", by->name, NAN_KINDS);
}

/* ---- memory in pages of its own: a store to pages that may only be read would end the program. The peaks, which are always stored, lie elsewhere */

enum { READ = 1, WRITE = 2, PRIVATE_AND_ANONYMOUS = 0x22, PAGE_SIZE = 30 };

/* Two halves of whole pages, which meet where the second may be written to or not by itself. */
typedef struct {
    unsigned char *start, *middle;
    unsigned long half;
} pages;

/* The second half has room for so many bytes. */
static pages of_pages(unsigned long bytes) {
    unsigned long page = sysconf(PAGE_SIZE);
    unsigned long half = (bytes + page - 1) / page * page;
    unsigned char *start = mmap(0, 2 * half, READ | WRITE, PRIVATE_AND_ANONYMOUS, -1, 0);
    if (start == (unsigned char *)-1) {
        SAY("host: FAILED: no pages to be had\n");
        failures++;
        start = 0;
    }
    return (pages){start, start + half, half};
}

static void only_read(pages of, bool first_half_too) {
    int got = first_half_too ? mprotect(of.start, 2 * of.half, READ) : mprotect(of.middle, of.half, READ);
    expect(got == 0, "pages that may only be read", got, first_half_too);
}

static void unwritable(void) {
    pages kept = of_pages(sizeof(pebblerut_channel)), room = of_pages(ROOM * sizeof(float));
    if (!kept.start || !room.start) return;
    /* the left channel ends where the right one's pages begin, and so do one channel's outputs and what lies beyond them */
    pebblerut_history *history = (pebblerut_history *)(kept.middle - sizeof(pebblerut_channel));
    float *out = (float *)room.middle - PEBBLERUT_CHANNEL_OUTPUTS;
    accepted(&now);
    one_channel_alone();
    copy(history, &now.history, sizeof *history);
    fill_channel(&history->right, 1);
    only_read(kept, false);
    only_read(room, false);
    int got = rendered(history, out, ROOM);
    expect(got == 0, "one channel stores nothing in the other's history and beyond its outputs", got, 0);
    peaks_hold(got, out, ROOM, 1);
    only_read(room, true);
    for (int fault = 0; fault < FAULTS; fault++) {
        if (!can_be(fault)) continue;
        accepted(&now);
        break_it(&now, fault, 0);
        mprotect(kept.start, 2 * kept.half, READ | WRITE);
        copy(history, &now.history, sizeof *history);
        only_read(kept, true);
        got = rendered(history, out, now.floats);
        expect(got == number_of[fault], "a refusal stores nothing but the peaks", got, number_of[fault]);
        peaks_hold(got, out, number_of[fault], 0);
    }
    SAY("host: %s: a refusal stores nothing but the peaks, and one channel nothing of the other's\n", by->name);
}

/* ---- the editions */

enum { LONG, SHORT, MIXED, START, END, KINDS };

/* An accepted call with both channels of a block type, or with one channel, where no stereo is asked for. */
static void accepted_kind(int kind, int channels, int stereo) {
    accepted(&now);
    now.record[1] = channels;
    now.record[2] = channels == 2 ? stereo : 0;
    now.record[LEFT] = now.record[RIGHT] = kind;
}

static void every_wrong_edition(void) {
    int calls = 0;
    for (int edition = 0; edition < 256; edition++) {
        accepted(&now);
        now.edition = edition;
        answers(edition == 1 || edition == 2 ? 0 : 18, "an edition", edition, 0);
    }
    for (int k = 0; k < WRONG_EDITIONS; k++)
        for (int fault = 0; fault < FAULTS; fault++)
            for (int channel = 0; channel < 2; channel++) {
                accepted(&now);
                break_it(&now, fault, channel);
                now.edition = wrong_editions[k];
                answers(number_of[fault] == 13 ? 13 : 18, "a wrong edition beside another fault", number_of[fault], wrong_editions[k]);
                calls++;
            }
    SAY("host: %s: all 256 numbers of an edition, and %d calls with a wrong one beside another fault\n", by->name, calls);
}

/* Positions are one channel's factors: 8 there is refused with 8, also of one window, and 15 all over the other channel's is none. */
static void positions(void) {
    for (int kind = 0; kind < KINDS; kind++) {
        int last = kind == SHORT || kind == MIXED ? 22 + 3 * 11 + 2 : 20;
        accepted_kind(kind, 2, 1);
        for (int i = 0; i < 61; i++) now.record[no_positions_of(by->edition) + 6 + i] = 15;
        answers(0, "the other channel's factors are no positions", kind, 0);
        accepted_kind(kind, 2, 1);
        now.record[positions_of(by->edition) + 6 + last] = 8;
        answers(8, "a position above 7 in the last band, or in its last window", kind, last);
        accepted_kind(kind, 2, 2);
        now.record[positions_of(by->edition) + 6 + last] = 8;
        answers(0, "without intensity a factor is no position", kind, last);
    }
    SAY("host: %s: positions above 7 in one channel's factors are refused, in the other's not\n", by->name);
}

static call given, earlier;
static peak_words earlier_peaks;

/* What the call that is kept in `given` answers when it goes one of the ways. What it leaves is in `now` and `peaks`. */
static int through(int which) {
    by = ways + which;
    copy(&now, &given, sizeof now);
    now.edition = by->edition;
    return rendered(&now.history, now.out, now.floats);
}

/* Edition 1 named is pebblerut_render: answer, outputs, history and peaks, to the byte. */
static void same_unnamed(int wanted, int a, int b) {
    copy(&given, &now, sizeof given);
    int first = through(UNNAMED);
    copy(&earlier, &now, sizeof earlier);
    copy(&earlier_peaks, &peaks, sizeof earlier_peaks);
    int second = through(FIRST);
    expect(first == wanted && second == wanted, "edition 1 named and not answer alike", first, second);
    expect(same(&earlier, &now, sizeof now), "edition 1 named leaves the same outputs and history", a, b);
    expect(same(&earlier_peaks, &peaks, sizeof peaks), "edition 1 named has the same peaks", a, b);
}

static void named_and_not(void) {
    int calls = 0;
    by = ways + UNNAMED;
    for (int kind = 0; kind < KINDS; kind++)
        for (int stereo = 0; stereo < 5; stereo++, calls++) {
            accepted_kind(kind, stereo == 4 ? 1 : 2, stereo);
            same_unnamed(0, kind, stereo);
        }
    for (int fault = 0; fault < FAULTS; fault++)
        for (int channel = 0; channel < 2 && number_of[fault] != 18; channel++, calls++) {
            accepted(&now);
            break_it(&now, fault, channel);
            same_unnamed(number_of[fault], number_of[fault], channel);
        }
    SAY("host: edition 1 named is pebblerut_render, to the byte, in %d calls\n", calls);
}

/* Whether edition 2 gives other outputs than edition 1, and another history. Both take the call. */
static void editions_part(bool outputs, bool history, int a, int b) {
    copy(&given, &now, sizeof given);
    int first = through(FIRST);
    copy(&earlier, &now, sizeof earlier);
    int second = through(SECOND);
    expect(first == 0 && second == 0, "both editions take the call", first, second);
    expect(same(earlier.out, now.out, sizeof now.out) != outputs, outputs ? "the editions' outputs differ" : "the editions' outputs are the same", a, b);
    expect(same(&earlier.history, &now.history, sizeof now.history) != history, history ? "the editions' histories differ" : "the editions' histories are the same", a, b);
}

/* Without intensity a granule differs where it has short windows; with it, also by the channel that the positions are read from. */
static void editions_apart(void) {
    for (int kind = 0; kind < KINDS; kind++) {
        bool windows = kind == SHORT || kind == MIXED;
        for (int channels = 1; channels <= 2; channels++)
            for (int stereo = 0; stereo < 4; stereo += 2) {
                accepted_kind(kind, channels, stereo);
                editions_part(windows, windows, kind, channels);
            }
        accepted_kind(kind, 2, 1);
        for (int i = 0; i < 61; i++) now.record[LEFT + 6 + i] = (i + 3) % 7;
        editions_part(true, true, kind, 3);
    }
    SAY("host: the editions differ in short windows and in intensity, and in long blocks without it they do not\n");
}

/* ---- records from descriptor 0, as a server would take them */

/* How many outputs an accepted record has: 576 for each channel. A server that makes its records knows their channel count already. */
static long outputs_of(const uint8_t *record) { return 576 * record[1]; }

/* How many of the bytes asked for came from descriptor 0: fewer at its end. */
static size_t came(uint8_t *to, size_t bytes) {
    size_t have = 0;
    long got = 1;
    while (have < bytes && got > 0) {
        got = read(0, to + have, bytes - have);
        if (got > 0) have += got;
    }
    return have;
}

/* The next record, or as many bytes of it as there are, after its edition where one is named. Answers whether anything came. */
static bool next_record(void) {
    if (by->names_edition && came(&now.edition, 1) == 0) return false;
    now.bytes = came(now.record, PEBBLERUT_RECORD_BYTES);
    return by->names_edition || now.bytes > 0;
}

/* Says what came of record n, which was answered with k. Answers whether it could be written. */
typedef bool saying(int n, int k);

static bool say_outputs(int n, int k) {
    if (k != 0) {
        dprintf(2, "record %d refused %d\n", n, k);
        return true;
    }
    long bytes = outputs_of(now.record) * (long)sizeof *now.out;
    return write(1, now.out, bytes) == bytes;
}

static bool say_peaks(int n, int k) {
    (void)n, (void)k; /* a line for every record, and a refused one has peaks too */
    return SAY("%08x %08x\n", peaks.left, peaks.right) == 18;
}

/* Up to the end of the records, or to one that is cut off. */
static int each_record(int which, saying say) {
    by = ways + which;
    pebblerut_fresh(&now.history);
    for (int n = 0;; n++) {
        if (!next_record()) return 0;
        int k = rendered(&now.history, now.out, 1152);
        if (!say(n, k)) return 2;
        if (k == PEBBLERUT_RECORD_LENGTH) return 0;
    }
}

static bool is(const char *word, const char *name) {
    while (*word && *word == *name) word++, name++;
    return *word == *name;
}

int main(int words, char **word) {
    if (words > 1 && is(word[1], "render")) return each_record(UNNAMED, say_outputs);
    if (words > 1 && is(word[1], "peaks")) return each_record(UNNAMED, say_peaks);
    if (words > 1 && is(word[1], "editions")) return each_record(FIRST, say_outputs);
    if (words > 1 && is(word[1], "edition-peaks")) return each_record(FIRST, say_peaks);
    for (by = ways; by < ways + WAYS; by++) {
        pairs_of_faults();
        one_channel();
        overflow();
        peaks_alone();
        payloads();
        unwritable();
        positions();
        if (by->names_edition) every_wrong_edition();
    }
    named_and_not();
    editions_apart();
    if (failures == 0) SAY("host: all as promised\n");
    return failures != 0;
}
