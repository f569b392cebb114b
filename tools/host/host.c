/* A host of the desk library: calls of each function that are accepted, and some that are refused. */
#include "svq3_desk.h"
#include <inttypes.h>
#include <stdio.h>
#include <string.h>

/* A picture of one macroblock, and the picture before it. */
struct film {
    uint8_t ref_y[256], ref_cb[64], ref_cr[64];
    uint8_t pic_y[256], pic_cb[64], pic_cr[64];
    int32_t mv[32];
    uint8_t marks[16];
};

/* The longest record's bytes. */
static uint8_t transcript[2089];

static void start(struct film *f)
{
    memset(f, 0, sizeof *f);
    for (int i = 0; i < 256; i++)
        f->ref_y[i] = (uint8_t)(10 * (i % 16));
    memset(f->ref_cb, 90, sizeof f->ref_cb);
    memset(f->ref_cr, 160, sizeof f->ref_cr);
}

static int64_t run(struct film *f, const uint8_t *calls, size_t calls_len, const uint8_t *bits, size_t bits_len,
                   uint64_t *counts, size_t counts_len)
{
    return svq3_run(1, 1, 0, 0, 5, f->ref_y, 256, f->ref_cb, 64, f->ref_cr, 64, f->pic_y, 256, f->pic_cb, 64,
                    f->pic_cr, 64, f->mv, 32, f->marks, 16, calls, calls_len, bits, bits_len, 0,
                    transcript, sizeof transcript, counts, counts_len);
}

static int64_t macroblock(struct film *f, uint32_t mode, const uint8_t *bits, size_t bits_len, uint64_t counts[5])
{
    return svq3_macroblock(1, 1, 0, 0, 5, f->ref_y, 256, f->ref_cb, 64, f->ref_cr, 64, f->pic_y, 256, f->pic_cb, 64,
                           f->pic_cr, 64, f->mv, 32, f->marks, 16, 0, 0, mode, bits, bits_len, 0,
                           transcript, sizeof transcript, 0, counts, 5);
}

static int64_t replay(struct film *f, const uint8_t *records, size_t len, uint64_t counts[2])
{
    return svq3_replay(1, 1, 5, f->ref_y, 256, f->ref_cb, 64, f->ref_cr, 64, f->pic_y, 256, f->pic_cb, 64,
                       f->pic_cr, 64, f->mv, 32, f->marks, 16, records, len, counts, 2);
}

static void show_counts(const char *what, int64_t answer, const uint64_t *counts, size_t n)
{
    printf("%s: %" PRId64 ", counts", what, answer);
    for (size_t i = 0; i < n; i++)
        printf(" %" PRId64, (int64_t)counts[i]);
    printf("\n");
}

static void show(const char *what, int64_t answer, const uint8_t *out, size_t n)
{
    printf("%s: %" PRId64 ",", what, answer);
    for (size_t i = 0; i < n; i++)
        printf(" %u", (unsigned)out[i]);
    printf("\n");
}

static int blocks(void)
{
    /* Two columns, two rows; document 01's taps for the phases (1, 3). */
    const uint8_t plane[4] = {0, 100, 1, 101};
    uint8_t out[4] = {7, 7, 7, 7};

    int64_t made = svq3_compensate_block(plane, sizeof plane, 2, 2, 0, 0, 2, 2, 1, 3, out, sizeof out);
    show("block at (0, 0), vector (1, 3)", made, out, sizeof out);

    int64_t edge = svq3_compensate_block(plane, sizeof plane, 2, 2, INT32_MIN, 1, 2, 2, INT32_MIN, 0, out, sizeof out);
    show("block far past the left edge", edge, out, sizeof out);

    int64_t short_plane = svq3_compensate_block(plane, 3, 2, 2, 0, 0, 2, 2, 1, 3, out, sizeof out);
    show("plane of 3 samples", short_plane, out, sizeof out);

    int64_t wide = svq3_compensate_block(plane, sizeof plane, 2, 2, 0, 0, 17, 2, 1, 3, out, sizeof out);
    show("block of 17 columns", wide, out, sizeof out);

    return made == 0 && edge == 0 && short_plane == SVQ3_REFUSED_STATE_LENGTH && wide == SVQ3_REFUSED_CALL_RANGE;
}

static int transcripts(void)
{
    /* The record that document 01's printer prints. */
    const uint8_t one[9] = {0x00, 0x00, 0x01, 0x00, 0x00, 0x0c, 0x00, 0x00, 0x05};

    int64_t whole = svq3_check_transcript(1, 1, one, sizeof one);
    int64_t none = svq3_check_transcript(1, 1, one, 0);
    int64_t no_grid = svq3_check_transcript(0, 1, one, sizeof one);
    int64_t far_grid = svq3_check_transcript(1, UINT64_C(0x100000001), one, sizeof one);
    int64_t cut = svq3_check_transcript(1, 1, one, sizeof one - 1);
    printf("transcript of one record: %" PRId64 "\n", whole);
    printf("no bytes: %" PRId64 "\n", none);
    printf("grid of 0 columns: %" PRId64 "\n", no_grid);
    printf("grid of 2^32 + 1 rows: %" PRId64 "\n", far_grid);
    printf("transcript cut off: %" PRId64 "\n", cut);
    return whole == 1 && none == 0 && no_grid == SVQ3_REFUSED_GRID_SIZE && far_grid == SVQ3_REFUSED_GRID_SIZE
        && cut == SVQ3_REFUSED_NUMBER_FORM;
}

/* Document 01's example: one macroblock of mode 1, quantiser 5, moved by one sample to the right. */
static const uint8_t call[3] = {0x00, 0x00, 0x01};
static const uint8_t bits[1] = {0x98};

static int runs(void)
{
    struct film f, again;
    uint64_t counts[5];

    start(&f);
    int64_t made = run(&f, call, sizeof call, bits, sizeof bits, counts, 5);
    show_counts("run of one call", made, counts, 5);
    show("its record", made, transcript, (size_t)counts[2]);
    show("its first row", made, f.pic_y, 16);

    uint64_t records[2];
    start(&again);
    int64_t replayed = replay(&again, transcript, (size_t)counts[2], records);
    show_counts("replay of its transcript", replayed, records, 2);
    int same = memcmp(&f, &again, sizeof f) == 0;
    printf("the replay's picture, vectors and marks: %s\n", same ? "the run's" : "others");

    transcript[8] = 32;
    int64_t refused = replay(&again, transcript, 9, records);
    show_counts("replay with quantiser 32 in a record", refused, records, 2);
    return made == 0 && replayed == 0 && same && refused == SVQ3_REFUSED_FIELD_RANGE;
}

static int refusals(void)
{
    /* The codes 0, 0 and 62: no movement, and a pattern code of which there are 48. */
    const uint8_t pattern[2] = {0xd5, 0x58};
    const uint8_t no_list[2] = {0x00, 0x80};
    struct film f, before;
    uint64_t counts[5] = {7, 7, 7, 7, 7};

    start(&f);
    before = f;
    int64_t few = run(&f, call, sizeof call, bits, sizeof bits, counts, 4);
    show_counts("run with four counts", few, counts, 5);
    int64_t ended = run(&f, call, sizeof call, bits, 0, counts, 5);
    show_counts("run with no bits", ended, counts, 5);
    int64_t no_form = run(&f, no_list, sizeof no_list, bits, sizeof bits, counts, 5);
    show_counts("run of a list that is cut off", no_form, counts, 5);
    int64_t wide = macroblock(&f, 1, pattern, sizeof pattern, counts);
    show_counts("macroblock with pattern code 62", wide, counts, 5);
    int64_t mode = macroblock(&f, 8, bits, sizeof bits, counts);
    show_counts("macroblock of mode 8", mode, counts, 5);
    int kept = memcmp(&f, &before, sizeof f) == 0;
    printf("after the refusals: %s\n", kept ? "nothing changed" : "something changed");

    int64_t skip = macroblock(&f, 0, bits, sizeof bits, counts);
    show_counts("macroblock skipped", skip, counts, 5);
    show("its first row", skip, f.pic_y, 16);
    return few == SVQ3_REFUSED_OUTPUT_ROOM && ended == SVQ3_REFUSED_TRUNCATED && no_form == SVQ3_REFUSED_NUMBER_FORM
        && wide == SVQ3_REFUSED_INVALID_FRAME_CODE && mode == SVQ3_REFUSED_CALL_RANGE && kept && skip == 0;
}

int main(void)
{
    int right = blocks();
    right = transcripts() && right;
    right = runs() && right;
    right = refusals() && right;
    return right ? 0 : 1;
}
