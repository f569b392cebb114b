/*
 * SVQ3 for a C or C++ host: functions on numbers and buffers, proved for every input.
 *
 *   tools/gate/staticlib.sh desk             makes target/staticlib/libdesk.a (x86-64 Linux)
 *   cc host.c target/staticlib/libdesk.a     links it
 *
 * Each function returns 0 or a count when the work is done, and minus the number of the refusal when it is refused: one
 * of the names below. A refused call changes nothing but counts; a run keeps what it did before the refusal.
 *
 * A buffer is a pointer, not null, and its number of elements; the buffers of a call do not overlap, and nobody else
 * writes them meanwhile. No function keeps a pointer, allocates memory or calls back, so calls on buffers of their own
 * may run at the same time.
 *
 * Arguments that several functions have:
 *
 * cols, rows              the grid in macroblocks, 1 to 4,096 each
 * flags                   1 half-sample vectors plus 2 third-sample vectors; higher bits are ignored
 * delta_enable            0 for off, anything else for on
 * quantiser               0 to 31
 * ref_y, ref_cb, ref_cr   the reference planes by rows: 256, 64 and 64 samples a macroblock
 * pic_y, pic_cb, pic_cr   the picture planes likewise
 * mv                      two sixths of a sample a 4x4 cell, horizontal then vertical, cells by rows: 32 a macroblock
 * marks                   one a cell, 0 for a cell without a vector: 16 a macroblock
 * bits, place             the bits, highest first in each byte, and the place of the first bit to read
 * transcript              what was read, a record a macroblock
 * counts                  further answers, written from counts[0] on, also when the call is refused; elements past those
 *                         that the function writes keep their values. With fewer elements than it writes, the function
 *                         returns SVQ3_REFUSED_OUTPUT_ROOM and does nothing at all
 */
#ifndef SVQ3_DESK_H
#define SVQ3_DESK_H

#include <stddef.h>
#include <stdint.h>

#ifdef __cplusplus
extern "C" {
#endif

/* cols or rows is not 1 to 4,096. */
#define SVQ3_REFUSED_GRID_SIZE (-1)
/* A picture plane, mv or marks has another length than the grid's; for a block alone, the plane is not right. */
#define SVQ3_REFUSED_STATE_LENGTH (-2)
/* Every reference plane is empty. */
#define SVQ3_REFUSED_MISSING_REFERENCE (-3)
/* A reference plane has another length than the grid's. */
#define SVQ3_REFUSED_REFERENCE_LENGTH (-4)
/* mode is above 7, or the place is outside the grid; for a block alone, a span or out_len is not right. */
#define SVQ3_REFUSED_CALL_RANGE (-5)
/* quantiser is above 31. */
#define SVQ3_REFUSED_QUANTISER_RANGE (-6)
/* place is past the bits. */
#define SVQ3_REFUSED_BIT_PLACE (-7)
/* Fewer transcript bytes are free than the longest record has, 2,089. */
#define SVQ3_REFUSED_TRANSCRIPT_ROOM (-8)
/* The bits end inside the macroblock. */
#define SVQ3_REFUSED_TRUNCATED (-9)
/* A code has more data bits than a reader takes; the detail is their number. */
#define SVQ3_REFUSED_BAD_BIT_WIDTH (-10)
/* A pattern code has no entry; the detail is the code. */
#define SVQ3_REFUSED_INVALID_FRAME_CODE (-11)
/* A quantiser is outside 0 to 31; the detail is its exact value. */
#define SVQ3_REFUSED_INVALID_QUANTISER (-12)
/* A level is past the end of its list; the detail is its position. */
#define SVQ3_REFUSED_LEVEL_POSITION (-13)
/* A number of a list of calls or of a transcript is cut off or not in its form. */
#define SVQ3_REFUSED_NUMBER_FORM (-14)
/* A number of a transcript is outside its field's range. */
#define SVQ3_REFUSED_FIELD_RANGE (-15)
/* counts has fewer elements than the function writes. */
#define SVQ3_REFUSED_OUTPUT_ROOM (-18)

/*
 * A run of calls.
 *
 * calls        the list: column, row and mode of each call, numbers of seven bits a byte, lowest first, the top bit of a
 *              byte set where the number goes on
 * transcript   filled with the accepted calls' records from byte 0 on
 *
 * Returns 0, or why the run was stopped: a list that is not in form (SVQ3_REFUSED_NUMBER_FORM) stops it before anything
 * else is asked, and a refused call after what the calls before it did, which is kept. The refused call changes nothing.
 * counts[0..5]: accepted calls, consumed bits, filled bytes of the transcript, the quantiser afterwards, and the
 * refusal's detail in two's complement, 0 where it has none.
 */
int64_t svq3_run(uint64_t cols, uint64_t rows, uint32_t flags, uint32_t delta_enable, uint32_t quantiser,
                 const uint8_t *ref_y, size_t ref_y_len, const uint8_t *ref_cb, size_t ref_cb_len,
                 const uint8_t *ref_cr, size_t ref_cr_len, uint8_t *pic_y, size_t pic_y_len,
                 uint8_t *pic_cb, size_t pic_cb_len, uint8_t *pic_cr, size_t pic_cr_len,
                 int32_t *mv, size_t mv_len, uint8_t *marks, size_t marks_len,
                 const uint8_t *calls, size_t calls_len, const uint8_t *bits, size_t bits_len, uint64_t place,
                 uint8_t *transcript, size_t transcript_len, uint64_t *counts, size_t counts_len);

/*
 * The replay of a transcript: the records' work from a start, with no bits. Every record is read before anything changes.
 *
 * transcript   all of it: it ends where its bytes end
 *
 * Returns 0 or the refusal.
 * counts[0..2]: the number of records and the quantiser afterwards; refused, 0 and the quantiser as given.
 */
int64_t svq3_replay(uint64_t cols, uint64_t rows, uint32_t quantiser,
                    const uint8_t *ref_y, size_t ref_y_len, const uint8_t *ref_cb, size_t ref_cb_len,
                    const uint8_t *ref_cr, size_t ref_cr_len, uint8_t *pic_y, size_t pic_y_len,
                    uint8_t *pic_cb, size_t pic_cb_len, uint8_t *pic_cr, size_t pic_cr_len,
                    int32_t *mv, size_t mv_len, uint8_t *marks, size_t marks_len,
                    const uint8_t *transcript, size_t transcript_len, uint64_t *counts, size_t counts_len);

/*
 * One macroblock.
 *
 * column, row, mode   the call: a place in the grid, and mode 0 to 7
 * transcript, fill    the record goes to the bytes from fill on, of which 2,089 have to be there
 *
 * Returns 0 or the refusal.
 * counts[0..5]: the place after the macroblock, the quantiser afterwards, the fill afterwards, the number of clipped
 * components, and the refusal's detail in two's complement, 0 where it has none. Refused, the first three are as given
 * and the fourth is 0.
 */
int64_t svq3_macroblock(uint64_t cols, uint64_t rows, uint32_t flags, uint32_t delta_enable, uint32_t quantiser,
                        const uint8_t *ref_y, size_t ref_y_len, const uint8_t *ref_cb, size_t ref_cb_len,
                        const uint8_t *ref_cr, size_t ref_cr_len, uint8_t *pic_y, size_t pic_y_len,
                        uint8_t *pic_cb, size_t pic_cb_len, uint8_t *pic_cr, size_t pic_cr_len,
                        int32_t *mv, size_t mv_len, uint8_t *marks, size_t marks_len,
                        uint32_t column, uint32_t row, uint32_t mode, const uint8_t *bits, size_t bits_len,
                        uint64_t place, uint8_t *transcript, size_t transcript_len, uint64_t fill,
                        uint64_t *counts, size_t counts_len);

/*
 * The w x h samples of a reference plane at (x, y), moved by (mv_x, mv_y) sixths of a sample, into out by rows.
 *
 * plane, plane_len   the samples by rows, width * height bytes
 * width, height      1 to 65,536 each
 * x, y               the block's place in whole samples, anywhere: the plane's edges repeat without end
 * w, h               1 to 16 each
 * mv_x, mv_y         the vector in sixths, any value
 * out, out_len       w * h bytes
 *
 * For a chroma block halve place, spans and vector toward zero first.
 * Returns 0; SVQ3_REFUSED_STATE_LENGTH where the plane is empty, has more than 65,536 samples a side, or plane_len is
 * not width * height; or SVQ3_REFUSED_CALL_RANGE where w or h is not 1 to 16, or out_len is not w * h.
 */
int64_t svq3_compensate_block(const uint8_t *plane, size_t plane_len, uint64_t width, uint64_t height,
                              int32_t x, int32_t y, uint64_t w, uint64_t h, int32_t mv_x, int32_t mv_y,
                              uint8_t *out, size_t out_len);

/*
 * How many records a transcript has; every record is read whole.
 *
 * bytes, len   the transcript; it ends where its bytes end, and none at all are a transcript of no record
 *
 * Returns the number of records, SVQ3_REFUSED_GRID_SIZE, SVQ3_REFUSED_NUMBER_FORM or SVQ3_REFUSED_FIELD_RANGE; the grid
 * is asked about first, and the first record that is wrong answers.
 */
int64_t svq3_check_transcript(uint64_t cols, uint64_t rows, const uint8_t *bytes, size_t len);

#ifdef __cplusplus
}
#endif

#endif
