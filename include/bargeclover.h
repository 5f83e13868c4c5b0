/*
 * Bargeclover: keypoints for tying frames of aerial film together. One archive, libbargeclover.a; every function in it is proved
 * to answer as said here, to do nothing undefined and to return.
 *
 * A call that can be refused gives back a number; docs/RULES.md has the rules behind it (rules A2 to A17). A check is made where its
 * argument is there, in the order of the numbers (but read_sheet makes 8 before 7, and check_sheet 5 last, after 8), and the first
 * that fails is the answer:
 *
 *   0  the call did what it is for
 *   1  a side of the picture or frame is not 1 to 8192
 *   2  layers are not 1 to 15, a layer is not one of them, or planes are not layers + 2 to 17
 *   3  the samples are not as many as the shape says
 *   4  contrast is not 0 to 1, edge not 1 to 1000, sigma not 0.5 to 16, octave not 0 to 15, or edition not 1 or 2; so is a
 *      not-a-number
 *   5  a field of a keypoint, a place or a record, a quota or a depth is out of its range, or a checked record is of another octave
 *   6  a sample is no number of at most 2^20 in magnitude
 *   7  there is not the room that the answer needs
 *   8  the bytes are no sheet that keeps its rules
 *
 * Where there is a count, it says beside 0 how much was written and beside 7 how much there is to write. Beside every other number
 * each out-parameter is 0. Nothing is written to what is lent unless the number is 0; then what lies behind the last word or byte
 * written keeps what stood there.
 *
 * What a caller owes, since C can't say it:
 *
 * - A pointer is not null, is aligned, and is good for the length that follows it (an out-parameter for one value), also where that
 *   length is 0; and what a call writes overlaps nothing else that it is handed.
 * - The processor rounds to nearest and keeps subnormal numbers, as every C program does when it starts: no other rounding direction,
 *   no flush-to-zero and no denormals-are-zero in the calling thread. (fesetround, _MM_SET_FLUSH_ZERO_MODE and a main program that is
 *   linked with -ffast-math change them.)
 * - There is stack enough, as said below.
 *
 * No function keeps a pointer, allocates, or has state: all may be called from any thread. The archive calls memcpy and memset of
 * the C library, and nothing else.
 *
 * Stack, in bytes, that a call takes at most on x86-64, what memcpy and memset take not counted. A test measures it:
 *
 *   thin: 32768
 *   check_sheet: 12288
 *   find_extrema: 12288
 *   compute_descriptor: 4096
 *   assign_orientations: 2048
 *   make_record: 1024
 *   all others: 512
 */
#ifndef BARGECLOVER_H
#define BARGECLOVER_H

#include <stddef.h>
#include <stdint.h>

#ifdef __cplusplus
extern "C" {
#endif

/* The bits of a not-a-number, as they are answered. */
#define BARGECLOVER_NAN 2143289344u

/*
 * Routines on float bits. Every pattern may be passed; outside the range the answer is BARGECLOVER_NAN. docs/ROUTINES.md has the
 * exact steps. exp2 takes 0 to 2; exp takes -32 to 0; sin and cos take degrees, 0 to 360; angle (degrees, 0 to below 360) and
 * magnitude take two numbers of at most 2^21 in magnitude.
 */
uint32_t bargeclover_exp2(uint32_t x);
uint32_t bargeclover_exp(uint32_t x);
uint32_t bargeclover_sin(uint32_t degrees);
uint32_t bargeclover_cos(uint32_t degrees);
uint32_t bargeclover_angle(uint32_t dx, uint32_t dy);
uint32_t bargeclover_magnitude(uint32_t dx, uint32_t dy);

/*
 * Single operations of IEEE 754 on float bits, for every pattern; a not-a-number answered is BARGECLOVER_NAN.
 * fma: a * b + c, rounded once. sqrt. narrow: the double with these bits, as a float. floor: toward minus infinity. round: to the
 * nearest whole number, ties to even. to_i32: toward zero, stopped at the ends of the range, 0 for a not-a-number (Rust's `as i32`).
 */
uint32_t bargeclover_fma(uint32_t a, uint32_t b, uint32_t c);
uint32_t bargeclover_sqrt(uint32_t x);
uint32_t bargeclover_narrow(uint64_t x);
uint32_t bargeclover_floor(uint32_t x);
uint32_t bargeclover_round(uint32_t x);
int32_t bargeclover_to_i32(uint32_t x);

/*
 * The threshold of detection, 0.5 * contrast / layers * 255, floored, by its float bits.
 * Refused with 2 (layers are not 1 to 15) or 4 (contrast is not 0 to 1).
 */
uint32_t bargeclover_threshold(double contrast, size_t layers, uint32_t *threshold_bits);

/*
 * The extrema of one layer of a stack of difference planes, refined, row by row.
 * dog has planes * height * width samples, plane after plane, row after row. A keypoint goes out as ten words: x, y, size and
 * response by their float bits; octave | layer << 8 | code << 16; layer; xi by its float bits; column and row of the cell; and the
 * number of refinement moves, 0 to 4. count is in keypoints, out_len in words.
 * Refused with 1, 2, 3, 4, 6 (any sample of the stack) or 7 (fewer than ten words for each keypoint; count says how many there are).
 * A width or height of 10 or less has no keypoint.
 */
uint32_t bargeclover_find_extrema(const float *dog, size_t dog_len, size_t width, size_t height, size_t planes, size_t layer,
    uint32_t octave, size_t layers, double contrast, double edge, double sigma, uint32_t *out, size_t out_len, size_t *count);

/*
 * Even cover: which of a frame's keypoints to keep, at most quota of them, so that no part of the frame crowds out the others.
 * A region, at first the whole frame, keeps all its keypoints where they are no more than its quota. Else, where its quota is below 4 or
 * its depth is 0, it keeps those with the largest responses, the earlier of equal ones. Else it is cut at half its width and half its
 * height, rounded down (a keypoint on a cut goes right or down). Each quarter has a fourth of the quota, the first ones in row order
 * one more as far as the remainder goes, and a depth one less; it is treated in the same way.
 * words has ten words a keypoint, as find_extrema gives them, of any octaves; x and y, in cells of the frame, and the response decide,
 * and what stands in the other words does not matter. The positions that are kept, counted from 0 in keypoints, go out ascending.
 * count and out_len are in positions; the lesser of quota and the number of keypoints is always room enough.
 * Refused with 1; 5 (quota is 0, depth is above 12, words_len is no multiple of ten, keypoints are more than 2^32, an x or y is not in 0
 * to below the width or height, or a response is not finite; -0 is 0); or 7. It calls itself, at most 13 calls deep.
 */
uint32_t bargeclover_thin(size_t width, size_t height, const uint32_t *words, size_t words_len, size_t quota, uint32_t depth,
    uint32_t *out, size_t out_len, size_t *count);

/*
 * The directions of a keypoint in the Gaussian plane of its layer, one oriented keypoint for each peak, at most 18.
 * img has height * width samples. The keypoint is ten words, as find_extrema gives them: its cell must lie in the picture, its scale
 * (size * 0.5 / 2^octave) in 0.125 to 64, and its floats must be finite; the bytes of its octave word are, from the lowest, 0 to 15,
 * 1 to 15, 0 to 255 and 0; what stands in layer and moves does not matter. An oriented keypoint goes out as six words: x, y, size and
 * response by their float bits, the octave word, the angle in degrees by its float bits. count is in oriented keypoints, out_len in
 * words; samples is the number of cells read, 0 beside every other number than 0.
 * Refused with 1, 3, 5 (also where keypoint_len is not 10), 6 (of the four neighbours of a cell that is read) or 7.
 */
uint32_t bargeclover_assign_orientations(const float *img, size_t img_len, size_t width, size_t height, const uint32_t *keypoint,
    size_t keypoint_len, uint32_t *out, size_t out_len, size_t *count, size_t *samples);

/*
 * What the descriptor is asked with for an oriented keypoint, six words as assign_orientations gives them, in its octave: x, y and
 * scale in the octave's cells, and the angle turned round, 360 - angle. They go out as four words, by their float bits.
 * Refused with 4 (octave is not 0 to 15), 5 (oriented_len is not 6, the position or the size is not finite, the size is below 0, the
 * angle is not in 0 to 360, or the response is the pattern of a not-a-number) or 7 (out_len is not 4). It has no count: the words are
 * four.
 */
uint32_t bargeclover_descriptor_inputs(const uint32_t *oriented, size_t oriented_len, int32_t octave, uint32_t *out, size_t out_len);

/*
 * The descriptor of the patch about a position of a picture: 128 values, each a whole number from 0 to 255.
 * img has height * width samples. x, y, scale and angle are as descriptor_inputs gives them: the position must round to a cell of
 * the picture, the scale must be 0.125 to 64 and the angle 0 to 360 degrees, and all must be finite. count is 128 beside 0 and 7,
 * and else 0. samples is the number of cells used, 0 beside every other number than 0. Beside 0 it tells nothing from zero: values
 * that are all zero are those of a level patch where it is above 0, and of a patch of which nothing was read where it is 0.
 * Refused with 1, 3, 5, 6 (of the four neighbours of a cell that is used) or 7 (out_len is not 128).
 */
uint32_t bargeclover_compute_descriptor(const float *img, size_t img_len, size_t width, size_t height, float x, float y, float scale,
    float angle, float *out, size_t out_len, size_t *count, size_t *samples);

/*
 * The record of a keypoint for a sheet. The keypoint is ten words, as find_extrema gives them; oriented is one of its directions, six
 * words, as assign_orientations gives them; values and samples are as compute_descriptor answers them there. What goes out are the
 * 139 words of a record of edition 2, as write_sheet takes them: the cell's row and column; octave, layer and code, which are the bytes
 * of the octave word from the lowest; the oriented keypoint's x, y, size, response and angle by their float bits; the values as whole
 * numbers; and the blank word, 1 exactly where samples is 0 and else 0. It has no count: the words are 139.
 * Refused with 5 (keypoint_len is not 10 or oriented_len not 6; a float of either is the pattern of a not-a-number; the two differ by
 * their bits in x, y, size, response or octave word; a word of the record breaks a rule of the sheet, where row and column are to be
 * below 8192 and the layer is to be 1 to 15; values_len is not 128, or a value is no whole number from 0 to 255, where -0 is 0; a value
 * is not 0 and samples is) or 7 (out_len is not 139). What stands in the keypoint's layer and moves does not matter, nor does xi if it
 * is no not-a-number.
 */
uint32_t bargeclover_make_record(const uint32_t *keypoint, size_t keypoint_len, const uint32_t *oriented, size_t oriented_len,
    const float *values, size_t values_len, size_t samples, uint32_t *out, size_t out_len);

/*
 * The sheet of keypoints, edition 1 or 2: bits packed most significant first, a header of 8 bytes, then 154 bytes a record.
 * A record is handed over as 138 words in edition 1: row, column, octave, layer, code; x, y, size, response and angle by their float
 * bits; the 128 values. Row and column name a cell of the frame, octave is 0 to 15, layer 1 to layers, code 0 to 255; no float is
 * negative, -0, infinite or a not-a-number, the size is not 0 and the angle is less than 360; the values are 0 to 255. In edition 2
 * there is a 139th word, the blank word: 1 says that no cell was read, beside values that are all 0, and 0 that some were.
 * write_sheet: count and out_len are in bytes. Refused with 1; 2 (layers are not 1 to 15, or the layer of a whole record is not
 * one of them; where the edition is not known no record is looked at); 4 (edition is not 1 or 2); 5 (any other word out of its range,
 * a blank word of 1 beside a value that is not 0, words that make no whole number of records, or more than 1048575 records); 7.
 */
uint32_t bargeclover_write_sheet(uint32_t edition, size_t width, size_t height, size_t layers, const uint32_t *words,
    size_t words_len, uint8_t *out, size_t out_len, size_t *count);

/*
 * read_sheet: each record goes out as 139 words. The last of them is the blank word; of a sheet of edition 1, which does not have it, it
 * is 2, unknown, where the 128 values are all zero, and else 0. count is in records, out_len in words; edition, width, height and layers
 * are the header's. Refused with 8 (any broken rule, and an edition other than 1 and 2), then 7; edition, width, height and layers are 0
 * beside both.
 */
uint32_t bargeclover_read_sheet(const uint8_t *sheet, size_t sheet_len, uint32_t *out, size_t out_len, size_t *count,
    uint32_t *edition, size_t *width, size_t *height, size_t *layers);

/* The verdicts of check_sheet: what is first found to differ, if anything is. */
#define BARGECLOVER_VERDICT_ACCEPTED 0u  /* nothing: record and field are 0 */
#define BARGECLOVER_VERDICT_HEADER 1u    /* field of the header; record is 0 */
#define BARGECLOVER_VERDICT_RECORD 2u    /* field of the record number record, from 0 */
#define BARGECLOVER_VERDICT_MISSING 3u   /* records are missing from number record on; field is 0 */
#define BARGECLOVER_VERDICT_LEFT_OVER 4u /* records are left over from number record on; field is 0 */

/*
 * The fields of a header and of a record, numbered from 1 in the sheet's order. Never named are the header's edition 1, count 5 and
 * zero bits 6 and 7 (every known edition is taken, and a count is told by its records), nor a record's octave 3 and zero bits 7 (a
 * sheet that has others there is refused).
 */
#define BARGECLOVER_HEADER_WIDTH 2u
#define BARGECLOVER_HEADER_HEIGHT 3u
#define BARGECLOVER_HEADER_LAYERS 4u

#define BARGECLOVER_FIELD_ROW 1u
#define BARGECLOVER_FIELD_COLUMN 2u
#define BARGECLOVER_FIELD_LAYER 4u
#define BARGECLOVER_FIELD_CODE 5u
#define BARGECLOVER_FIELD_BLANK 6u
#define BARGECLOVER_FIELD_X 8u
#define BARGECLOVER_FIELD_Y 9u
#define BARGECLOVER_FIELD_SIZE 10u
#define BARGECLOVER_FIELD_RESPONSE 11u
#define BARGECLOVER_FIELD_ANGLE 12u
#define BARGECLOVER_FIELD_VALUES 13u /* the first of the 128 values; the last is 140 */

/*
 * Whether a sheet has exactly the records that these functions give for one octave, and if not, where it first differs.
 * dog is the octave's stack, as find_extrema takes it. gauss has its planes + 1 Gaussian planes, each height * width samples, plane
 * after plane: a keypoint that settled in layer l is turned and described on number l, from 0. base_width and base_height are the size
 * of octave 0, which a header states. Every layer, from 1 to layers, is searched, and the records are in the order of the layers
 * searched, then of find_extrema's list, then of assign_orientations', each as make_record makes it. The sheet may be of either
 * edition, and is compared in its own: edition 1 has no blank bit. A header unlike base_width, base_height or layers is the first
 * difference. So what write_sheet writes of all these records, in this order, is accepted, and no other bytes of its edition are.
 * Refused in this order: 1 (of either size); 2 (as find_extrema refuses layer 1); 3 (of dog or gauss); 4; 6 (any sample of dog); 6 (of
 * gauss, the four neighbours of a cell that assign_orientations reads for a keypoint that is found, or that compute_descriptor uses
 * for one of its directions: no other sample of it is looked at); 8 (as read_sheet); 5 (a record states another octave than this one).
 * verdict, record and field are 0 beside each. All refusals come before any verdict, so that every record is made whatever is found.
 * It allocates nothing and holds no list: each record is compared when it is made, and the octave may have any number of them.
 */
uint32_t bargeclover_check_sheet(const float *dog, size_t dog_len, const float *gauss, size_t gauss_len, size_t width, size_t height,
    size_t planes, uint32_t octave, size_t layers, double contrast, double edge, double sigma, size_t base_width, size_t base_height,
    const uint8_t *sheet, size_t sheet_len, uint32_t *verdict, size_t *record, uint32_t *field);

#ifdef __cplusplus
}
#endif

#endif
