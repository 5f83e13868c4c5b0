/* Makes the sheet of a small octave, checks it, and checks it again with another angle. Compile and run it in the repository:
 *
 *     host/native-lib
 *     cc -Iinclude host/examples/check.c host/target/native/libbargeclover.a -o host/target/check && host/target/check
 */
#include <bargeclover.h>
#include <inttypes.h>
#include <stdio.h>
#include <string.h>

enum { SIDE = 11, PLANE = SIDE * SIDE, PLANES = 3, LAYERS = 1, OCTAVE = 0, RECORDS = 18 };

/* three difference planes of zeros, and 100 in the middle of the middle one; four Gaussian planes, the second a ramp */
static float dog[PLANES * PLANE], gauss[(PLANES + 1) * PLANE];

/* the words of the record of a keypoint in one of its directions; 0 where no stage refused */
static uint32_t record(const float *img, const uint32_t *keypoint, const uint32_t *oriented, uint32_t *out)
{
    uint32_t inputs[4], answer;
    float at[4], values[128];
    size_t count, samples;
    answer = bargeclover_descriptor_inputs(oriented, 6, OCTAVE, inputs, 4);
    if (answer != 0) return answer;
    memcpy(at, inputs, sizeof at);
    answer = bargeclover_compute_descriptor(img, PLANE, SIDE, SIDE, at[0], at[1], at[2], at[3], values, 128, &count, &samples);
    if (answer != 0) return answer;
    return bargeclover_make_record(keypoint, 10, oriented, 6, values, 128, samples, out, 139);
}

/* the sheet of the octave's one keypoint, with all its directions; 0 where no stage refused */
static uint32_t make(uint8_t *sheet, size_t sheet_len, size_t *bytes)
{
    uint32_t keypoint[10], directions[6 * RECORDS], words[139 * RECORDS], answer;
    size_t keypoints, count, samples;
    const float *img;
    answer = bargeclover_find_extrema(dog, PLANES * PLANE, SIDE, SIDE, PLANES, 1, OCTAVE, LAYERS, 0.04, 10, 1.6, keypoint, 10,
        &keypoints);
    if (answer != 0) return answer;
    img = gauss + keypoint[5] * PLANE;
    answer = bargeclover_assign_orientations(img, PLANE, SIDE, SIDE, keypoint, 10, directions, 6 * RECORDS, &count, &samples);
    if (answer != 0) return answer;
    for (size_t i = 0; i < count; i++) {
        answer = record(img, keypoint, directions + 6 * i, words + 139 * i);
        if (answer != 0) return answer;
    }
    return bargeclover_write_sheet(2, SIDE, SIDE, LAYERS, words, 139 * count, sheet, sheet_len, bytes);
}

static void check(const char *what, const uint8_t *sheet, size_t bytes)
{
    uint32_t verdict, field, answer;
    size_t at;
    answer = bargeclover_check_sheet(dog, PLANES * PLANE, gauss, (PLANES + 1) * PLANE, SIDE, SIDE, PLANES, OCTAVE, LAYERS, 0.04, 10,
        1.6, SIDE, SIDE, sheet, bytes, &verdict, &at, &field);
    printf("%s: ", what);
    if (answer != 0) printf("refused with number %" PRIu32 "\n", answer);
    else if (verdict == BARGECLOVER_VERDICT_ACCEPTED) printf("accepted\n");
    else if (verdict == BARGECLOVER_VERDICT_HEADER) printf("the header differs in field %" PRIu32 "\n", field);
    else if (verdict == BARGECLOVER_VERDICT_MISSING) printf("records are missing from %zu on\n", at);
    else if (verdict == BARGECLOVER_VERDICT_LEFT_OVER) printf("records are left over from %zu on\n", at);
    else if (field == BARGECLOVER_FIELD_ANGLE) printf("record %zu differs in its angle\n", at);
    else printf("record %zu differs in field %" PRIu32 "\n", at, field);
}

int main(void)
{
    static uint8_t sheet[8 + 154 * RECORDS];
    size_t bytes;
    uint32_t answer;
    dog[PLANE + SIDE * (SIDE / 2) + SIDE / 2] = 100;
    for (size_t i = 0; i < PLANE; i++) gauss[PLANE + i] = (float)(i % SIDE + 2 * (i / SIDE));
    answer = make(sheet, sizeof sheet, &bytes);
    if (answer != 0) {
        printf("refused with number %" PRIu32 "\n", answer);
        return 1;
    }
    check("the sheet", sheet, bytes);
    /* the lowest bit of the first record's angle, which is the last of its floats */
    sheet[8 + 25] ^= 1;
    check("another angle", sheet, bytes);
    check("cut short", sheet, bytes - 1);
    return 0;
}
