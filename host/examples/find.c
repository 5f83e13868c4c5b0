/* Finds the one keypoint of a small stack. Compile and run it in the repository:
 *
 *     host/native-lib
 *     cc -Iinclude host/examples/find.c host/target/native/libbargeclover.a -o host/target/find && host/target/find
 */
#include <bargeclover.h>
#include <inttypes.h>
#include <stdio.h>
#include <string.h>

static float number(uint32_t bits)
{
    float x;
    memcpy(&x, &bits, sizeof x);
    return x;
}

int main(void)
{
    /* three planes of 11 x 11 zeros, and 100 in the middle of the middle one */
    static float dog[3 * 11 * 11];
    uint32_t out[10 * 8];
    size_t count;
    dog[11 * 11 + 5 * 11 + 5] = 100;
    uint32_t answer = bargeclover_find_extrema(dog, 3 * 11 * 11, 11, 11, 3, 1, 0, 1, 0.04, 10, 1.6, out, 10 * 8, &count);
    if (answer != 0) {
        printf("refused with number %" PRIu32 "\n", answer);
        return 1;
    }
    for (size_t i = 0; i < count; i++) {
        const uint32_t *k = out + 10 * i;
        printf("x %g, y %g, size %g, response %g, octave word %" PRIu32 ", moves %" PRIu32 "\n", number(k[0]), number(k[1]),
            number(k[2]), number(k[3]), k[4], k[9]);
    }
    return 0;
}
