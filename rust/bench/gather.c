/* Takes one component out of rows of interleaved samples, one sample after another: what planes of several components are held against. */

#include <stddef.h>
#include <stdint.h>
#include <string.h>

/* The loop for samples of one type. A sample may stand at any address. */
#define GATHER(NAME, SAMPLE)                                                                                  \
    static inline __attribute__((always_inline)) void NAME(const uint8_t *restrict rows, size_t stride, size_t width, size_t height, \
                                                           size_t components, size_t component, uint8_t *restrict samples) \
    {                                                                                                         \
        for (size_t y = 0; y < height; y++) {                                                                 \
            const uint8_t *restrict from = rows + y * stride + component * sizeof(SAMPLE);                    \
            uint8_t *restrict to = samples + y * width * sizeof(SAMPLE);                                      \
            for (size_t x = 0; x < width; x++) {                                                              \
                SAMPLE sample;                                                                                \
                memcpy(&sample, from + x * components * sizeof(SAMPLE), sizeof(SAMPLE));                      \
                memcpy(to + x * sizeof(SAMPLE), &sample, sizeof(SAMPLE));                                     \
            }                                                                                                 \
        }                                                                                                     \
    }

/* With the count of components known where this is compiled, the loops for 16 and 32 bits are faster; the one for 8 bits is not. */
#define GATHER_KNOWN(NAME, LOOP)                                                                              \
    static void NAME(const uint8_t *restrict rows, size_t stride, size_t width, size_t height, size_t components, \
                     size_t component, uint8_t *restrict samples)                                             \
    {                                                                                                         \
        if (components == 2)                                                                                  \
            LOOP(rows, stride, width, height, 2, component, samples);                                         \
        else if (components == 3)                                                                             \
            LOOP(rows, stride, width, height, 3, component, samples);                                         \
        else                                                                                                  \
            LOOP(rows, stride, width, height, components, component, samples);                                \
    }

GATHER(gather_8, uint8_t)
GATHER(gather_16, uint16_t)
GATHER(gather_32, uint32_t)
GATHER_KNOWN(gather_known_16, gather_16)
GATHER_KNOWN(gather_known_32, gather_32)

/* `rows` has `height` rows of `stride` bytes, of which the first `width` x `components` samples of `bits` bits (8, 16 or 32) count; `samples` has
 * room for `width` x `height` of them. */
void bench_gather(const uint8_t *rows, size_t stride, size_t width, size_t height, size_t components, size_t component, size_t bits,
                  uint8_t *samples)
{
    switch (bits) {
    case 8:
        gather_8(rows, stride, width, height, components, component, samples);
        break;
    case 16:
        gather_known_16(rows, stride, width, height, components, component, samples);
        break;
    default:
        gather_known_32(rows, stride, width, height, components, component, samples);
    }
}
