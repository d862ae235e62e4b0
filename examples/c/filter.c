/* A filter of eight taps over signed samples of eight bits: each output is a weighted sum of the
   eight samples up to it. Four products are one instruction. */
#include <stdint.h>

#ifdef PLAIN
static uint32_t dot4(uint32_t a, uint32_t b)
{
    int32_t sum = 0;
    for (int i = 0; i < 32; i += 8)
        sum += (int32_t)(int8_t)(a >> i) * (int8_t)(b >> i);
    return (uint32_t)sum;
}
#else
#include "dot-product.h"
#define dot4 ixt_dotp
#endif

#define SAMPLES 24

/* These are no constants, lest the compiler computes with them. */
int8_t samples[SAMPLES] = {
    0, 25, 48, 69, 86, 99, 107, 110, 107, 99, 86, 69,
    48, 25, 0, -25, -48, -69, -86, -99, -107, -110, -107, -99,
};

/* Four weights a word, the first in the low byte. */
uint32_t weights[2] = { 0x0c0702ff, 0xff02070c };

int main(void)
{
    uint32_t older = 0, newer = 0, check = 0;
    for (int i = 0; i < SAMPLES; i++) {
        older = older >> 8 | newer << 24;
        newer = newer >> 8 | (uint32_t)(uint8_t)samples[i] << 24;
        check = (check << 5 | check >> 27) ^ (dot4(older, weights[0]) + dot4(newer, weights[1]));
    }
    return (int)check;
}
