/* A layer of a neural network with weights of eight bits: six sums of sixteen inputs, none below
   zero, and the place of the largest one. */
#include <stdint.h>

#ifdef PLAIN
static uint32_t dot4(uint32_t a, uint32_t b)
{
    int32_t sum = 0;
    for (int i = 0; i < 32; i += 8)
        sum += (int32_t)(int8_t)(a >> i) * (int8_t)(b >> i);
    return (uint32_t)sum;
}
#else
#include "dot-product.h"
#define dot4 ixt_dotp
#endif

#define ROWS 6
#define WORDS 4

/* Four bytes a word, the first in the low one. These are no constants, lest the compiler computes
   with them. */
uint32_t input[WORDS] = { 0x05fb1122, 0x7f3c0080, 0x10203040, 0xf0e0d0c0 };

uint32_t weights[ROWS][WORDS] = {
    { 0x01020304, 0xfffefdfc, 0x11111111, 0x00000000 },
    { 0x7f7f7f7f, 0x80808080, 0x01010101, 0xffffffff },
    { 0x10000000, 0x00100000, 0x00001000, 0x00000010 },
    { 0xf1f2f3f4, 0x15161718, 0xe9eaebec, 0x0d0e0f10 },
    { 0x22446688, 0x10305070, 0x07060504, 0x03020100 },
    { 0x40404040, 0x20202020, 0xc0c0c0c0, 0x10101010 },
};

static int32_t activations[ROWS];

int main(void)
{
    int best = 0;
    for (int row = 0; row < ROWS; row++) {
        int32_t sum = 100 - row;
        for (int i = 0; i < WORDS; i++)
            sum += (int32_t)dot4(input[i], weights[row][i]);
        activations[row] = sum > 0 ? sum : 0;
        if (activations[row] > activations[best])
            best = row;
    }
    return best << 24 | activations[best];
}
