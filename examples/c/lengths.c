/* The lengths of vectors in 1/16: the square root of the sum of three squares, rounded down. */
#include <stdint.h>

#ifdef PLAIN
static uint32_t square_root(uint32_t n)
{
    uint32_t root = 0;
    for (uint32_t bit = UINT32_C(1) << 30; bit != 0; bit >>= 2) {
        if (n >= root + bit) {
            n -= root + bit;
            root = (root >> 1) + bit;
        } else {
            root >>= 1;
        }
    }
    return root;
}
#else
#include "square-root.h"
#define square_root ixt_sqrt
#endif

struct vector {
    int16_t x, y, z;
};

/* (no constants, lest the compiler computes with them) */
struct vector vectors[] = {
    { 3, 4, 0 }, { -1, 2, 2 }, { 100, -200, 300 }, { 0, 0, 0 }, { 1, 1, 1 }, { -900, 1200, 16 },
    { 2047, 2047, 2047 }, { -2048, 0, 1 },
};

#define COUNT (int)(sizeof vectors / sizeof vectors[0])

static uint32_t square(int32_t n)
{
    return (uint32_t)(n * n);
}

int main(void)
{
    uint32_t sum = 0;
    for (int i = 0; i < COUNT; i++) {
        const struct vector *it = &vectors[i];
        sum += square_root((square(it->x) + square(it->y) + square(it->z)) << 8);
    }
    return (int)sum;
}
