/* What the start code and the linker script have to get right: initialised data of all kinds, data
   past the reach of one store, zeros, pointers in data, a table of jumps, library calls, stack. */
#include <stddef.h>
#include <stdint.h>

#ifdef PLAIN
#define add(a, b) ((uint32_t)(a) + (uint32_t)(b))
#else
#include "wide-add.h"
#define add ixt_addx
#endif

void *memmove(void *to, const void *from, size_t count);
int memcmp(const void *left, const void *right, size_t count);

struct node {
    const struct node *next;
    int16_t value;
    char name[9];
};

static const struct node last = { 0, -1, "last" };
static const struct node middle = { &last, 0x7fff, "middle" };
const struct node *list = &middle;

int8_t bytes[5] = { -1, 2, -3, 4, -5 };
uint32_t far[3000] = {
    [0] = 0x800,  [511] = 0xfffff800,  [512] = 0x7ff,
    [1535] = 1,   [1536] = 0xabcdefff, [2999] = 0x80000000,
};
uint32_t zeros[1000];
uint64_t wide = 0x123456789abcdef0u;
int64_t small = -1234567;
static int counter = 5;

static uint32_t first(uint32_t n) { return n * 3; }
static uint32_t second(uint32_t n) { return n / 7 + n % 7; }
uint32_t (*functions[])(uint32_t) = { first, second, first };

static __attribute__((noinline)) uint32_t chosen(uint32_t n)
{
    switch (n) {
    case 0: return first(n) ^ 0x11;
    case 1: counter++; return 0x2222;
    case 2: return second(n) - 9;
    case 3: counter *= 3; return 0x44444444;
    case 4: return ~n;
    case 5: return (uint32_t)counter;
    case 6: return zeros[n];
    default: return n;
    }
}

static uint32_t deep(uint32_t n)
{
    volatile uint32_t here[8] = { n, n + 1 };
    return n == 0 ? 1 : add(deep(n - 1) * 5, here[n & 7]);
}

int main(void)
{
    uint32_t check = 0;
    for (const struct node *it = list; it != 0; it = it->next)
        for (int i = 0; i < 9; i++)
            check = add(check * 31, it->name[i] + it->value);
    for (int i = 0; i < 5; i++)
        check = add(check * 31, bytes[i]);
    for (int i = 511; i < 3000; i += i < 513 ? 1 : 311)
        check = add(check << 1 | check >> 31, far[i] ^ zeros[i % 1000]);
    check = add(check, far[0] ^ far[1535] << 9 ^ far[1536] ^ far[2999]);
    for (uint32_t i = 0; i < 9; i++)
        check = add(check, chosen(i)) ^ functions[i % 3](i);
    check ^= (uint32_t)(wide / 1000003u) ^ (uint32_t)(small / 89);
    check ^= (uint32_t)(wide >> (counter & 31));
    struct node copy = *list;
    memmove(copy.name + 1, copy.name, 7);
    check = add(check * 31, copy.name[6]) + (memcmp(copy.name, middle.name, 8) > 0);
    return (int)add(check, deep(20));
}
