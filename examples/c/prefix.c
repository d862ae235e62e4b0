/* The value of an expression whose operators stand before their operands. The place up to which it
   is read is a variable in memory in plain C, and a custom register with the extension. */
#include <stdint.h>

#ifdef PLAIN
static const uint32_t *next;

static void start(const uint32_t *place)
{
    next = place;
}

static uint32_t next_word(void)
{
    return *next++;
}
#else
#include "auto-increment.h"
#define next_word ixt_lwinc

static void start(const uint32_t *place)
{
    ixt_setaddr((uint32_t)place);
}
#endif

/* Operators; every other word is a number. */
#define ADD 0x80000000u
#define SUB 0x80000001u
#define XOR 0x80000002u

/* (no constants, lest the compiler computes with them) */
uint32_t expression[] = {
    ADD, SUB, XOR, 1000, ADD, 17, 4, SUB, 90, XOR, 3, ADD, 5, 6,
    XOR, ADD, SUB, 70000, 1, ADD, 2, SUB, 9, 10, XOR, SUB, 65535, ADD, 12, 13, XOR, 255, SUB, 77, 7,
};

static uint32_t value(void)
{
    uint32_t word = next_word();
    if (word < ADD)
        return word;
    uint32_t left = value();
    uint32_t right = value();
    if (word == ADD)
        return left + right;
    return word == SUB ? left - right : left ^ right;
}

int main(void)
{
    start(expression);
    return (int)value();
}
