/* The hash FNV-1a of the words of a text, and a table of eight places in which they are counted. */
#include <stdint.h>

#ifdef PLAIN
static uint32_t times(uint32_t a, uint32_t b)
{
    return a * b;
}
#else
#include "wide-multiply.h"
#define times ixt_mulx
#endif

#define PLACES 8

/* (no constant, lest the compiler computes with it) */
char text[] = "a module that is proved is a module that stalls right";
uint8_t counts[PLACES];

/* The hash of the word at the start of a text; the place behind it goes to `behind`. */
static uint32_t hash_word(const char *word, const char **behind)
{
    uint32_t hash = 2166136261u;
    for (; *word != 0 && *word != ' '; word++)
        hash = times(hash ^ (uint8_t)*word, 16777619u);
    *behind = word;
    return hash;
}

int main(void)
{
    uint32_t check = 0;
    for (const char *word = text; *word != 0; word += *word == ' ') {
        uint32_t hash = hash_word(word, &word);
        counts[hash % PLACES]++;
        check ^= hash;
    }
    for (int i = 0; i < PLACES; i++)
        check = times(check, 31) + counts[i];
    return (int)check;
}
