/* Each instruction of encodings.core_desc that C can call. */
#include "encodings.h"

uint32_t in[3] = { 7, 0, 100 };

int main(void)
{
    uint32_t a = ixt_addn(in[0], 4095);           /* 4102 */
    ixt_mix(a, in[2], 0x55, 0x1f);                /* 4202 + 0xabf */
    uint32_t b = ixt_get();                       /* 6953 */
    uint32_t c = ixt_movnz(b, 1, in[1]);          /* not moved */
    c = ixt_movnz(c, c + 1, 3);                   /* 6954 */
    c = ixt_split(c, 0xef);                       /* 0x1bc5 */
    return (int)(c + ixt_five() + ixt_big(-1));   /* 0xbca */
}
