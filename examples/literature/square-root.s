# Square roots of 32 numbers of Marsaglia's xorshift generator of 32 bits (13, 17, 5) from its seed
# 2463534242 on go to memory; the next number is computed behind the root of the one before, so a
# root that is computed apart has time. Then come the roots of 0, 2^32 - 1, 65535^2 and the number
# below it, in x20 to x23.
lui x1, 0x80000
lui x2, 0x92d69
addi x2, x2, -862
addi x3, x1, 128
mv x4, x1
next: sqrt x6, x2
slli x5, x2, 13
xor x2, x2, x5
srli x5, x2, 17
xor x2, x2, x5
slli x5, x2, 5
xor x2, x2, x5
sw x6, 0(x4)
addi x4, x4, 4
bltu x4, x3, next
addi x7, x0, -1
lui x8, 0xfffe0
addi x9, x8, 1
sqrt x20, x0
sqrt x21, x7
sqrt x22, x9
sqrt x23, x8
ebreak
