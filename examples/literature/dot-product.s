# Two vectors of 32 signed bytes, four to a word, from Marsaglia's xorshift generator of 32 bits
# (13, 17, 5) with its seed 2463534242; x10 is their dot product.
lui x1, 0x80000
lui x2, 0x92d69
addi x2, x2, -862
addi x3, x1, 64
mv x4, x1
fill: slli x5, x2, 13
xor x2, x2, x5
srli x5, x2, 17
xor x2, x2, x5
slli x5, x2, 5
xor x2, x2, x5
sw x2, 0(x4)
addi x4, x4, 4
bltu x4, x3, fill
addi x3, x1, 32        # behind the first vector, where the second one starts
mv x4, x1
next: lw x6, 0(x4)
lw x7, 32(x4)
addi x4, x4, 4
dotp x8, x6, x7
add x10, x10, x8
bltu x4, x3, next
ebreak
