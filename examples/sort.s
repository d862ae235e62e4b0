# Sixteen numbers of Marsaglia's xorshift generator of 32 bits (13, 17, 5) from its seed 2463534242 on, sorted by insertion: the memory ends with
# them in ascending order.
lui x1, 0x80000
lui x2, 0x92d69
addi x2, x2, -862
addi x3, x1, 64
mv x4, x1
fill: slli x5, x2, 13
xor x2, x2, x5
srli x5, x2, 17
xor x2, x2, x5
slli x5, x2, 5
xor x2, x2, x5
sw x2, 0(x4)
addi x4, x4, 4
bltu x4, x3, fill
addi x4, x1, 4
outer: lw x6, 0(x4)
mv x7, x4
inner: beq x7, x1, place
lw x8, -4(x7)
bgeu x6, x8, place
sw x8, 0(x7)
addi x7, x7, -4
j inner
place: sw x6, 0(x7)
addi x4, x4, 4
bltu x4, x3, outer
ebreak
