# Sparkle of 256 bits with 7 steps. The state is four branches (x, y) in x10 and x11, x12 and x13,
# x14 and x15, x16 and x17; it starts as 0, 1, 2 and so on to 7.
addi x11, x0, 1
addi x12, x0, 2
addi x13, x0, 3
addi x14, x0, 4
addi x15, x0, 5
addi x16, x0, 6
addi x17, x0, 7
mv x5, x0              # the number of the step
addi x6, x0, 7
step: rcon x11, x11, x5
xor x13, x13, x5
alzettex x7, x10, x11, 0
alzettey x11, x10, x11, 0
mv x10, x7
alzettex x7, x12, x13, 1
alzettey x13, x12, x13, 1
mv x12, x7
alzettex x7, x14, x15, 2
alzettey x15, x14, x15, 2
mv x14, x7
alzettex x7, x16, x17, 3
alzettey x17, x16, x17, 3
mv x16, x7
xor x7, x10, x12       # from the words x of the left half: what the words y of the right one take
slli x8, x7, 16
xor x7, x7, x8
slli x8, x7, 16
srli x7, x7, 16
or x7, x7, x8
xor x15, x15, x11
xor x15, x15, x7
xor x17, x17, x13
xor x17, x17, x7
xor x7, x11, x13       # and the other way round
slli x8, x7, 16
xor x7, x7, x8
slli x8, x7, 16
srli x7, x7, 16
or x7, x7, x8
xor x14, x14, x10
xor x14, x14, x7
xor x16, x16, x12
xor x16, x16, x7
mv x7, x10             # the left half goes right, the right one turned by a branch goes left
mv x10, x16
mv x16, x12
mv x12, x14
mv x14, x7
mv x7, x11
mv x11, x17
mv x17, x13
mv x13, x15
mv x15, x7
addi x5, x5, 1
bne x5, x6, step
ebreak
