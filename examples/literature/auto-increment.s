# The squares of 1 to 16 go to memory; then loads that move on read them, and x10 is their sum.
lui x1, 0x80000
addi x2, x0, 1         # a square
addi x3, x0, 3         # the odd number that leads to the next square
addi x4, x1, 64
mv x5, x1
fill: sw x2, 0(x5)
add x2, x2, x3
addi x3, x3, 2
addi x5, x5, 4
bne x5, x4, fill
setaddr x1
addi x6, x0, 16
next: lwinc x7
addi x6, x6, -1
add x10, x10, x7
bne x6, x0, next
ebreak
