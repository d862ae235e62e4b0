# the root of 1,000,000, eight instructions beside it, and a sum that waits for it
lui x1, 0xf4
addi x1, x1, 0x240
sqrt x2, x1
addi x3, x0, 1
addi x4, x0, 2
addi x5, x0, 3
addi x6, x0, 4
addi x7, x0, 5
addi x8, x0, 6
addi x9, x0, 7
addi x10, x0, 8
add x11, x2, x3
ebreak
