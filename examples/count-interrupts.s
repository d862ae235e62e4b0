# 5, 4, 3, 2 and 1 are summed; a handler counts the interrupts beside that, and goes back
addi x1, x0, 5
addi x2, x0, 0
j loop
nop
# the handler stands at address 16; the word is MRET
addi x31, x31, 1
.word 0x30200073
loop: addx x2, x2, x1
addi x1, x1, -1
bne x1, x0, loop
ebreak
