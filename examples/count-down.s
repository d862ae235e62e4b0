# five times round, with the least forms
addi x1, x0, 5
loop: addi x1, x1, -1
bne x1, x0, loop
ebreak
