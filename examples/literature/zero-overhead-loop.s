# The Fibonacci number 40 in x10, in 40 turns of a loop of three instructions.
addi x11, x0, 1
setup 39, 6
add x12, x10, x11
mv x10, x11
mv x11, x12
ebreak
