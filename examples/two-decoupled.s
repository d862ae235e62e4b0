# two sums apart, one beside them, and a sum of the two that waits for both
addi x1, x0, 5
addi x2, x0, 7
slow x3, x1, x2
quick x4, x1, x2
add x5, x1, x2
add x6, x3, x4
ebreak
