# Where the text `the mat` stands in `the cat sat on the mat..`, byte by byte: x10 ends as 15, and as -1 where it stood nowhere.
lui x1, 0x80000
lui x5, 0x20657
addi x5, x5, -1932
sw x5, 0(x1)
lui x5, 0x20746
addi x5, x5, 355
sw x5, 4(x1)
lui x5, 0x20746
addi x5, x5, 371
sw x5, 8(x1)
lui x5, 0x74207
addi x5, x5, -401
sw x5, 12(x1)
lui x5, 0x6d206
addi x5, x5, 1384
sw x5, 16(x1)
lui x5, 0x2e2e7
addi x5, x5, 1121
sw x5, 20(x1)
addi x2, x1, 64
lui x5, 0x20657
addi x5, x5, -1932
sw x5, 0(x2)
lui x5, 0x746
addi x5, x5, 365
sw x5, 4(x2)
addi x3, x1, 17
mv x4, x1
try: mv x5, x4
mv x6, x2
next: lbu x7, 0(x6)
beq x7, x0, found
lbu x8, 0(x5)
addi x5, x5, 1
addi x6, x6, 1
beq x7, x8, next
addi x4, x4, 1
bgeu x3, x4, try
addi x10, x0, -1
ebreak
found: sub x10, x4, x1
ebreak
