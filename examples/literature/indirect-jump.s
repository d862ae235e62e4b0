# An interpreter of threaded code, as in "Threaded Code" (1973): a program in memory is a list of
# addresses, and each routine ends with a jump to the next one. Here a routine appends a binary
# digit to x10, and the list has the digits of 1973, 11110110101.
jal x5, behind_zero      # x5 is the address of digit_zero
digit_zero: slli x10, x10, 1
addi x20, x20, 4
ijmp x20
behind_zero: jal x6, behind_one
digit_one: slli x10, x10, 1
addi x10, x10, 1
addi x20, x20, 4
ijmp x20
behind_one: jal x7, behind_halt
halt: ebreak
behind_halt: lui x20, 0x80000
sw x6, 0(x20)
sw x6, 4(x20)
sw x6, 8(x20)
sw x6, 12(x20)
sw x5, 16(x20)
sw x6, 20(x20)
sw x6, 24(x20)
sw x5, 28(x20)
sw x6, 32(x20)
sw x5, 36(x20)
sw x6, 40(x20)
sw x7, 44(x20)
ijmp x20
