# each instruction of mixed.core_desc, with what waits for what
lui x31, 0x80000
addi x1, x0, 6
addi x2, x0, 3
sw x1, 0(x31)
loadtotal x31         # TOTAL = 6, written late
addtotal x3, x1       # waits for TOTAL; x3 = 6 + 3, TOTAL = 12
power x4, x1, x2      # x4 = 6 * 3^7 and STEPS = 4, both later
addi x7, x0, 1
quick x5, x1, x2      # x5 = 9 later, done when x4 is, and so a cycle behind it
quick x6, x2, x2      # x6 = 6 later; its unit is full for a cycle
quick x6, x0, x2      # waits for x6; its condition is 0
addtotal x8, x2       # waits for STEPS; x8 = 3 + 4, TOTAL = 15
storehalf x31, x1     # an even value: the half of it is stored
storehalf x31, x2     # an odd value: nothing is stored
skip x31              # goes over the next word
addi x9, x0, 1
skip x1               # does not
add x10, x4, x5
loadtotal x31
addtotal x11, x10     # TOTAL = 3 + 13122 + 9
ebreak
