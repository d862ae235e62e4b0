# All 256 bytes go through the S-box, into the first 256 bytes of memory. Behind them comes the
# state 193de3be a0f4e22b 9ac68d2a e9f84808 of the example in FIPS 197, and its bytes are
# substituted in place.
lui x1, 0x80000
addi x2, x0, 256
mv x3, x0
all: sbox x4, x3
add x5, x1, x3
addi x3, x3, 1
sb x4, 0(x5)
bne x3, x2, all
lui x6, 0xbee34
addi x6, x6, -743
sw x6, 256(x1)
lui x6, 0x2be2f
addi x6, x6, 0x4a0
sw x6, 260(x1)
lui x6, 0x2a8dc
addi x6, x6, 0x69a
sw x6, 264(x1)
lui x6, 0x08490
addi x6, x6, -1815
sw x6, 268(x1)
addi x7, x1, 256
addi x8, x1, 272
state: lbu x9, 0(x7)
sbox x9, x9
sb x9, 0(x7)
addi x7, x7, 1
bne x7, x8, state
ebreak
