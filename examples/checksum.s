# The checksum CRC-32 (IEEE 802.3) of the nine bytes of the text 123456789, bit by bit: x10 ends as cbf43926, as the standard's check value is.
lui x1, 0x80000
mv x4, x1
addi x3, x1, 9
addi x2, x0, 49
store: sb x2, 0(x4)
addi x2, x2, 1
addi x4, x4, 1
bne x4, x3, store
addi x10, x0, -1
lui x5, 0xedb88
addi x5, x5, 0x320
mv x4, x1
byte: lbu x6, 0(x4)
xor x10, x10, x6
addi x7, x0, 8
bit: andi x8, x10, 1
srli x10, x10, 1
beq x8, x0, even
xor x10, x10, x5
even: addi x7, x7, -1
bne x7, x0, bit
addi x4, x4, 1
bne x4, x3, byte
xori x10, x10, -1
sw x10, 12(x1)
ebreak
