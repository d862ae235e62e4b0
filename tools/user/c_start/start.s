# What runs before `main`: the global pointer, the stack, the initialised data, and the stop behind
# it. c_to_image.py appends the code at __fill, which stores the data word by word and returns.
    .section .start, "ax"
    .globl _start
_start:
    .option push
    .option norelax
    lui gp, %hi(__global_pointer$)
    addi gp, gp, %lo(__global_pointer$)
    .option pop
    lui sp, %hi(__stack_end)
    jal ra, __fill
    call main
    ebreak
