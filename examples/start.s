# The program's start: sets gp (x3), which relaxed code reads its data by, and calls main.
        .globl _start
        .type _start, @function
_start:
        .option push
        .option norelax
        la gp, __global_pointer$
        .option pop
        call main
        li a7, 93
        ecall
        .size _start, . - _start
