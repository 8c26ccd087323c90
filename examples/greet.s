# Writes two lines by two calls of one function, each by one JAL.
        .globl _start
        .type _start, @function
_start:
        la a1, hello
        addi a2, x0, 6
        jal ra, say
        la a1, world
        addi a2, x0, 6
        jal ra, say
        addi a0, x0, 0
        addi a7, x0, 93
        ecall
        .size _start, . - _start

        .type say, @function
say:
        addi a0, x0, 1
        addi a7, x0, 64
        ecall
        jalr x0, 0(ra)
        .size say, . - say

        .section .rodata
hello:  .ascii "hello\n"
world:  .ascii "world\n"
