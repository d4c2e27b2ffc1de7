# Where a program starts: the stack holds the number of its words, then the words.
    .globl _start
_start:
    .option push
    .option norelax
    lla gp, __global_pointer$
    .option pop
    ld a0, 0(sp)
    addi a1, sp, 8
    andi sp, sp, -16
    call main
    call exit
    .section .note.GNU-stack, "", @progbits
