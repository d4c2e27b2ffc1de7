# Where the core starts: a stack of its own, zeros where C counts on them, then main.
    .section .text.start, "ax"
    .globl _start
_start:
    .option push
    .option norelax
    lla gp, __global_pointer$
    .option pop
    lla sp, stack_end
    lla t0, zeros
    lla t1, zeros_end
1:  bgeu t0, t1, 2f
    sd zero, 0(t0)
    addi t0, t0, 8
    j 1b
2:  call main
    call stop

    .text
# The library asks for both, and so may the caller's compiler. In assembly, since a compiler may make of such a loop a call
# of the very function.
    .globl memcpy
memcpy:
    add a2, a0, a2
    mv t0, a0
1:  beq t0, a2, 2f
    lbu t1, 0(a1)
    sb t1, 0(t0)
    addi a1, a1, 1
    addi t0, t0, 1
    j 1b
2:  ret

    .globl memset
memset:
    add a2, a0, a2
    mv t0, a0
1:  beq t0, a2, 2f
    sb a1, 0(t0)
    addi t0, t0, 1
    j 1b
2:  ret

    .section .bss
    .balign 16
# The library takes less than 1 KiB of it for a trace, and less than 9 KiB for a trace.dat file.
stack:
    .space 16384
stack_end:
