# The places of setjmp.h's sigjmp_buf: ra, sp, s0 to s11, whether the blocked signals are kept, these.
# A handler runs with its own signal blocked, so that a jump out of it must set the signals too.
    .equ KEPT, 112
    .equ SIGNALS, 120
    .equ RT_SIGPROCMASK, 135

    .globl sigsetjmp
sigsetjmp:
    sd ra, 0(a0)
    sd sp, 8(a0)
    sd s0, 16(a0)
    sd s1, 24(a0)
    sd s2, 32(a0)
    sd s3, 40(a0)
    sd s4, 48(a0)
    sd s5, 56(a0)
    sd s6, 64(a0)
    sd s7, 72(a0)
    sd s8, 80(a0)
    sd s9, 88(a0)
    sd s10, 96(a0)
    sd s11, 104(a0)
    sd a1, KEPT(a0)
    beqz a1, 1f
    addi a2, a0, SIGNALS
    li a0, 0
    li a1, 0
    li a3, 8
    li a7, RT_SIGPROCMASK
    ecall
1:  li a0, 0
    ret

    .globl siglongjmp
siglongjmp:
    mv t0, a0
    mv t1, a1
    bnez t1, 1f
    li t1, 1
1:  ld t2, KEPT(t0)
    beqz t2, 2f
    li a0, 2
    addi a1, t0, SIGNALS
    li a2, 0
    li a3, 8
    li a7, RT_SIGPROCMASK
    ecall
2:  ld ra, 0(t0)
    ld sp, 8(t0)
    ld s0, 16(t0)
    ld s1, 24(t0)
    ld s2, 32(t0)
    ld s3, 40(t0)
    ld s4, 48(t0)
    ld s5, 56(t0)
    ld s6, 64(t0)
    ld s7, 72(t0)
    ld s8, 80(t0)
    ld s9, 88(t0)
    ld s10, 96(t0)
    ld s11, 104(t0)
    mv a0, t1
    ret
    .section .note.GNU-stack, "", @progbits
