# The trace that the service port of this example has.
    .section .rodata
    .globl trace, trace_end
trace:
    .incbin "samples/masks.tf"
trace_end:
