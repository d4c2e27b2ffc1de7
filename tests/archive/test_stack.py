"""The deepest stack of each call is at most what docs/PERFORMANCE.md says; and the measure is right where the stack is known."""
import unittest

from division import ARCHIVE
from made import KnownStacks, Made
from stack import deepest
from stated import stacks

ASSEMBLE = ['gcc', '-c', '-x', 'assembler', '-']
# Each with its depth: 8 bytes of return address a call, and what is pushed or kept.
KNOWN = {
    'nothing kept': ('tfk_f: ret', 8),
    'a register kept': ('tfk_f: push %rbx; pop %rbx; ret', 16),
    'room': ('tfk_f: sub $4096, %rsp; movq $0, (%rsp); sub $24, %rsp; add $4120, %rsp; ret', 4128),
    'a call': ('tfk_f: push %rax; call g; pop %rax; ret; .section .text.g; g: sub $64, %rsp; add $64, %rsp; ret', 16 + 72),
    'a call behind which more is kept': ('tfk_f: call g; sub $128, %rsp; add $128, %rsp; ret; .section .text.g; g: ret', 136),
    'two ways': ('tfk_f: test %edi, %edi; je 1f; sub $32, %rsp; add $32, %rsp; ret; 1: sub $48, %rsp; add $48, %rsp; ret', 56),
    'a loop': ('tfk_f: push %rbx; 1: dec %edi; jne 1b; pop %rbx; ret', 16),
    'a jump to a function': ('tfk_f: sub $32, %rsp; add $32, %rsp; jmp g; .section .text.g; g: sub $40, %rsp; add $40, %rsp; ret', 48),
    'what the archive does not have': ('tfk_f: push %rax; call memset; pop %rax; ret', 16),
}
UNKNOWN = {
    'a computed stack pointer': 'tfk_f: push %rbp; mov %rsp, %rbp; sub %rdi, %rsp; mov %rbp, %rsp; pop %rbp; ret',
    'an aligned stack pointer': 'tfk_f: and $-64, %rsp; ret',
    'a call by a pointer': 'tfk_f: push %rax; call *%rdi; pop %rax; ret',
    'a function that calls itself': 'tfk_f: push %rax; call tfk_f; pop %rax; ret',
    'a jump by a pointer': 'tfk_f: jmp *%rdi',
    'a loop that pushes': 'tfk_f: push %rbx; dec %edi; jne tfk_f; ret',
}


class Stack(KnownStacks, Made):
    assemble, known, unknown, deepest = ASSEMBLE, KNOWN, UNKNOWN, staticmethod(deepest)

    def test_the_stated_stack(self):
        stated, measured = stacks('x86-64'), deepest(ARCHIVE)
        self.assertEqual(set(stated), set(measured))
        self.assertEqual({name: bytes_ for name, bytes_ in measured.items() if bytes_ > stated[name]}, {})


if __name__ == '__main__':
    unittest.main()
