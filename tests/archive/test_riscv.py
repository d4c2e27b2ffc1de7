"""The archive for RISC-V holds nothing that the handset's core may lack, stores nothing, and is as small as docs/PERFORMANCE.md says; and each test would
notice if it were not."""
import unittest

import stated
from made import KnownStacks, Made
from riscv import ARCHIVES, ASSEMBLE, called_outside, code, code_size, deepest, stored, unknown_instructions

# What is assembled with these extensions, and is not for the core.
EXTENSIONS = {
    'm': ['div x5, x6, x7', 'divu x5, x6, x7', 'rem x5, x6, x7', 'remu x5, x6, x7', 'divw x5, x6, x7', 'remuw x5, x6, x7'],
    'a': ['amoadd.d x5, x6, (x7)', 'lr.w x5, (x6)'],
    'f': ['fadd.s f1, f2, f3', 'flw f1, 0(x2)', 'fmv.x.w x5, f1'],
    'd': ['fld f8, 0(x2)', 'fcvt.d.l f1, x5'],
    'c': ['c.addi x8, 1', 'c.ebreak'],
    'zicsr': ['csrrs x5, cycle, x0'],
    'zicbom': ['cbo.flush (x5)'],
}
FOR_AN_OPERATING_SYSTEM = ['ecall', 'ebreak', 'fence', '.word 0xffffffff', '.half 0']
PLAIN = ['addi x5, x5, 1', 'ld x5, 0(x6)', 'sraw x5, x6, x7', 'lui x5, 1']
STORED = {
    '.data': '.data; .quad 1',
    '.bss': '.bss; .zero 8',
    '.rodata': '.section .rodata; .quad 1',
    '.sdata': '.section .sdata, "aw"; .quad 1',
    '.text.written': '.section .text.written, "aw"; .quad 1',
    '.text.empty': '.section .text.empty, "aw", @nobits; .zero 8',
    'common': '.comm common, 8, 8',
}
# Each with its depth in bytes.
KNOWN = {
    'nothing kept': ('tfk_f: ret', 0),
    'room': ('tfk_f: addi sp, sp, -32; sd ra, 24(sp); addi sp, sp, 32; ret', 32),
    'much room': ('tfk_f: addi sp, sp, -2032; lui t0, 2; sub sp, sp, t0; lui t0, 2; add sp, sp, t0; addi sp, sp, 2032; ret', 2032 + 8192),
    'a number of two parts': ('tfk_f: lui t0, 1; addiw t0, t0, -96; sub sp, sp, t0; lui t0, 1; addiw t0, t0, -96; add sp, sp, t0; ret', 4000),
    'a number below 0': ('tfk_f: lui t0, 0xffffe; addi t0, t0, -16; add sp, sp, t0; lui t0, 2; addi t0, t0, 16; add sp, sp, t0; ret', 8208),
    'a call': ('tfk_f: addi sp, sp, -16; call g; addi sp, sp, 16; ret; .section .text.g, "ax"; g: addi sp, sp, -64; addi sp, sp, 64; ret', 80),
    'a jump to a function': ('tfk_f: addi sp, sp, -32; addi sp, sp, 32; tail g; .section .text.g, "ax"; g: addi sp, sp, -48; addi sp, sp, 48; ret', 48),
    'two ways': ('tfk_f: beqz a0, 1f; addi sp, sp, -32; addi sp, sp, 32; ret; 1: addi sp, sp, -48; addi sp, sp, 48; ret', 48),
    'a loop': ('tfk_f: addi sp, sp, -16; 1: addi a0, a0, -1; bnez a0, 1b; addi sp, sp, 16; ret', 16),
    'a loop from the start': ('tfk_f: addi a0, a0, -1; bnez a0, tfk_f; ret', 0),
    'what the archive does not have': ('tfk_f: addi sp, sp, -16; call memset; addi sp, sp, 16; ret', 16),
}
UNKNOWN = {
    'a computed stack pointer': 'tfk_f: sub sp, sp, a0; ret',
    'a register that was set before': 'tfk_f: lui t0, 1; addi a0, a0, 1; sub sp, sp, t0; ret',
    'an aligned stack pointer': 'tfk_f: andi sp, sp, -64; ret',
    'a stack pointer from memory': 'tfk_f: ld sp, 0(a0); ret',
    'a call by a pointer': 'tfk_f: jalr a0; ret',
    'a jump by a pointer': 'tfk_f: jr a0',
    'another return register': 'tfk_f: jal t0, tfk_f',
    'a call into a function': 'tfk_f: addi sp, sp, -16; call g + 4; addi sp, sp, 16; ret; .section .text.g, "ax"; g: nop; ret',
    'room that is not asked for': 'tfk_f: sd a0, -8(sp); ret',
    'more given back than was taken': 'tfk_f: addi sp, sp, 16; addi sp, sp, -16; ret',
    'a function that calls itself': 'tfk_f: addi sp, sp, -16; call tfk_f; addi sp, sp, 16; ret',
    'a loop that keeps more': 'tfk_f: addi sp, sp, -16; bnez a0, tfk_f; ret',
}


class RiscV(KnownStacks, Made):
    assemble, known, unknown, deepest = ASSEMBLE, KNOWN, UNKNOWN, staticmethod(deepest)

    def test_the_library_has_plain_instructions_alone(self):
        for convention, archive in ARCHIVES.items():
            with self.subTest(convention):
                self.assertEqual(unknown_instructions(archive), [])

    def test_the_library_stores_nothing(self):
        for convention, archive in ARCHIVES.items():
            with self.subTest(convention):
                self.assertEqual(stored(archive), [])

    def test_the_library_calls_two_functions_of_elsewhere(self):
        for convention, archive in ARCHIVES.items():
            with self.subTest(convention):
                self.assertEqual(called_outside(archive), {'memcpy', 'memset'})

    def test_both_conventions_have_the_same_code(self):
        lp64, lp64d = map(code, ARCHIVES.values())
        self.assertLess(1000, len(lp64))
        self.assertEqual(lp64, lp64d)

    def test_the_stated_size_and_stack(self):
        archive = ARCHIVES['lp64']
        size, stacks, limits = code_size(archive), deepest(archive), stated.stacks('RISC-V')
        print(f'RISC-V: {size} bytes of code; the deepest stack of each call: {", ".join(f"{name} {stacks[name]}" for name in stacks)}')
        self.assertLessEqual(size, stated.code())
        self.assertEqual(set(limits), set(stacks))
        self.assertEqual({name: bytes_ for name, bytes_ in stacks.items() if bytes_ > limits[name]}, {})

    def assembled_with(self, extension, text):
        return self.assembled(ASSEMBLE, f'.option arch, +{extension}; tfk_f: {text}' if extension else f'tfk_f: {text}')

    def test_instructions_of_extensions_are_noticed(self):
        for extension, texts in {**EXTENSIONS, '': FOR_AN_OPERATING_SYSTEM}.items():
            for text in texts:
                with self.subTest(text):
                    self.assertEqual(len(unknown_instructions(self.assembled_with(extension, text))), 1)

    def test_plain_instructions_are_not(self):
        for extension, text in [('', text) for text in PLAIN] + [('m', 'mulhu x5, x6, x7')]:
            with self.subTest(text):
                self.assertEqual(unknown_instructions(self.assembled_with(extension, text)), [])

    def test_an_archive_without_instructions(self):
        with self.assertRaises(ValueError):
            unknown_instructions(self.archive(ASSEMBLE, '.data; .quad 1'))

    def test_what_is_stored_is_noticed(self):
        for section, text in STORED.items():
            with self.subTest(section):
                self.assertEqual(stored(self.assembled_with('', f'ret; {text}')), [section])

    def test_names_of_elsewhere_are_noticed(self):
        self.assertEqual(called_outside(self.assembled_with('', 'tail __umoddi3')), {'__umoddi3'})

    def test_known_sizes(self):
        self.assertEqual(code_size(self.assembled_with('', 'ret; .section .text.g, "ax"; ret; .data; .quad 1')), 8)


if __name__ == '__main__':
    unittest.main()
