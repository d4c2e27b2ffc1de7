"""What the archive for RISC-V is made of: its instructions, what it stores, what it calls, its size and the stack of its calls.

    python3 tests/archive/riscv.py [ARCHIVE]

prints the bytes of code and the deepest stack of each call, in bytes, without what memset and memcpy take. What cannot be told stops it, as for x86-64."""
import re
import subprocess
import sys
import tempfile
from pathlib import Path

import depth
from depth import Step
from division import FUNCTION, ROOT, told_by

ARCHIVES = {convention: ROOT / f'target/handset/{convention}/libtufakpeni.a' for convention in ('lp64', 'lp64d')}
TOOLS = 'riscv64-linux-gnu-'
DISASSEMBLE = (f'{TOOLS}objdump', '-d', '-z', '-w', '-M', 'no-aliases,numeric')
ASSEMBLE = (f'{TOOLS}gcc', '-march=rv64i', '-mabi=lp64', '-c', '-x', 'assembler', '-')
# The base instructions, but for those of an operating system and of shared memory; and Zmmul.
BRANCHES = set('beq bne blt bge bltu bgeu'.split())
STORES = set('sb sh sw sd'.split())
BASE = BRANCHES | STORES | set('lui auipc jal jalr lb lh lw ld lbu lhu lwu addi slti sltiu xori ori andi slli srli srai addiw slliw srliw sraiw '
                               'add sub sll slt sltu xor srl sra or and addw subw sllw srlw sraw'.split())
ZMMUL = set('mul mulh mulhsu mulhu mulw'.split())
# The raw instruction tells its length: four bytes, or two where it is compressed.
INSTRUCTION = re.compile(r'^ *([0-9a-f]+):\t([0-9a-f]+) +\t(\S+)(?:\t([^\t<]*?))?(?: *<(.+)>)?(?: *#.*)?$')
SECTION = re.compile(r'^ *\d+ (\S+) +([0-9a-f]+) .*\bALLOC\b(.*)$', re.M)
CODE = 'READONLY, CODE'
BELOW = re.compile(r'-\d+\(x2\)')


def instructions(file):
    """Each function's name, and each instruction of it: its place, bytes, name, operands and the place that it names, a function or so far behind one."""
    function = None
    for line in told_by(*DISASSEMBLE, file):
        starts, holds = FUNCTION.match(line), INSTRUCTION.match(line)
        if starts:
            function = starts[1]
        elif holds:
            yield function, holds.groups(default='')
        elif function and line.startswith(' '):
            raise ValueError(f'{function} has what is not understood: {line}')


def unknown_instructions(archive):
    """What the core may not have: all but whole instructions of the base and multiplications."""
    every = list(instructions(archive))
    if not every:
        raise ValueError(f'{archive} has no instructions')
    return [f'{function}: {name} {operands}' for function, (_, raw, name, operands, _) in every if len(raw) != 8 or name not in BASE | ZMMUL]


def code(archive):
    """The code with the names in it that a linker puts places for."""
    return [line for line in told_by(*DISASSEMBLE, '-r', archive) if line.startswith(' ') or FUNCTION.match(line)]


def stored(archive):
    """The sections that hold something besides code, and the names that a linker makes room for."""
    common = [line.split()[0] for line in told_by(f'{TOOLS}nm', '-P', archive) if line.split()[1:2] == ['C']]
    return [name for name, size, flags in sections(archive) if size > 0 and not (name.startswith('.text') and flags.endswith(CODE))] + common


def sections(archive):
    """The sections that are there when a program runs, each with its size and what else is said of it."""
    lines = '\n'.join(told_by(f'{TOOLS}objdump', '-h', '-w', archive))
    return [(name, int(size, 16), flags) for name, size, flags in SECTION.findall(lines)]


def code_size(archive):
    return sum(size for name, size, _ in sections(archive) if name.startswith('.text'))


def called_outside(archive):
    """The names that the archive uses and does not have."""
    return {line.split()[0] for line in told_by(f'{TOOLS}nm', '-P', '-u', archive) if not line.endswith(':')}


def linked(archive, folder):
    """The whole archive as a program, in which every jump has its place; what the archive does not have does nothing."""
    stubs, program = Path(folder, 'stubs.o'), Path(folder, 'linked')
    text = ''.join(f'.globl {name}\n{name}: ret\n' for name in called_outside(archive))
    subprocess.run([*ASSEMBLE, '-o', stubs], input=text, text=True, check=True)
    subprocess.run([f'{TOOLS}ld', '-m', 'elf64lriscv_lp64', '-e', '0', '--whole-archive', archive, '--no-whole-archive', stubs, '-o', program], check=True)
    return program


def constant(before, register):
    """The number that the instructions right before have put into a register."""
    changes = []
    for name, operands in reversed(before):
        to, *rest = operands.split(',')
        if to == register and name in ('addi', 'addiw', 'slli') and rest[0] == register:
            changes.append((name, int(rest[1], 0)))
            continue
        if to == register and name == 'lui':
            # 20 bits, the highest of which is the sign.
            number = (int(rest[0], 16) ^ 0x80000) - 0x80000 << 12
        elif to == register and name == 'addi' and rest[0] == 'x0':
            number = int(rest[1])
        else:
            break
        for change, by in reversed(changes):
            number = number << by if change == 'slli' else number + by
        return number
    raise ValueError(f'the stack is moved by {register}, which is computed')


def moved(before, name, operands):
    """How many bytes an instruction adds to the stack."""
    if BELOW.search(operands):
        raise ValueError(f'the stack is used below its pointer by {name} {operands}')
    if name in STORES or not operands.startswith('x2,'):
        return 0
    parts = operands.split(',')
    if name == 'addi' and parts[1] == 'x2':
        return -int(parts[2])
    if name in ('add', 'sub') and parts[1] == 'x2':
        return constant(before, parts[2]) * (1 if name == 'sub' else -1)
    raise ValueError(f'the stack is moved by {name} {operands}')


def step(function, before, name, operands, named):
    if name in BRANCHES or name == 'jal':
        register, place = operands.split(',')[0], operands.split(',')[-1]
        if name == 'jal' and register not in ('x0', 'x1'):
            raise ValueError(f'a call that returns by {register}')
        inside = named.split('+')[0] == function
        called = name == 'jal' and (register == 'x1' or not inside)
        if called and '+' in named or not called and not inside:
            raise ValueError(f'a call of, or a branch to, a place of another function, {named}')
        return Step(target=None if called else place, callee=named if called else None, goes_on=name in BRANCHES or register == 'x1')
    if name == 'jalr' and operands != 'x0,0(x1)':
        raise ValueError(f'a call or a jump by a pointer: {operands}')
    return Step(moved(before, name, operands), goes_on=name != 'jalr')


def functions(program):
    found, before = {}, {}
    for function, (at, _, name, operands, named) in instructions(program):
        lines = before.setdefault(function, [])
        found.setdefault(function, {})[at] = step(function, lines, name, operands, named)
        lines.append((name, operands))
    return found


def deepest(archive):
    """The deepest stack of each exported call. The return address is in a register, and counts where it is kept."""
    with tempfile.TemporaryDirectory() as folder:
        return depth.deepest(functions(linked(archive, folder)))


def main(archive=ARCHIVES['lp64']):
    print(f'code {code_size(archive)}')
    for name, bytes_ in deepest(archive).items():
        print(f'{name} {bytes_}')


if __name__ == '__main__':
    main(*sys.argv[1:2])
