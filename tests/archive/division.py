"""Which instructions of an archive divide or take a remainder, by its disassembly. The handset's core has none of these (C-15).

    python3 tests/archive/division.py [ARCHIVE]

prints each with its function, and each name that the archive uses and does not have, which may divide. The exit status is 0 only where there are none.
One name is let pass, C's memset: it fills memory with a byte, and every C compiler counts on it, without an operating system too."""
import os
import re
import subprocess
import sys
from pathlib import Path

ROOT = Path(__file__).resolve().parents[2]
ARCHIVE = Path(os.environ.get('TUFAKPENI_ARCHIVE') or ROOT / 'crates/trace_c/out/libtrace_c.a')

FUNCTION = re.compile(r'^[0-9a-f]+ <(.*)>:$')
INSTRUCTION = re.compile(r'^ *[0-9a-f]+:\t(.*)$')
NAMED = re.compile(r'<.*>')
# div, idiv, divss, vdivpd, fdiv, fidiv, fprem and their like, behind any prefix, and reciprocals. What cannot be told counts too.
DIVIDES = re.compile(r'div|rem|rcp|\(bad\)')
# The map of units is filled with zeros by it (dat_ranges::all_apart).
FILLS = {'memset'}


def told_by(*words):
    return subprocess.run(words, stdout=subprocess.PIPE, text=True, check=True).stdout.splitlines()


def instructions(archive):
    """Each function's name and each instruction, without the names of the places in it."""
    function = None
    for line in told_by('objdump', '-d', '-w', '--no-show-raw-insn', archive):
        starts, holds = FUNCTION.match(line), INSTRUCTION.match(line)
        if starts:
            function = starts[1]
        elif holds:
            yield function, NAMED.sub('', holds[1]).strip()


def called_outside(archive):
    """The names that an archive uses and does not have, those that may be missing among them (w, v)."""
    names = [line.split()[:2] for line in told_by('nm', '-P', '-g', archive) if not line.endswith(':')]
    own = {name for name, kind in names if kind not in 'Uwv'}
    return {name for name, _ in names} - own


def divisions(archive):
    """What divides, or may: instructions with their functions, and names that the archive does not have. Where no instruction will do
    a compiler calls a function, as __udivti3."""
    every = list(instructions(archive))
    if not every:
        raise ValueError(f'{archive} has no instructions')
    found = [f'{function}: {text}' for function, text in every if DIVIDES.search(text)]
    return found + [f'calls {name}' for name in sorted(called_outside(archive) - FILLS)]


def main(archive=ARCHIVE):
    found = divisions(archive)
    for line in found:
        print(line)
    print(f'instructions that divide or take a remainder: {len(found)}')
    return 1 if found else 0


if __name__ == '__main__':
    sys.exit(main(*sys.argv[1:2]))
