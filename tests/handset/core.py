"""Programs for the handset's core, built over tests/handset/libc with the library for RISC-V, and run on an emulated core."""
import os
import subprocess
from pathlib import Path

HERE = Path(__file__).resolve().parent
ROOT = HERE.parents[1]
NATIVE = Path(os.environ.get('TUFAKPENI_ARCHIVE') or ROOT / 'crates/trace_c/out/libtrace_c.a')
ARCHIVES = {convention: ROOT / f'target/handset/{convention}/libtufakpeni.a' for convention in ('lp64', 'lp64d')}
EMULATE = HERE / 'emulate'
WORDS = ['-std=c99', '-Wall', '-Wextra', '-Werror', '-pedantic', '-O1', '-g', f'-I{ROOT / "include"}', f'-I{ROOT / "tests/c"}']


def output_of(*words):
    """All that a program prints; it must end with 0."""
    run = subprocess.run(words, stdout=subprocess.PIPE, stderr=subprocess.STDOUT, cwd=ROOT)
    printed = run.stdout.decode()
    if run.returncode != 0:
        raise AssertionError(f'{words[0]} ended with {run.returncode} and printed:\n{printed}')
    return printed


def c_library(folder, *words):
    """What is linked behind every program of the core."""
    output_of(HERE / 'libc/build', folder, *words)
    return Path(folder, 'libc.a')


def built(folder, name, compiler, sources, behind):
    """A program of these sources, linked with what stands behind."""
    program = Path(folder, name)
    output_of(*compiler, *WORDS, *sources, *behind, '-o', program)
    return program
