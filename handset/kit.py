"""The kit that `rt` belongs to, and the one module that its compiler is given when `rt` builds a static library.

`rt` finds the kit's folder by the place of its own file. So it is run from a folder of links to the kit, in which its own files are copies and one file
is not the kit's: the compiler, which is watched there."""
import shlex
import shutil
import subprocess
import tempfile
from pathlib import Path
from typing import NamedTuple

# What the kit asks of its compiler whatever the target is.
EVERYWHERE = ('-mllvm -no-trap-after-noreturn -ffunction-sections -fdata-sections -mllvm -trap-unreachable -mllvm -no-x86-call-frame-opt '
              '-mllvm -disable-machine-licm -mllvm -disable-postra-machine-licm -mllvm -sink-common-insts=false '
              '--no-default-config -no-canonical-prefixes -fintegrated-cc1 -fno-crash-diagnostics -Werror').split()
COMPILE = '-c -x ir module.bc -o module.o'.split()
# The processor that the library is built for, which every x86-64 is.
PROCESSOR = '--cpu=x86-64'
# What `rt` is made of, and the compiler, in the kit's folder.
OWN = ('bin/rt', 'bin/rtlib.py')
TOOLS = 'toolchain'
CLANG = f'{TOOLS}/bin/clang'
WATCHED = """#!/bin/sh
# Stands for the kit's compiler: keeps its words and the files among them, and hands all on.
call=$(mktemp -d {calls}/XXXXXX) || exit
printf '%s\\n' "$@" >"$call/words"
for word in "$@"; do
    [ ! -f "$word" ] || cp "$word" "$call/"
done
exec {clang} "$@"
"""


class Stop(Exception):
    """Why nothing is built: what is not as it was known to be."""


class Proved(NamedTuple):
    """What the kit compiled after its proof, and the archive that it made of it."""
    module: bytes
    archive: bytes


class Kit:
    def __init__(self):
        rt = shutil.which('rt')
        if rt is None:
            raise Stop('there is no command rt: the Rattle toolchain is not installed')
        self.home = Path(rt).resolve().parents[1]
        self.clang = self.home / CLANG
        if not self.clang.is_file():
            raise Stop(f'the kit has no compiler at {self.clang}')

    def call(self, home):
        """How the kit is known to call its compiler."""
        return ['--target=x86_64-unknown-linux-gnu', f'--sysroot={home / TOOLS}', '-march=x86-64', *EVERYWHERE, *COMPILE, '-fPIC', '-O3']

    def identity(self):
        return subprocess.run(['rt', 'version'], stdout=subprocess.PIPE, check=True).stdout

    def prove(self, root, crate):
        """Proves a crate and builds its static library by `rt`; the module is kept on its way."""
        with tempfile.TemporaryDirectory() as folder:
            home, calls = Path(folder, 'kit'), Path(folder, 'calls')
            calls.mkdir()
            link_beside(self.home, home, {*OWN, CLANG})
            for name in OWN:
                shutil.copy(self.home / name, home / name)
            put_program(home / CLANG, WATCHED.format(calls=shlex.quote(str(calls)), clang=shlex.quote(str(self.clang))))
            place = Path(root, 'crates', crate)
            run = subprocess.run([home / 'bin/rt', 'lib', PROCESSOR], cwd=place)
            if run.returncode != 0:
                raise Stop(f'rt lib {PROCESSOR} in crates/{crate} ended with {run.returncode}')
            module = sole_module(sorted(calls.iterdir()), self.call(home))
            return Proved(module, Path(place, f'out/lib{crate}.a').read_bytes())

    def object_of(self, module, words, passed_over=()):
        """The object that the compiler makes of a module by these words; it may say no other lines than those that are passed over."""
        with tempfile.TemporaryDirectory() as folder:
            Path(folder, 'module.bc').write_bytes(module)
            run = subprocess.run([self.clang, *words], cwd=folder, stdout=subprocess.PIPE, stderr=subprocess.STDOUT, text=True)
            said = [line for line in run.stdout.splitlines() if line not in passed_over]
            if run.returncode != 0 or said:
                raise Stop('the kit\'s compiler said: ' + '\n'.join(said or [f'nothing, and ended with {run.returncode}']))
            return Path(folder, 'module.o').read_bytes()

    def archiver(self, *words, cwd=None):
        run = subprocess.run([self.clang.with_name('llvm-ar'), *words], cwd=cwd, capture_output=True)
        if run.returncode != 0:
            raise Stop(f'the kit\'s archiver said: {run.stderr.decode().strip()}')
        return run.stdout

    def check_made_of(self, proved):
        """The archive is what the kit's compiler makes of the module: its one object, byte for byte."""
        with tempfile.TemporaryDirectory() as folder:
            archive = Path(folder, 'lib.a')
            archive.write_bytes(proved.archive)
            members = self.archiver('t', archive).decode().split()
            if len(members) != 1:
                raise Stop(f'the kit\'s archive has not one object but these: {" ".join(members)}')
            if self.archiver('p', archive) != self.object_of(proved.module, self.call(self.home)):
                raise Stop('the module that was kept does not give the object of the kit\'s archive')

    def archive_of(self, made, place):
        """Writes an archive of one object; the same object gives the same bytes."""
        with tempfile.TemporaryDirectory() as folder:
            Path(folder, 'tufakpeni.o').write_bytes(made)
            self.archiver('rcsD', 'libtufakpeni.a', 'tufakpeni.o', cwd=folder)
            place.parent.mkdir(parents=True, exist_ok=True)
            shutil.copyfile(Path(folder, 'libtufakpeni.a'), place)


def link_beside(source, target, without):
    """A folder of links to what is in the source, but for what stands at these places: there is nothing, and on the way to them are folders of the same sort."""
    target.mkdir()
    below = {}
    for place in without:
        first, _, rest = place.partition('/')
        below.setdefault(first, set()).add(rest)
    for entry in source.iterdir():
        if entry.name not in below:
            (target / entry.name).symlink_to(entry)
        elif '' not in below[entry.name]:
            link_beside(entry, target / entry.name, below[entry.name])


def put_program(place, text):
    place.write_text(text)
    place.chmod(0o755)


def sole_module(calls, known):
    """The module of the one call that the compiler had."""
    if len(calls) != 1:
        raise Stop(f'the kit called its compiler {len(calls)} times, and not once: which module is the library\'s?')
    words = (calls[0] / 'words').read_text().splitlines()
    if words != known:
        changes = [f'without {word}' for word in known if word not in words] + [f'with {word}' for word in words if word not in known]
        raise Stop(f'the kit calls its compiler otherwise: {", ".join(changes) or "with its words in another order"}')
    module = calls[0] / 'module.bc'
    if not module.is_file():
        raise Stop('the kit named module.bc to its compiler, and no such file was there')
    return module.read_bytes()
