"""handset/build stops, says why and makes nothing where the kit or the module is not as it is known; tried with kits whose `rt` proves nothing."""
import os
import shutil
import subprocess
import sys
import tempfile
import unittest
from pathlib import Path

ROOT = Path(__file__).resolve().parents[2]
sys.path.insert(0, str(ROOT / 'handset'))
from kit import CLANG as COMPILER, Kit  # noqa: E402
from module import LAYOUT, LAYOUT_RECORD, bits_of, record  # noqa: E402

MODULE = f"""target datalayout = "{LAYOUT}"
target triple = "x86_64-unknown-linux-gnu"
define i64 @tfk_interface(i64 %a) #0 {{
  %b = add i64 %a, 6
  ret i64 %b
}}
attributes #0 = {{ nounwind "probe-stack"="inline-asm" "target-cpu"="x86-64" }}
"""
# As the kit's own: a module, one call of the compiler, an archive of its object.
CALL = '"$tools/bin/clang" --target=x86_64-unknown-linux-gnu --sysroot="$tools" -march=x86-64 -mllvm -no-trap-after-noreturn ' \
       '-ffunction-sections -fdata-sections -mllvm -trap-unreachable -mllvm -no-x86-call-frame-opt -mllvm -disable-machine-licm ' \
       '-mllvm -disable-postra-machine-licm -mllvm -sink-common-insts=false --no-default-config -no-canonical-prefixes -fintegrated-cc1 ' \
       '-fno-crash-diagnostics -Werror -c -x ir module.bc -o module.o -fPIC -O3'
RT = f"""#!/bin/sh
set -e
if [ "$1" = version ]; then echo a kit; exit; fi
[ "$*" = 'lib --cpu=x86-64' ]
mkdir -p out
echo asked >>out/asked
archive=$PWD/out/libtrace_c.a
kit=$(cd "$(dirname "$(realpath "$0")")/.." && pwd)
tools=$kit/toolchain
cd "$(mktemp -d)"
trap 'rm -r "$PWD"' EXIT
cp "$kit/module.bc" module.bc
{CALL}
rm -f "$archive"
"$tools/bin/llvm-ar" rcsD "$archive" module.o
"""
CLANG = '#!/bin/sh\nexec {} "$@"\n'
OTHERWISE = 'the kit calls its compiler otherwise'
# Each with what is replaced in `rt`, by what, and what the build says.
HABITS = {
    'another level': ('-O3', '-O2', f'{OTHERWISE}: without -O3, with -O2'),
    'one word more': ('-fPIC', '-fPIC -flto', f'{OTHERWISE}: with -flto'),
    'another order': ('-fPIC -O3', '-O3 -fPIC', f'{OTHERWISE}: with its words in another order'),
    'another name of the module': ('-x ir module.bc', '-x ir "$(cp module.bc library.bc; echo library.bc)"', f'{OTHERWISE}: without module.bc, with library.bc'),
    'a second module': (CALL, f'{CALL}\n{CALL}', 'called its compiler 2 times'),
    'another compiler': ('"$tools/bin/clang"', '"$tools/bin/other"', 'called its compiler 0 times'),
    'two objects': ('"$archive" module.o', '"$archive" module.o module.bc', 'not one object but these: module.o module.bc'),
    'an object of another module': ('\nrm -f', '\necho >>module.o\nrm -f', 'does not give the object of the kit\'s archive'),
    'no proof': (CALL, 'exit 3', 'rt lib --cpu=x86-64 in crates/trace_c ended with 3'),
    'no archive': ('"$tools/bin/llvm-ar"', ': ', 'libtrace_c.a'),
    'another kind of archive': ('\n"$tools/bin/llvm-ar"', '\ncp module.o "$archive"\n: ', 'the kit\'s archiver said: '),
    'no name of its own': ('echo a kit; exit', 'exit 4', 'status 4'),
}
# Each with what is replaced in the module, by what, and what the build says.
MODULES = {
    'another processor': ('"x86-64"', '"x86-64-v2"', '"target-cpu"="x86-64-v2"'),
    'features of a processor': ('"x86-64"', '"x86-64" "target-features"="+avx"', '"target-features"="+avx"'),
    'floating point': ('%b =', '%c = sitofp i64 %a to double\n  %b =', 'core: double, sitofp'),
    'a floating number in memory': ('%b =', '%c = alloca float\n  %b =', 'core: float'),
    'a number made of a place': ('%b =', '%p = alloca i64\n  %c = ptrtoint ptr %p to i64\n  %b =', 'core: ptrtoint'),
    'assembly': ('%b =', 'call void asm "nop", ""()\n  %b =', 'core: asm'),
    'a wide number': ('%b =', '%c = zext i64 %a to i128\n  %b =', 'core: i128'),
    'a vector': ('%b =', '%c = alloca <2 x i64>\n  %b =', 'core: <2 x '),
    'an exchange': ('%b =', '%p = alloca i64\n  %c = atomicrmw add ptr %p, i64 1 seq_cst\n  %b =', 'core: atomicrmw'),
    'data': ('define', '@data = global i64 1\ndefine', 'core: @data = global i64 1'),
    'constant words': ('define', '@data = private unnamed_addr constant [2 x i16] [i16 1, i16 2], align 2\ndefine', 'core: @data = private unnamed_addr constant [2 x i16]'),
    'bytes that are written': ('define', '@data = private unnamed_addr global [2 x i8] c"ab", align 1\ndefine', 'core: @data = private unnamed_addr global'),
    'bytes that others see': ('define', '@data = constant [2 x i8] c"ab", align 1\ndefine', 'core: @data = constant'),
    'a function of elsewhere': ('define', 'declare i64 @other(i64)\ndefine', 'core: declare i64 @other(i64)'),
    'an instruction of x86-64': ('%b =', 'call void @llvm.x86.sse2.pause()\n  %b =', '@llvm.x86.sse2.pause()'),
    'another convention': ('define i64', 'define fastcc i64', 'core: fastcc'),
    'an argument in a register of its own': ('i64 %a)', 'i64 inreg %a)', 'core: inreg'),
    'a short struct on the stack': ('i64 %a)', 'i64 %a, ptr byval([16 x i8]) %c)', 'core: byval([16 x i8])'),
    'an odd width': ('%b =', '%c = zext i64 %a to i65\n  %b =', 'core: i65'),
    'a load that others may see': ('%b =', '%p = alloca i64\n  %c = load atomic i64, ptr %p seq_cst, align 8\n  %b =', 'core: atomic, seq_cst'),
    'a guarded stack': ('nounwind', 'nounwind sspreq', 'core: sspreq'),
    'a flag of the module': ('define', '!llvm.module.flags = !{!0}\n!0 = !{i32 1, !"override-stack-alignment", i32 8}\ndefine', 'core: !llvm.module.flags'),
    'another name for a function': ('define', '@other = alias i64 (i64), ptr @tfk_interface\ndefine', 'core: @other = alias'),
}


class Build(unittest.TestCase):
    def setUp(self):
        held = tempfile.TemporaryDirectory()
        self.addCleanup(held.cleanup)
        self.root = Path(held.name, 'repository')
        self.kit = Path(held.name, 'kit')
        shutil.copytree(ROOT / 'handset', self.root / 'handset')
        (self.root / 'crates/trace_c').mkdir(parents=True)
        (self.root / 'crates.txt').write_text('')
        clang = Kit().clang
        self.bin = (self.kit / COMPILER).parent
        self.bin.mkdir(parents=True)
        (self.bin / 'llvm-ar').symlink_to(clang)
        for name in ('clang', 'other'):
            self.put(self.bin / name, CLANG.format(clang))
        self.put(self.kit / 'bin/rt', RT)
        self.put(self.kit / 'bin/rtlib.py', '')
        self.put_module(MODULE)

    def put(self, place, text):
        place.parent.mkdir(parents=True, exist_ok=True)
        place.write_text(text)
        place.chmod(0o755)

    def put_module(self, text):
        """A module as the kit writes one."""
        words = [self.bin / 'clang', '--target=x86_64-unknown-linux-gnu', '-c', '-emit-llvm', '-Xclang', '-disable-llvm-passes', '-x', 'ir', '-', '-o', '-']
        (self.kit / 'module.bc').write_bytes(subprocess.run(words, input=text.encode(), stdout=subprocess.PIPE, check=True).stdout)

    def changed(self, place, old, new):
        text = place.read_text()
        self.assertIn(old, text)
        self.put(place, text.replace(old, new))

    def build(self, *words):
        environment = {**os.environ, 'PATH': f'{self.kit / "bin"}:{os.environ["PATH"]}'}
        return subprocess.run([self.root / 'handset/build', *words], cwd=self.root, env=environment, capture_output=True, text=True)

    def made(self):
        return sorted(str(path.relative_to(self.root)) for path in self.root.rglob('libtufakpeni.a'))

    def assertStops(self, said, *words):
        run = self.build(*words)
        self.assertRegex(run.stderr, r'^handset/build: (?!.*Traceback)')
        self.assertIn(said, run.stderr)
        self.assertEqual((run.returncode, self.made()), (1, []))

    def test_a_kit_as_it_is_known(self):
        run = self.build()
        self.assertEqual((run.returncode, run.stderr), (0, ''))
        self.assertEqual(self.made(), ['target/handset/lp64/libtufakpeni.a', 'target/handset/lp64d/libtufakpeni.a'])

    def test_constant_bytes(self):
        self.put_module(MODULE.replace('define', '@text = private unnamed_addr constant [2 x i8] c"ab", align 1\n'
                                                 '@none = private unnamed_addr constant [3 x i8] zeroinitializer, align 1\ndefine'))
        run = self.build()
        self.assertEqual((run.returncode, run.stderr), (0, ''))

    def test_habits_of_the_kit(self):
        rt = (self.kit / 'bin/rt').read_text()
        for name, (old, new, said) in HABITS.items():
            with self.subTest(name):
                self.put(self.root / 'crates/source', name)
                self.put(self.kit / 'bin/rt', rt)
                self.changed(self.kit / 'bin/rt', old, new)
                self.assertStops(said)

    def test_modules(self):
        for name, (old, new, said) in MODULES.items():
            with self.subTest(name):
                self.put(self.root / 'crates/source', name)
                self.assertIn(old, MODULE)
                self.put_module(MODULE.replace(old, new))
                self.assertStops(said)

    def test_another_layout(self):
        """It is changed in the module's bits, since the compiler writes every module with its target's own."""
        bits = bits_of((self.kit / 'module.bc').read_bytes())
        known, other = (record(LAYOUT_RECORD, layout) for layout in (LAYOUT, LAYOUT.replace('i64:64', 'i64:32')))
        self.assertEqual(bits.count(known), 1)
        bits = bits.replace(known, other)
        (self.kit / 'module.bc').write_bytes(bytes(int(bits[at:at + 8][::-1], 2) for at in range(0, len(bits), 8)))
        self.assertStops(f'the module has another data layout than {LAYOUT}')

    def test_a_compiler_without_the_target(self):
        self.changed(self.bin / 'clang', 'exec', 'case $1 in *riscv64*) echo no such target; exit 1;; esac\nexec')
        self.assertStops('the kit\'s compiler said: no such target')

    def test_a_compiler_that_warns(self):
        self.changed(self.bin / 'clang', 'exec', 'case $1 in *riscv64*) echo a warning;; esac\nexec')
        self.assertStops('the kit\'s compiler said: a warning')

    def test_flags_that_make_no_object(self):
        for flag in ('-emit-llvm', '-march=rv64zz', '--target=x86_64-unknown-linux-gnu'):
            with self.subTest(flag):
                self.assertStops('', flag)

    def test_a_core_that_has_doubles(self):
        for march, lp64d in {'rv64imc': 'rv64imc_d', 'rv64i_zmmul': 'rv64i_zmmul_d', 'rv64gc': 'rv64gc', 'rv64imafdc_zba': 'rv64imafdc_zba'}.items():
            with self.subTest(march):
                run = self.build(f'-march={march}', '-O3')
                self.assertEqual(run.stdout, f'target/handset/lp64/libtufakpeni.a: {march} -O3, from the module that was proved\n'
                                             f'target/handset/lp64d/libtufakpeni.a: {lp64d} -O3, from the module that was proved\n')

    def test_no_compiler(self):
        (self.bin / 'clang').unlink()
        self.assertStops('the kit has no compiler at')

    def test_an_earlier_archive_is_not_left(self):
        self.build()
        (self.bin / 'clang').unlink()
        self.assertStops('the kit has no compiler at')

    def test_the_module_is_kept_as_long_as_no_source_changes(self):
        asked = self.root / 'crates/trace_c/out/asked'
        for times, source in enumerate(('one', 'two'), 1):
            self.put(self.root / 'crates/source', source)
            self.build()
            self.build('-march=rv64imc')
            self.assertEqual(asked.read_text(), 'asked\n' * times)

    def test_another_kept_module(self):
        self.build()
        kept, = self.root.glob('target/proved/*/module.bc')
        self.put_module(MODULE.replace('add i64 %a, 6', 'add i64 %a, 7'))
        shutil.copyfile(self.kit / 'module.bc', kept)
        self.assertStops(f'does not give the object of the kit\'s archive. It was kept in {kept.parent}: remove that folder')

    def test_a_kept_archive_that_is_cut_short(self):
        self.build()
        kept, = self.root.glob('target/proved/*/libtrace_c.a')
        kept.write_bytes(kept.read_bytes()[:100])
        self.assertStops(f'It was kept in {kept.parent}: remove that folder')

    def test_the_kit_is_not_copied(self):
        self.build()
        copied = [path for path in self.root.rglob('*') if path.name in ('clang', 'rt', 'llvm-ar')]
        self.assertEqual(copied, [])


if __name__ == '__main__':
    unittest.main()
