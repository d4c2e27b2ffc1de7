"""What a module may hold that was made for x86-64 and is compiled for another core: whole numbers, memory and jumps, the layout of numbers that both
have, and nothing else. What is not known here stops the build, so that somebody looks at it first."""
import re

from kit import COMPILE, Stop

# 64-bit places, low byte first, each number aligned to its own size: as RISC-V's lp64 has them.
LAYOUT = 'e-m:e-p270:32:32-p271:32:32-p272:64:64-i64:64-i128:128-f80:128-n8:16:32:64-S128'
LAYOUT_RECORD = 3
# A processor that is not RISC-V's is passed over; stack probes are a matter of each target's own.
ATTRIBUTE = re.compile(r'"[^"]*"(?:="[^"]*")?')
KNOWN_ATTRIBUTES = {'"probe-stack"="inline-asm"', '"stack-probe-size"="3072"', '"target-cpu"="x86-64"'}
QUOTED = re.compile(r'"[^"]*"')
# Comments, names of places, values, functions, attributes' numbers and labels: they say nothing by themselves.
NAMES = re.compile(r';.*|[%@#$][-\w.$"]*|^[-\w.$"]+:', re.M)
WORD = re.compile(r'(?<![\w.])!?[a-zA-Z_][\w.]*')
# Operations, kinds, attributes and all else that a module is written in. Whole numbers of 64 bits at most.
KNOWN_WORDS = set('add sub mul udiv sdiv urem srem shl lshr ashr and or xor icmp select phi trunc zext sext freeze extractvalue insertvalue '
                  'alloca load store getelementptr br switch ret call unreachable eq ne ult ule ugt uge slt sle sgt sge nuw nsw inbounds '
                  'source_filename target datalayout triple define declare internal attributes void ptr null i1 i8 i16 i32 i64 x to label true false '
                  'align byval noundef zeroext noinline nounwind nocallback nofree willreturn memory argmem write readwrite readonly writeonly captures none immarg '
                  'private unnamed_addr constant c zeroinitializer !llvm.ident !noundef !range '
                  # where code is put; a stop behind what the proof excludes, of which the archives have none (tests/archive)
                  'alwaysinline cold noreturn inaccessiblemem'.split())
# Vectors, stored data but for constant bytes, names of elsewhere; a short struct that x86-64 has on its stack and RISC-V in registers.
UNKNOWN = re.compile(r'<\d+ x |^@(?!\S+ = private unnamed_addr constant \[\d+ x i8\] (?:c""|zeroinitializer), align 1$).*|^declare (?!.*@llvm\.(?:mem(?:move|cpy|set)\.p0\.|trap\(\))).*|byval\(\[(?:\d|1[0-6]) x i8\]\)', re.M)
AS_TEXT = ['--target=x86_64-unknown-linux-gnu', '-S', '-emit-llvm', '-Xclang', '-disable-llvm-passes', *COMPILE[1:]]


def sixes(number):
    """A number as a bitcode file has it: five bits at a time, the low ones first, each time a bit that says whether more follow."""
    bits = f'{number & 31:05b}'[::-1]
    return bits + ('1' + sixes(number >> 5) if number > 31 else '0')


def bits_of(module):
    return ''.join(f'{byte:08b}'[::-1] for byte in module)


def record(code, text):
    """The bits of a record that holds a text: its code, how many bytes, and each byte."""
    return ''.join(map(sixes, [code, len(text), *text.encode()]))


def check(kit, module):
    """Stops where a module has what is not known to mean the same on another core."""
    # Read from the module itself: the compiler prints every module with its target's layout, whatever the module says.
    if record(LAYOUT_RECORD, LAYOUT) not in bits_of(module):
        raise Stop(f'the module has another data layout than {LAYOUT}')
    text = kit.object_of(module, AS_TEXT).decode()
    attributes = {found for line in text.splitlines() if line.startswith('attributes ') for found in ATTRIBUTE.findall(line)}
    bare = QUOTED.sub('""', text)
    words = set(WORD.findall(NAMES.sub('', bare)))
    unknown = (attributes - KNOWN_ATTRIBUTES) | (words - KNOWN_WORDS) | set(UNKNOWN.findall(bare))
    if unknown:
        raise Stop(f'the module has what may mean something else on another core: {", ".join(sorted(unknown))}')
