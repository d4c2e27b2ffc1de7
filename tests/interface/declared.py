"""Structs, calls and refusals as Rust and Rattle declare them, in the header's words."""
import re

from header import ROOT

STRUCT = re.compile(r'#\[repr\(C\)\]\s*(?:#\[[^\]]*\]\s*)*(?:pub )?struct (\w+) \{([^}]*)\}')
CALL = re.compile(r'\bfn (tfk_\w+)\(([^)]*)\) -> (\w+)')
MEMBER = re.compile(r'(?:pub )?(\w+): ([^,;]+(?:; \d+\])?),?')
CASES = re.compile(r'\benum Refusal \{(.*?)\n\}', re.S)
CASE = re.compile(r'^    (\w+)(?: = (\d+))?,$', re.M)
ARM = re.compile(r'Refusal::(\w+) => (\d+),')
NUMBERS = {
    'u8': 'uint8_t', 'u16': 'uint16_t', 'u32': 'uint32_t', 'u64': 'uint64_t', 'i64': 'int64_t', 'usize': 'size_t',
}
# The one struct that has another name in C.
NAMES = {'FrameRecord': 'Frame'}


def c_type(kind):
    """The header's word for a type."""
    array = re.fullmatch(r'\[(\w+); (\d+)\]', kind)
    if array:
        return f'{c_type(array[1])}[{array[2]}]'
    pointer = re.fullmatch(r'\*(const|mut) (\w+)', kind)
    if pointer:
        return f'{"const " if pointer[1] == "const" else ""}{c_type(pointer[2])} *'
    return NUMBERS.get(kind) or f'tfk_{words(NAMES.get(kind, kind)).lower()}'


def words(name):
    """A name of Rust's with an underscore between its words."""
    return '_'.join(re.findall('[A-Z][a-z]+', name))


def parameters(text):
    """Each parameter's name and type; a slice is a pointer and a length."""
    for name, kind in MEMBER.findall(text):
        lent = re.fullmatch(r'&(mut )?\[(\w+)\]', kind)
        if lent:
            yield name, c_type(f'*{"mut" if lent[1] else "const"} {lent[2]}')
            yield f'{name}_length', 'size_t'
        else:
            yield name, c_type(kind)


def once(pairs):
    """Pairs as a mapping; no name may stand twice."""
    found = dict(pairs)
    if len(found) < len(pairs):
        raise ValueError(f'declared twice, among {", ".join(name for name, _ in pairs)}')
    return found


def declared(*sources):
    """The structs and the calls that these files declare, each as the header's reading has them."""
    text = ''.join((ROOT / source).read_text() for source in sources)
    structs = once([(c_type(name), [(field, c_type(kind)) for field, kind in MEMBER.findall(fields)])
                    for name, fields in STRUCT.findall(text)])
    calls = once([(name, (c_type(answer), list(parameters(given)))) for name, given, answer in CALL.findall(text)])
    return structs, calls


def refusals(source):
    """Each refusal's name in the header and its number: the one that stands with the case or in an arm of the function for it, else its place, from 1 on."""
    text = (ROOT / source).read_text()
    arms = dict(ARM.findall(text))
    cases = CASE.findall(CASES.search(text)[1])
    return once([(f'TFK_{words(name).upper()}', int(number or arms.get(name, place))) for place, (name, number) in enumerate(cases, 1)])
