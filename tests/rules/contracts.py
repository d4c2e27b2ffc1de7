"""The functions of the crates with the text of their contracts, and which of them are public."""
import re
from dataclasses import dataclass
from functools import lru_cache
from pathlib import Path

ROOT = Path(__file__).resolve().parent.parent.parent

HEAD = re.compile(r'^ *(pub(?:\(crate\))? )?(?:const |unsafe |extern "C" )*fn (\w+)', re.M)
# Before a clause's brace: its word, and its name where it has one.
CLAUSE = re.compile(r'\b(requires|ensures)\b\*?(?: +\w+)?\s*$')
MODULE = re.compile(r'^(pub )?mod (\w+);', re.M)
ENUM = re.compile(r'^pub(?:\(crate\))? enum (\w+) \{(.*?)^\}', re.M | re.S)
COMMENT = re.compile(r'//.*')
RETURNED = re.compile(r'->\s*(.*)$', re.S)
LENT = re.compile(r"(\w+):\s*&(?:'\w+ )?mut\b")
RESULT = re.compile(r'\bresult\b')
CONVERSION = re.compile(r'^impl (?:Try)?From<.*> for \w\S* \{$', re.M)
GIVES = re.compile(r'^    ghost (?:try_)?from_gives = \{ (.*) \};$', re.M)


@dataclass
class Function:
    """A function: its place, its parameters and result as written, and the clauses of its contract."""
    place: str
    public: bool
    name: str
    signature: str
    requires: list
    ensures: list

    def returned(self):
        """The type of its result."""
        found = RETURNED.search(self.signature)
        return found[1].strip() if found else '()'

    def lent(self):
        """The parameters that it may write to."""
        return LENT.findall(self.signature)

    def promised(self):
        """All that it promises, as one text."""
        return '\n'.join(self.ensures)

    def gives_result(self):
        """Whether what it promises speaks of the result."""
        return bool(RESULT.search(self.promised()))


def braced(text, at):
    """The text in the braces that open at `at`, and the place behind them."""
    depth = 0
    for k in range(at, len(text)):
        depth += {'{': 1, '}': -1}.get(text[k], 0)
        if depth == 0:
            return text[at + 1:k], k + 1
    raise ValueError('a brace is not closed')


def functions_in(text, place):
    """The functions of one file."""
    text = COMMENT.sub('', text)
    for head in HEAD.finditer(text):
        at = text.index('{', head.end())
        clauses, signature = {'requires': [], 'ensures': []}, text[head.end():at]
        # A brace behind a clause's word, or behind its name, is the clause's; another one opens the body.
        while clause := CLAUSE.search(signature):
            signature = signature[:clause.start()]
            words, behind = braced(text, at)
            clauses[clause[1]].append(words.strip())
            at = text.index('{', behind)
            signature += text[behind:at]
        yield Function(place, head[1] == 'pub ', head[2], signature.strip(), clauses['requires'], clauses['ensures'])


def public_files(folder):
    """The files of a crate that other crates can call into."""
    todo = [(folder / 'lib.rt', folder)]
    while todo:
        path, below = todo.pop()
        if path.exists():
            yield path
            todo += [(below / f'{name}.rt', below / name) for public, name in MODULE.findall(path.read_text()) if public]


def libraries(root=ROOT):
    """The source folders of the crates that are libraries."""
    return sorted(lib.parent for lib in (root / 'crates').glob('*/src/lib.rt'))


def public_functions(root=ROOT):
    return [f for folder in libraries(root) for path in public_files(folder)
            for f in functions_in(path.read_text(), str(path.relative_to(root))) if f.public]


def conversions(root=ROOT):
    """Each conversion of the libraries: its first line, and what it says of its result, an empty text where it says nothing."""
    for folder in libraries(root):
        for path in sorted(folder.rglob('*.rt')):
            text = COMMENT.sub('', path.read_text())
            for head in CONVERSION.finditer(text):
                gives = GIVES.search(text, head.end(), text.index('\n}', head.end()))
                yield f'{path.relative_to(root)}: {head[0]}', gives[1] if gives else ''


@lru_cache(maxsize=None)
def promising(path):
    """The functions of a file that have a contract."""
    return {f.name for f in functions_in(path.read_text(), str(path)) if f.ensures}


def enums(root=ROOT):
    """Each enum of the library with its cases as written."""
    texts = (COMMENT.sub('', p.read_text()) for folder in libraries(root) for p in folder.rglob('*.rt'))
    return {name: cases for text in texts for name, cases in ENUM.findall(text)}


def fields_of(root, record):
    """The fields of a record of the specs, each with its type."""
    for path in sorted((root / 'crates').glob('*/specs/*.antt')):
        found = re.search(rf'^pub record {re.escape(record)} .*\n((?:  .*\n)*)', path.read_text(), re.M)
        if found:
            return re.findall(r'^  pub (\S+) : (.*)', found[1], re.M)
    return []
