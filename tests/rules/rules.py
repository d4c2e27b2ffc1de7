"""docs/RULES.md read and checked: against the papers in docs/papers, and against the files that it names.

`python3 tests/rules/rules.py` prints each fault with its line."""
import re
import sys
from dataclasses import dataclass, field
from pathlib import Path

from contracts import promising
from declared import declared_in, elsewhere, files_called, found, without_comments
from papers import LANDED, Heading, demanded

ROOT = Path(__file__).resolve().parent.parent.parent
RULES = 'docs/RULES.md'

# What may hold a sentence. `context` and `open` hold nothing.
CITING = ('proved', 'run', 'form')
WORDS = CITING + ('read', 'context', 'open')
OPEN = 'What nothing holds'
READ = "What only a reader's eye holds"

TICKED = re.compile(r'`([^`]+)`')
CASE = re.compile(r'"([^"]+)" in `([^`]+)`')
ITEM = re.compile(r'^- "([^"]+)"')
HOLDER = re.compile(r'^- (\w+): (.*)')
REQUEST = re.compile(r'\bC-\d+')

# What the gate runs: folders of tests, which .ci/run names, edits that must fail, and programs with their input and output.
TESTS = re.compile(r'^tests/[a-z]+|^bindings/rust')
PROGRAM = re.compile(r'^(?:crates/)?[a-z_]+/(?:must-fail/\w+\.edit|stdin|stdout)$')

# How far behind a fault the next sentence is looked for.
AHEAD = 20


@dataclass
class Holder:
    line: int
    word: str
    text: str


@dataclass
class Entry:
    """A heading or a quote of a paper, with what holds it."""
    line: int
    text: str
    heading: bool = False
    holders: list = field(default_factory=list)

    def words(self):
        return {holder.word for holder in self.holders}


class Rules:
    """The text of docs/RULES.md: each paper's entries, and the lists at the top."""

    def __init__(self, text):
        self.papers, self.lists, self.faults = {}, {}, []
        entries = items = None
        for line, words in enumerate(text.splitlines(), 1):
            if words.startswith('## '):
                name = words[3:].strip()
                entries, items = None, None
                if name.endswith('.md'):
                    entries = self.papers.setdefault(name, [])
                else:
                    items = self.lists.setdefault(name, [])
            elif entries is not None:
                self.entry(entries, line, words)
            elif items is not None and ITEM.match(words):
                items.append((line, ITEM.match(words)[1]))

    def entry(self, entries, line, words):
        last = entries[-1] if entries else None
        if words.startswith('### '):
            entries.append(Entry(line, words[4:].strip(), heading=True))
        elif words.startswith('> '):
            entries.append(Entry(line, words[2:].strip()))
        elif words.startswith('- '):
            holder = HOLDER.match(words)
            if not holder or holder[1] not in WORDS or last is None or last.heading:
                self.faults.append((line, f'a line `- WORD: ...` under a quote is expected, WORD one of {", ".join(WORDS)}'))
            else:
                last.holders.append(Holder(line, holder[1], holder[2]))
        elif words.startswith('  ') and last is not None and last.holders:
            last.holders[-1].text += ' ' + words.strip()

    def entries(self):
        return (entry for entries in self.papers.values() for entry in entries if not entry.heading)


def takes(sentence, entries, at):
    """Where the entries that quote a sentence end: one, or several that quote it part by part; None where they do not."""
    quoted = ''
    while at < len(entries) and not entries[at].heading:
        quoted = f'{quoted} {entries[at].text}'.strip()
        at += 1
        if quoted == sentence:
            return at
        if not sentence.startswith(quoted):
            break
    return None


def reached(unit, entries, at):
    """Where the entries of a heading or a sentence end, None where they do not stand at `at`."""
    if isinstance(unit, Heading):
        return at + 1 if at < len(entries) and entries[at].heading and entries[at].text == unit else None
    return takes(unit, entries, at)


def in_order(paper, units, entries, end):
    """The faults of a paper's entries: each unit must be quoted, word for word and in order."""
    at = 0
    for unit, later in zip(units, units[1:] + [None]):
        behind = reached(unit, entries, at)
        if behind is not None:
            at = behind
            continue
        what = 'heading' if isinstance(unit, Heading) else 'sentence'
        yield entries[at].line if at < len(entries) else end, f'here the {what} of {paper} is to stand: {unit}'
        # What stands in its place is passed over, up to the next sentence.
        at = next((k for k in range(at, min(at + AHEAD, len(entries))) if later and reached(later, entries, k)), at)
    for entry in entries[at:]:
        yield entry.line, f'this is no further sentence of {paper}: {entry.text}'


def citations(text):
    """The names and paths of a holder: pairs (name, path), the name None where a file stands as a whole. A name's path is the next."""
    names = []
    for token in TICKED.findall(text):
        if '/' in token or token.endswith(('.md', '.txt')):
            yield from [(name, token) for name in names] or [(None, token)]
            names = []
        else:
            names.append(token)
    yield from [(name, None) for name in names]


def awaited(holder):
    """The requests that a sentence waits for: until one has landed the sentence is context."""
    return REQUEST.findall(holder.text) if holder.word == 'context' else []


def is_run(root, path):
    """Whether the gate runs a file. This folder's tests are asked for by the gate alone."""
    folder = TESTS.match(path)
    return bool(PROGRAM.match(path) or folder and (folder[0] == 'tests/rules' or folder[0] in (root / '.ci/run').read_text()))


def cited(root, holder):
    """The faults of what a holder cites."""
    pairs = list(citations(holder.text))
    if holder.word in CITING and not pairs:
        yield f'`{holder.word}` names nothing'
    for name, path in pairs:
        file = path and found(root, path)
        if path is None:
            yield f'`{name}` has no file behind it'
        elif file is None:
            moved = files_called(root, Path(path).name)
            yield f'there is no file {path}' + (f'; there is {", ".join(moved)}' if moved else '')
        elif name is not None and name not in (declared_in(file) or ()):
            moved = elsewhere(root, name, file)
            yield f'`{name}` is not declared in {path}' + (f'; it is declared in {", ".join(moved)}' if moved else '; it is declared nowhere')
        elif holder.word == 'run' and not is_run(root, path):
            yield f'{path} is nothing that the gate runs'
        elif name is not None and holder.word == 'proved' and file.suffix == '.rt' and name not in promising(file):
            yield f'`{name}` in {path} has no contract'
    for words, path in CASE.findall(holder.text):
        file = found(root, path)
        if file is not None and ' '.join(words.split()) not in ' '.join(without_comments(file).split()):
            yield f'"{words}" does not stand in {path}'


def listed(rules, title, wanted):
    """The faults of a list at the top: it names just the entries that are wanted there, by words of their quotes."""
    items = rules.lists.get(title)
    if items is None:
        yield 1, f'the part "{title}" is missing'
        return
    for entry in wanted:
        if not any(words in entry.text for _, words in items):
            yield entry.line, f'this is not listed under "{title}": {entry.text}'
    for line, words in items:
        if not any(words in entry.text for entry in wanted):
            yield line, f'this is listed under "{title}", and no such sentence is: {words}'


def faults(root=ROOT, landed=LANDED):
    """Every fault of docs/RULES.md, as `FILE:LINE: what is wrong`."""
    text = (root / RULES).read_text()
    rules = Rules(text)
    found_faults = list(rules.faults)
    end = text.count('\n') + 1
    for paper, units in demanded(root / 'docs/papers', landed):
        found_faults += in_order(paper, units, rules.papers.get(paper, []), end)
    for entry in rules.entries():
        if not entry.holders:
            found_faults.append((entry.line, f'nothing is said of: {entry.text}'))
        for holder in entry.holders:
            found_faults += [(holder.line, fault) for fault in cited(root, holder)]
            found_faults += [(holder.line, f'{request} has landed') for request in awaited(holder) if request in landed]
    found_faults += listed(rules, OPEN, [e for e in rules.entries() if 'open' in e.words()])
    found_faults += listed(rules, READ, [e for e in rules.entries() if e.words() == {'read'}])
    return [f'{RULES}:{line}: {fault}' for line, fault in sorted(found_faults)]


if __name__ == '__main__':
    told = faults()
    for fault in told:
        print(fault)
    print(f'{len(told)} faults; requests that have landed: {", ".join(LANDED) or "none"}')
    sys.exit(bool(told))
