"""The papers in docs/papers, as the headings and sentences that docs/RULES.md must quote.

A paper's line is a heading (`#` at its start), a row of a table, a line of a code block, an item of a list or a
paragraph. Marks of quotes and lists (`>`, `-`, `1.`) are left out, and so is a table's head, its first two rows.
A row and a line of code are a sentence each. An item and a paragraph end a sentence at each full stop that follows a
word and has a space or nothing behind it, and at their own end."""
import re
from pathlib import Path

PAPERS = Path(__file__).resolve().parent.parent.parent / 'docs' / 'papers'

# The requests of document 02 that have landed. With its landing a request is named here, and its sentences are demanded.
LANDED = ('C-11', 'C-13', 'C-14', 'C-15', 'C-18', 'C-19', 'C-20')

QUOTE = re.compile(r'^>\s?')
MARK = re.compile(r'^(?:-|\d+\.)\s+')
DEMAND = re.compile(r'^> \d+\. ')
REQUEST = re.compile(r'^\*\*(C-\d+)\. (.*?)\*\* ')
END = re.compile(r'(?<=[^\s.])\.(?=\s|$)')


class Heading(str):
    """A heading of a paper, without its marks."""


class Sentence(str):
    """A sentence of a paper, word for word."""


def sentences_in(text):
    """The sentences of one paragraph or item."""
    start = 0
    for stop in END.finditer(text):
        yield Sentence(text[start:stop.end()].strip())
        start = stop.end()
    if text[start:].strip():
        yield Sentence(text[start:].strip())


def units_of(text):
    """The headings and sentences of a paper, in its order."""
    coded, head = False, 2
    for line in text.splitlines():
        line = QUOTE.sub('', line).strip()
        if line.startswith('```'):
            coded = not coded
        elif coded:
            yield Sentence(line)
        elif line.startswith('#'):
            yield Heading(line.lstrip('#').strip())
        elif line.startswith('|'):
            head -= 1
            if head < 0:
                yield Sentence(line)
            continue
        else:
            yield from sentences_in(MARK.sub('', line))
        head = 2


def demands(text):
    """The mission as far as it is demanded: its three demands."""
    return [unit for line in text.splitlines() if DEMAND.match(line) for unit in units_of(line)]


def requests(text, landed):
    """The requests that have landed, each with its name for a heading."""
    for line in text.splitlines():
        request = REQUEST.match(line)
        if request and request[1] in landed:
            yield Heading(f'{request[1]}. {request[2]}')
            yield from sentences_in(line[request.end():])


def demanded(folder=PAPERS, landed=LANDED):
    """Each paper's name with what docs/RULES.md must quote of it."""
    def text(name):
        return (folder / name).read_text()

    scope = [unit for unit in units_of(text('01-scope.md'))][1:]
    return [
        ('00-mission.md', demands(text('00-mission.md'))),
        ('01-scope.md', scope),
        ('02-change-requests.md', list(requests(text('02-change-requests.md'), landed))),
    ]
