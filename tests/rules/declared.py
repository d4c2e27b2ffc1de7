"""What a file declares, by its language. A name that stands only in a comment is none."""
import os
import re
from functools import lru_cache
from pathlib import Path

RUST = r'^\s*(?:pub(?:\([a-z]+\))?\s+)?(?:(?:unsafe|const|extern\s+"C")\s+)*(?:fn|struct|enum|const|static|type|trait|mod)\s+(\w+)'
LANGUAGES = {
    # a declaration `name : type`, a record, a data type; a record's fields and a data type's cases are such too
    'antt': (r'--.*', [r'^\s*(?:(?:abbrev|unfoldable|pub)\s+)*([^\s:(){}]+)\s+:(?:\s|$)', r'^\s*(?:pub\s+)?(?:record|data)\s+([^\s:(){}]+)']),
    'rt': (r'//.*', [RUST]),
    'rs': (r'//.*', [RUST, r'^macro_rules!\s+(\w+)']),
    'py': (r'(?:^|\s)#.*', [r'^\s*(?:def|class)\s+(\w+)', r'^([A-Z_]+)\s*=']),
    'c': (r'/\*.*?\*/', [r'^\w[\w\s*]*?[\s*](\w+)\(', r'^#define\s+(\w+)']),
    'sh': (r'(?:^|\s)#.*', [r'^(\w+)\(\)']),
}
LANGUAGES = {name: (re.compile(comment, re.M | re.S if name == 'c' else re.M), [re.compile(p, re.M) for p in patterns])
             for name, (comment, patterns) in LANGUAGES.items()}
SOURCES = ('crates', 'tests', 'bindings', 'examples', 'include')
# What builds make beside the sources.
MADE = ('out', 'target')


def language_of(path):
    """The language of a file, None where it has no declarations, as a table of cases or a document."""
    if path.suffix:
        name = {'.h': 'c'}.get(path.suffix, path.suffix[1:])
        return name if name in LANGUAGES else None
    with path.open('rb') as file:
        first = file.readline()
    return 'py' if b'python' in first else 'sh' if first.startswith(b'#!') else None


@lru_cache(maxsize=None)
def without_comments(path):
    """A file's text, its comments left out where its language is known."""
    language = language_of(path)
    return LANGUAGES[language][0].sub('', path.read_text()) if language else path.read_text()


@lru_cache(maxsize=None)
def declared_in(path):
    """The names that a file declares, None where its language has none."""
    language = language_of(path)
    if language is None:
        return None
    return {name for pattern in LANGUAGES[language][1] for name in pattern.findall(without_comments(path))}


def sources(root):
    found_files = []
    for folder in SOURCES:
        for at, folders, names in os.walk(root / folder):
            folders[:] = [name for name in folders if name not in MADE]
            found_files += [Path(at, name) for name in names]
    return sorted(found_files)


def elsewhere(root, name, file):
    """The files of the same language that declare a name: where it may have moved to."""
    return [str(p.relative_to(root)) for p in sources(root) if p.suffix == file.suffix and name in (declared_in(p.resolve()) or ())]


def files_called(root, name):
    """The files of that name: where a file may have moved to."""
    return [str(p.relative_to(root)) for p in sources(root) if p.name == name]


@lru_cache(maxsize=None)
def found(root, path):
    """The file that a path of docs/RULES.md names, from the root or from crates/."""
    for place in (root / path, root / 'crates' / path):
        if place.exists():
            return place.resolve()
    return None
