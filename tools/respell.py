"""Brings the repository's own definitions and lemmas to the spelling of the Rattle of 2026-11: words in snake case, types and
modules in camel case; in a lemma's name a dash joins two names, and a plain word is added with `_`.

Run once at the top, after the toolchain's own port script. Functions, exported C names, strings, inputs and outputs keep their names.
"""
import collections
import glob
import re

IDENT = r"[A-Za-z_][A-Za-z0-9_'₀-₉-]*"
TOKEN = re.compile(r"(?<![A-Za-z0-9_'₀-₉-])" + IDENT)
# names of the library that the lemmas' names are made of
LIBRARY = set("""length append drop take get_or set map filter concatMap replicate number bytes field le lt add sub mul div mod pow cond
some none accepted refused next toEnd inl inr zero suc nil cons ap sum""".split())
# what the library and the check name themselves
KIT = {"walk_Meets", "shr_slice_Tells", "mut_slice_Tells", "uint_Makes"}


def files_of(*patterns):
    return sorted({f for p in patterns for f in glob.glob(p, recursive=True)})


def bare(text):
    """the text without imports of the library and comments"""
    lines = []
    for line in text.split("\n"):
        if line.startswith("use ") or line.startswith("ghost use "):
            continue
        lines.append(re.sub(r"--.*", "", line))
    return "\n".join(lines)


def snake(name):
    s = re.sub(r"(?<=[a-z0-9'₀-₉])([A-Z])", r"_\1", name)
    return s.lower()


def declared(text):
    """names that a file declares: definitions, fields, constructors, bound variables"""
    found = set()
    for m in re.finditer(r"(?m)^\s*(?:pub |abbrev |unfoldable |let |in )*(" + IDENT + r") :", text):
        found.add(m.group(1))
    for m in re.finditer(r"[({]((?:" + IDENT + r" )+): ", text):
        found.update(m.group(1).split())
    for m in re.finditer(r"λ ([^.λ]+)\.", text):
        found.update(re.findall(IDENT, m.group(1)))
    return found


def functions(text):
    """definitions that are no lemmas: marked to unfold, fields and constructors"""
    return set(re.findall(r"(?m)^\s*(?:pub )?(?:abbrev |unfoldable )(?:pub )?(" + IDENT + r") :", text)) | set(
        re.findall(r"(?m)^  (?:pub )?(" + IDENT + r") : [^=]*$", text)
    )


def dashed(name, names):
    parts = name.split("-")
    out = parts[0]
    for i in range(1, len(parts)):
        left = any("_".join(parts[k:i]) in names for k in range(i))
        right = any("_".join(parts[i:k]) in names for k in range(i + 1, len(parts) + 1))
        out += ("-" if left and right else "_") + parts[i]
    return out


def main():
    laws = files_of("crates/*/specs/*.antt", "crates/*/proofs/*.antt")
    proofs = [f for f in files_of("crates/*/proofs/**/*.antt") if f not in laws]
    sources = files_of("crates/*/src/**/*.rt")
    law_text = {f: bare(open(f).read()) for f in laws}
    proof_text = {f: bare(open(f).read()) for f in proofs}
    own = set().union(*(declared(t) for t in law_text.values()))
    local = set().union(*(declared(t) for t in proof_text.values()))
    names = LIBRARY | set().union(*(functions(t) for t in law_text.values()))
    names = {snake(n) for n in names if "-" not in n}
    taken = collections.Counter()
    for f in laws + proofs + sources:
        taken.update(set(TOKEN.findall(open(f).read())))
    mapping = {}
    for n in sorted(own | local):
        if re.match(r"[a-z]", n) and re.search(r"[A-Z]", n) and n not in KIT and "-" not in n:
            mapping[n] = snake(n)
    made = set(mapping.values())
    # lemmas that a definition's new name would fall together with
    lemmas = {n for n in made if n in own | local}
    for n in sorted(own):
        if "-" in n and re.match(r"[a-z]", n):
            parts = "-".join(mapping.get(p, p) if re.match(r"[a-z]", p) else p for p in n.split("-"))
            new = dashed(parts, names)
            if new == n:
                continue
            if new in made or (new in taken and new != n):
                print("falls together:", n, new)
                new += "_lem"
            mapping[n] = new
            made.add(new)
    for n in sorted(lemmas):
        print("a lemma of a definition's name:", n, n + "_lem")
    back = collections.defaultdict(list)
    for old, new in mapping.items():
        back[new].append(old)
    for new, olds in back.items():
        if len(olds) > 1:
            print("two of one name:", new, olds)

    def swap(m):
        return mapping.get(m.group(0), m.group(0))

    def swap_lemmas(m):
        path = m.string[m.start() - 1 : m.start()] == "."
        return m.group(0) + "_lem" if m.group(0) in lemmas and not path else m.group(0)

    for f in laws + proofs:
        text = open(f).read()
        new = TOKEN.sub(swap_lemmas, text)
        if new != text:
            open(f, "w").write(new)

    for f in laws + proofs + sources + files_of("crates/*/must-fail/*.edit"):
        text = open(f).read()
        new = "".join(p if k % 2 else TOKEN.sub(swap, p) for k, p in enumerate(re.split(r'("[^"\n]*")', text))) if f.endswith(".rt") else TOKEN.sub(swap, text)
        if new != text:
            open(f, "w").write(new)
    for f in files_of("README.md", "docs/*.md", "docs/changes/*.md"):
        text = open(f).read()
        new = "".join(TOKEN.sub(swap, p) if k % 2 else p for k, p in enumerate(re.split(r"(`[^`\n]*`)", text)))
        if new != text:
            open(f, "w").write(new)
    print(len(mapping), "names respelled")


if __name__ == "__main__":
    main()
