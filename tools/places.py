#!/usr/bin/env python3
"""Counts the places of docs/DESIGN-PASS.md: python3 tools/places.py [1 .. 8] at the repository's top, for some points or for all.

Each place is a line `path:line name`, behind it what was found there; each part ends with its total, and the last lines are the totals of all.
`--short` prints names by crates, `--totals` the totals alone, `--list` every public constant and function with its contract, and every type.

It goes by text: by shapes where a shape tells, else by lists of names (READ) that a reader of crates/*/src made at the commit which the page begins
with. Of a list it prints the names that still stand, so a name that goes is a place that went; a new place shows in the parts that go by shape.
"""

import difflib
import glob
import itertools
import re
import sys
from collections import defaultdict
from dataclasses import dataclass, field



@dataclass
class Function:
    crate: str
    path: str
    line: int
    name: str
    owner: str  # the impl or trait that it stands in
    public: bool
    exported: bool
    sign: str  # from `(` or `<` to the answer's type
    params: list  # (name, type)
    answer: str
    requires: list
    ensures: list
    body: str  # without comments
    body_line: int


@dataclass
class Type:
    crate: str
    path: str
    line: int
    word: str  # struct or enum
    name: str
    public: bool
    attributes: list
    text: str
    parts: list = field(default_factory=list)  # (name, what it carries)


def blank(t):
    """The text with comments and strings blanked, of the same length."""
    out = list(t)
    for m in re.finditer(r'//[^\n]*|b?"(?:\\.|[^"\\])*"|\'(?:\\.[^\']*|[^\'\\\n])\'', t):
        for k in range(*m.span()):
            if out[k] != "\n":
                out[k] = " "
    return "".join(out)


def closing(t, i):
    """Behind the bracket that closes the one at i."""
    pairs = {"(": ")", "{": "}", "[": "]"}
    a, b, deep = t[i], pairs[t[i]], 0
    for k in range(i, len(t)):
        deep += (t[k] == a) - (t[k] == b)
        if not deep:
            return k + 1
    return len(t)


def squeeze(s):
    return re.sub(r"\s+", " ", s).strip()


def split(s, at=","):
    """The parts of s between commas that stand in no bracket."""
    parts, deep, last = [], 0, 0
    for k, c in enumerate(s):
        if c in "([{<":
            deep += 1
        elif c in ")]}" or (c == ">" and s[k - 1] not in "-="):
            deep -= 1
        elif c == at and deep == 0:
            parts.append(s[last:k])
            last = k + 1
    parts.append(s[last:])
    return [squeeze(p) for p in parts if p.strip()]


def function(crate, path, raw, t, m, owner):
    i = t.index("(", m.end())
    j = closing(t, i)
    params = [tuple(squeeze(x) for x in p.split(":", 1)) if ":" in p else (p, "") for p in split(raw[i + 1 : j - 1])]
    requires, ensures, k, sign_end = [], [], j, None
    while k < len(t) and t[k] not in "{;":
        c = re.compile(r"\b(requires|ensures)\b[^{]*").match(t, k)
        if c:
            sign_end = sign_end or k
            e = closing(t, c.end())
            (requires if c[1] == "requires" else ensures).append((squeeze(c[0][len(c[1]) :]), squeeze(raw[c.end() + 1 : e - 1])))
            k = e
        else:
            k = closing(t, k) if t[k] in "([" else k + 1
    sign_end = sign_end or k
    body = t[k : closing(t, k)] if t[k : k + 1] == "{" else ""
    answer = re.search(r"->\s*(.*)", squeeze(raw[j:sign_end]))
    line = t.count("\n", 0, m.start()) + 1
    sign = squeeze(raw[m.start() : sign_end])
    code = re.sub(r"//[^\n]*", lambda c: " " * len(c[0]), raw[k : k + len(body)])
    return Function(crate, path, line, m["name"], owner, bool(m["pub"]) and "crate" not in m["pub"], 'extern "C"' in raw[m.start() : m.end()], sign, params, answer[1] if answer else "", requires, ensures, code, t.count("\n", 0, k) + 1)


FN = re.compile(r'(?P<pub>pub(?:\([a-z]+\))?\s+)?(?:(?:const|unsafe|extern(?:\s+"C"|\s+   )?)\s+)*fn\s+(?P<name>\w+)')
TYPE = re.compile(r"(?P<pub>pub(?:\([a-z]+\))?\s+)?(?P<word>struct|enum)\s+(?P<name>\w+)")


def read(pattern="crates/*/src/**/*.rt"):
    functions, types, files = [], [], {}
    for path in sorted(glob.glob(pattern, recursive=True)):
        raw = open(path, encoding="utf-8").read()
        files[path] = raw
        t = blank(raw)
        crate = path.split("/")[1]
        owners = []
        for m in re.finditer(r"^\s*(?:unsafe\s+)?(?:impl|(?:pub\s+)?trait)\b([^{;]*)\{", t, re.M):
            owners.append((m.start(), closing(t, m.end() - 1), squeeze(m[1])))
        for m in FN.finditer(t):
            owner = next((o[2] for o in owners if o[0] < m.start() < o[1]), "")
            functions.append(function(crate, path, raw, t, m, owner))
        for m in TYPE.finditer(t):
            k = m.end()
            while k < len(t) and t[k] not in "{;(":
                k += 1
            end = t.index(";", k) + 1 if t[k] in ";(" else closing(t, k)
            above = raw[: m.start()].rstrip("\n").split("\n")
            attributes = []
            while above and above[-1].strip().startswith("#["):
                attributes.insert(0, above.pop().strip())
            inner = re.sub(r"//[^\n]*", "", raw[k + 1 : end - 1])
            parts = []
            for p in split(inner):
                p = re.sub(r"^(?:#\[[^\]]*\]\s*)*(?:pub(?:\([a-z]+\))?\s+)?", "", p)
                n = re.match(r"\w+", p)
                parts.append((n[0] if n else "", squeeze(p[n.end() :]).lstrip(": ") if n else p))
            types.append(Type(crate, path, t.count("\n", 0, m.start()) + 1, m["word"], m["name"], bool(m["pub"]) and "crate" not in m["pub"], attributes, squeeze(raw[m.start() : end]), parts))
    return functions, types, files


SHOW = True
SHORT = False
TOTALS = []


def short(rows):
    """By crates: `crate: name, name`, and how often a name stands there."""
    by = defaultdict(lambda: defaultdict(int))
    for r in rows:
        for one in r.split("; crates/") if ": crates/" not in r else [r.split(": crates/", 1)[1]]:
            m = re.match(r"(?:crates/)?(\w+)/\S*\s(\S+?)(?::?\s|;|:?$)", one)
            if m:
                by[m[1]][m[2]] += 1
    return [f"{c}: " + ", ".join(n + (f" ({k})" if k > 1 else "") for n, k in names.items()) for c, names in by.items()]


def part(title, rows):
    """Prints the rows of a part, each once, and keeps its total."""
    if SHOW and SHORT:
        print(f"\n== {title}: {len(rows)}")
        for r in short(rows) if all(r.startswith("crates/") and "; crates/" not in r and ".antt: " not in r for r in rows) else [re.sub(r"crates/(\w+)/src/\S+ ", r"\1::", r) for r in rows]:
            print("- " + r)
    elif SHOW:
        print(f"\n== {title}")
        for r in rows:
            print("  " + r)
        print(f"  total {len(rows)}")
    TOTALS.append((title, len(rows)))


def owner(x):
    """The type of the impl that a function stands in: `KeptFrames` of `<'a> Iterator for KeptFrames<'a>`."""
    t = re.sub(r"^<[^>]*>\s*", "", getattr(x, "owner", ""))
    return re.sub(r"<.*$", "", t.split(" for ")[-1]).strip()


def at(x, more="", line=None):
    name = f"{owner(x)}::{x.name}" if owner(x) else x.name
    return f"{x.path}:{line or x.line} {name}" + (f": {more}" if more else "")


def lines_of(f, pattern):
    """The matches of a pattern in a function's body, each with its line."""
    return [(f.body_line + f.body.count("\n", 0, m.start()), m) for m in re.finditer(pattern, f.body)]


def is_c(t):
    return any("repr(C)" in a for a in t.attributes)


# The names that a reader found, "crate name name ..", with the module (`row.first`) where a crate has a name twice.
READ = {
    "no value told by a value": ["gdb_format digit_value", "gdb_cases table.digit byte table.part number_after with_byte file.first written", "gdb_blocks find_value", "gdb_table nothing refusal told_of", "dat_tail tail_at", "gdb_frames part_at part_of line", "gdb_blocks up_to_data registers memory", "gdb_seek frame_data", "gdb_pair pair_frame", "frame_list put_listing"],
    "equality, order, tests": ["byte_runs same", "fields begins", "gdb_format is_register is_status", "gdb_join is_marked", "gdb_select in_some is_valid stated", "dat_format is_long is_page", "dat_ranges ends_within"],
    "copying": ["byte_runs copy", "gdb_cases extended", "gdb_listing put_front put_byte", "gdb_select opposite"],
    "conversion": [
        "fields two four eight u16_in u32_in u64_in byte_at signed",
        "gdb_format format_in format_of radix_of most_digits digit_value size_in",
        "gdb_data kind_at",
        "gdb_read mark_length",
        "gdb_table told_of record_of",
        "dat_read bytes_of",
        "dat_walk flags_at body_of",
        "dat_tail word_at",
        "gdb_flat selection_in flat_selection flat_length flat_pair flat_count flat_table flat_mark kind_number flat_line flat_place flat_frame shown_block flat_block flat_value",
        "dat_flat flat_part order_number ending_number shown_summary refused_summary flat_summary flat_range",
        "gdb_cases table.digit number_after size_of with_u16 with_u32 with_u64",
    ],
    "printing": [
        "gdb_listing digit put_number put_ended put_line digit_count line_length put_refusal",
        "dat_list refused part list order flags sections body cpu",
        "gdb_cases refused signed value bytes span show.place line_kind kind show.block show.frame size opened head steps.block steps.frame count end line_answer tracepoint ask.block told pair.place range counted shown",
    ],
    "buffers with a length": ["gdb_select Selection is_valid stated in_some", "gdb_flat Selection selection_in flat_selection", "gdb_cases File with_byte file.first extended large.memory answered edited", "frame_list main", "dat_list main", "gdb_cases main"],
    "walks with another step": [
        "gdb_data registers_at variable_at",
        "gdb_blocks find_registers find_memory find_value",
        "gdb_blocks block_record registers_place memory_place variable",
        "gdb_frames nth_head",
        "gdb_blocks nth_block",
        "gdb_listing put_lines lines_length",
        "gdb_cut cut_length write_cut",
        "gdb_table table",
        "dat_sections formats_from systems_from formats_at systems_at",
    ],
    "one enum or flag says which step": ["dat_read bytes_of size_at sized_at", "dat_tail ending_at tail_at", "gdb_data registers_end", "gdb_join put_mark write_join", "gdb_cases written"],
}

# Twins: what is the same but for the words behind the names.
TWINS = [
    ("size", "fields two, fields four, fields eight"),
    ("size", "fields u16_in, fields u32_in, fields u64_in"),
    ("size; the slow path", "fields u16_at, fields u32_at, fields u64_at, fields u64_there"),
    ("all or the front", "byte_runs same, fields begins"),
    ("word", "gdb_format is_register, gdb_format is_status"),
    ("number for each base", "gdb_format radix_of, gdb_format most_digits"),
    ("type, letters", "gdb_format digit_value, gdb_cases table.digit"),
    ("byte sought, answer at the end", "gdb_format line_end, dat_sections name_at, gdb_cases table.line_end"),
    ("test of the block", "gdb_data registers_at, gdb_data variable_at"),
    ("step", "gdb_frames nth_head, gdb_blocks nth_block"),
    ("question to the frame found", "gdb_frames locate, gdb_blocks block_record, gdb_pair frame_in"),
    ("search", "gdb_blocks registers_place, gdb_blocks memory_place, gdb_blocks variable"),
    ("what a block gives", "gdb_blocks find_registers, gdb_blocks find_memory, gdb_blocks find_value"),
    ("from the start or from the place", "gdb_frames part_at, gdb_blocks up_to_data, gdb_cases table.part"),
    ("question", "gdb_frames line, gdb_seek frame_data, gdb_blocks registers, gdb_blocks memory, gdb_pair pair_frame"),
    ("field of what was read", "gdb_frames frame_count, gdb_frames end_mark"),
    ("what is done with a head", "gdb_listing put_lines, gdb_listing lines_length, gdb_cut cut_length, gdb_cut write_cut"),
    ("word, what follows", "gdb_listing put_refusal, gdb_listing put_table"),
    ("what is asked of the format", "gdb_read read, gdb_seek frame_place"),
    ("what is asked behind the opening", "gdb_read read_as, gdb_seek frame_in"),
    ("first or second trace", "gdb_pair pair_place, gdb_pair pair_variable"),
    ("answer's type", "gdb_flat flat_count, gdb_flat flat_table, gdb_flat flat_length, gdb_flat flat_value, gdb_flat flat_mark"),
    ("answer's type", "gdb_flat flat_place, gdb_flat flat_frame, gdb_flat flat_line, dat_flat flat_range"),
    ("enum", "gdb_flat kind_number, dat_flat order_number, dat_flat ending_number, dat_read bytes_of"),
    ("element", "dat_sections formats_from, dat_sections systems_from"),
    ("element", "dat_sections formats_at, dat_sections systems_at"),
    ("first piece", "dat_sections piece_at, dat_sections system_at"),
    ("size", "frame_list input_room, frame_list output_room, dat_list input_room, gdb_cases input_room"),
    ("size", "gdb_cases with_u16, gdb_cases with_u32, gdb_cases with_u64"),
    ("test of a range", "gdb_select is_valid, gdb_select in_some"),
    ("letters of the row", "gdb_cases row.first, gdb_cases row.second"),
    ("question", "gdb_cases ask.frame, gdb_cases ask.registers, gdb_cases ask.memory, gdb_cases pair.frame"),
    ("question; what is printed", "gdb_cases count, gdb_cases tracepoint, gdb_cases ask.block, gdb_cases summary, gdb_cases value, gdb_cases show.place, gdb_cases told, dat_list cpu, dat_list listed"),
    ("what is found", "gdb_cases steps.block, gdb_cases steps.frame"),
    ("question, its name in C", "trace_c tfk_frame_count, trace_c tfk_end_mark, trace_c tfk_frame_table, trace_c tfk_line_place, trace_c tfk_frame_place, trace_c tfk_block_record, trace_c tfk_registers_place, trace_c tfk_memory_place, trace_c tfk_variable, trace_c tfk_pair_place, trace_c tfk_pair_variable, trace_c tfk_cut, trace_c tfk_join, trace_c tfk_dat_read, trace_c tfk_dat_cpu_range"),
    ("count at the end", "dat_list part, dat_list list"),
]
TYPE_TWINS = [
    ("names", "gdb_frames CountAnswer, gdb_table TableAnswer, gdb_cut EditAnswer, dat_read Step, gdb_data BlockEnd, gdb_listing ListingAnswer"),
    ("what is found", "dat_sections SectionsStep, dat_texts TextsStep, dat_tail TailStep, dat_tail WordStep, dat_walk OpeningStep, dat_walk Walked, gdb_format Opening"),
    ("what is found", "gdb_data BlockStep, gdb_read FrameStep"),
    ("value", "gdb_blocks ValueAnswer, gdb_blocks BlockAnswer, gdb_frames LocatedAnswer, gdb_read Reading, gdb_format Checked, gdb_format LineStep, tracedat SummaryAnswer"),
    ("a field more", "gdb_frames PlaceAnswer, gdb_seek FrameAnswer, gdb_frames LineAnswer, gdb_pair PairPlace, tracedat RangeAnswer"),
    ("refusals told apart", "gdb_data Verdict, dat_ranges Judgement"),
    ("names", "gdb_format RegisterSize, gdb_format Digits"),
    ("layout in C", "dat_read Part, dat_flat Part"),
    ("what is found", "gdb_table Step, gdb_cases RangeStep"),
    ("type of keep", "gdb_select Selection, gdb_flat Selection"),
    ("what stands beside format and size", "gdb_table Manner, gdb_frames Located, gdb_read Opened"),
    ("value's type", "gdb_flat Count, gdb_flat Length, gdb_flat Value, gdb_flat Mark"),
    ("a field more", "gdb_flat Place, gdb_flat FramePart, gdb_flat Line, gdb_flat PairPart, dat_flat CpuRange"),
]


def standing(all_, names):
    """Of `crate name name ..` those that stand."""
    crate, *rest = names.split()
    return [x for n in rest for x in all_ if x.crate == crate and n in (x.name, f"{x.path.split('/')[-1][:-3]}.{x.name}")]


def read_by_hand(title, functions, types):
    rows = []
    for names in READ[title]:
        for x in standing(functions + types, names):
            rows.append(at(x))
    return sorted(set(rows))


# Point 1.
def option_or_result(t):
    names = [n for n, _ in t.parts]
    if t.word != "enum" or not names:
        return ""
    if "Refused" in names or "Sound" in names:
        return "Result, Result of an Option" if "End" in names or "Neither" in names else "Result"
    empty = [n for n, held in t.parts if not held]
    return "Option" if len(names) == 2 and len(empty) == 1 else ""


def point_1(functions, types, files):
    part("1a own enums of the shape of Option or Result", [at(t, f"{option_or_result(t)}; {', '.join(n + held for n, held in t.parts)}") for t in types if option_or_result(t)])
    rows = []
    for f in functions:
        for line, m in lines_of(f, r"(?:\w+::Refused|Err)\((\w+)\)\s*=>\s*(?:\{\s*return\s+)?(?:\w+::Refused|Err)\(\1\)"):
            rows.append(at(f, re.sub(r"\s+", " ", m[0]), line))
    part("1b refusals handed on by hand, where `?` would", rows)
    rows = []
    for path, raw in files.items():
        for m in re.finditer(r"^\s*(?:pub\s+)?const\s+(\w+):\s*u8\s*=\s*\d+;", raw, re.M):
            rows.append(f"{path}:{raw.count(chr(10), 0, m.start(1)) + 1} {m[1]}")
    part("1c constants that number refusals", rows)
    rows = []
    for f in functions:
        if any(n in ("n", "refusal") and t == "u8" for n, t in f.params) and "refus" in f.name:
            rows.append(at(f, "takes a refusal's number"))
        if f.answer == "u8" and re.search(r"\b[A-Z]{3,}_[A-Z_]+\b", f.body):
            rows.append(at(f, "answers a refusal's number"))
        rows += [at(f, m[0], line) for line, m in lines_of(f, r"Refused\(\d+\)")]
    part("1d refusals by number in functions", rows)
    rows = []
    for f in functions:
        for line, m in lines_of(f, r"(?:\b\w+\[[^\]]*\]|\b(?:letter|code|order|base))\s*[!=]=\s*\d+|\b\d+\.\.=\d+\s*=>|\bb - \d+|\(\w+, \d{2,3}\)"):
            rows.append(at(f, re.sub(r"\s*=>", "", m[0]), line))
    part("1e letters, orders and bases compared as numbers", rows)
    rows = []
    code = r"order|base|trace|kind|letter|ending|marked|yes|has_registers|keep|long|long_size"
    for t in types:
        rows += [at(t, f"{n}: {held}" + (" (C)" if is_c(t) else "")) for n, held in t.parts if t.word == "struct" and held == "u8" and re.fullmatch(code, n)]
    for f in functions:
        rows += [at(f, f"{n}: u8" + (" (C)" if f.exported else "")) for n, t in f.params if t == "u8" and re.fullmatch(code, n)]
    part("1f numbers for orders and kinds, as fields and parameters", rows)
    rows = []
    for t in types:
        flags = [f"{n}: {held}" for n, held in t.parts if held == "bool" or (held == "u8" and re.fullmatch(r"refusal|yes|keep|marked|has_\w+", n))]
        flags += [f"{n} {held}" for n, held in t.parts if t.word == "enum" and ": bool" in held]
        if flags:
            rows.append(at(t, ", ".join(flags) + (" (C)" if is_c(t) else "")))
    part("1g a flag with values beside it", rows)
    part("1h no value told by a value (16, 0, zeros, an empty part, a place behind the end)", read_by_hand("no value told by a value", functions, types))


# Point 2.
WORDS = set("fn if else match while loop for in let mut return as true false break continue".split())


def shape(text):
    text = re.sub(r"b?'[^'\n]*'", " 0 ", re.sub(r'b?"[^"]*"', " s ", text))
    return tuple(w if w in WORDS else "0" if w[0].isdigit() else "x" if w[0].isalpha() or w == "_" else w for w in re.findall(r"\w+|[^\w\s]", text))


def groups(rows, least, alike):
    """Groups of (thing, shape) of which each is as like another as `alike` says."""
    rows = [r for r in rows if len(r[1]) >= least]
    root = list(range(len(rows)))

    def top(i):
        while root[i] != i:
            i = root[i]
        return i

    for i, j in itertools.combinations(range(len(rows)), 2):
        a, b = rows[i][1], rows[j][1]
        if min(len(a), len(b)) < alike * max(len(a), len(b)):
            continue
        m = difflib.SequenceMatcher(None, a, b, autojunk=False)
        if m.quick_ratio() >= alike and m.ratio() >= alike:
            root[top(i)] = top(j)
    found = defaultdict(list)
    for i, r in enumerate(rows):
        found[top(i)].append(r[0])
    return [g for g in found.values() if len(g) > 1]


def show_groups(title, found):
    rows = ["; ".join(at(x) for x in g) for g in found]
    part(title, rows)
    TOTALS.append((title + ", members", sum(len(g) for g in found)))


def families(all_, table):
    found = []
    for differs, names in table:
        members = [x for n in names.split(", ") for x in standing(all_, n)]
        if len({(x.path, x.line) for x in members}) > 1:
            found.append((differs, members))
    return found


def point_2(functions, types, files):
    for title, all_, table in (("2a functions that a reader found to be twins", functions, TWINS), ("2b types that a reader found to be twins", types, TYPE_TWINS)):
        found = families(all_, table)
        part(title + " (what differs: where)", [f"{d}: " + "; ".join(at(x) for x in g) for d, g in found])
        TOTALS.append((title + ", members", len({at(x) for _, g in found for x in g})))
    show_groups("2c functions of one shape (40 tokens or more, alike by 0.87)", groups([(f, shape(f.body)) for f in functions], 40, 0.87))
    held = defaultdict(list)
    for t in types:
        text = re.sub(r"^.*?\{", t.word + " {", t.text)
        held[re.sub(r"\b(?!u8|u16|u32|u64|usize|i64|bool|struct|enum\b)[A-Za-z_]\w*\b", "x", text)].append(t)
    show_groups("2d types that are the same but for names", [g for g in held.values() if len(g) > 1])


# Point 3.
def kind_of_loop(head, block):
    if head.startswith("for"):
        return "for"
    steps = {m[1]: m[2] for m in re.finditer(r"\b(\w+)\s*([+-])=\s*\d+\s*;", block)}
    for name, sign in steps.items():
        tested = re.search(rf"\b{name}\b", head) or re.search(rf"\bif\s+{name}\s*==\s*0\b", block)
        if tested:
            return "counts an index" if sign == "+" else "counts its turns"
    for m in re.finditer(r"\bif\s+(\w+)\s*==\s*\w+\s*\{\s*return", block):
        if re.search(rf"(?<!let )\b{m[1]}\s*=\s", block):
            return "counts its turns"
    return "walks"


def point_3(functions, types, files):
    rows = defaultdict(list)
    for f in functions:
        clean = blank(f.body)
        for m in re.finditer(r"\b(while\b[^{]*|loop\s*|for\s+[^{]*)\{", clean):
            block = clean[m.end() - 1 : closing(clean, m.end() - 1)]
            line = f.body_line + clean.count("\n", 0, m.start())
            rows[kind_of_loop(m[1], block)].append(at(f, squeeze(m[1]), line))
    part("3a loops that count an index", rows["counts an index"])
    part("3b loops that count their turns, down to 0 or up to a number", rows["counts its turns"])
    part("3c loops that walk by places that a callee answers, or by another step", rows["walks"])
    part("3d loops over a range or a list (`for`)", rows["for"])


# Point 4.
def point_4(functions, types, files):
    for k, title in zip("abcd", ("equality, order, tests", "copying", "conversion", "printing")):
        part(f"4{k} {title} by hand", read_by_hand(title, functions, types))
    rows = [at(f, m[0], line) for f in functions for line, m in lines_of(f, r"let (\w+) = \w+(?:\.\w+)*\.\1;")]
    part("4e a field copied into a local of its name", rows)
    missing = []
    for t in types:
        have = set(re.findall(r"\w+", " ".join(re.findall(r"derive\(([^)]*)\)", " ".join(t.attributes)))))
        lacks = [d for d in ("Clone", "Copy", "Debug", "PartialEq", "Eq") if d not in have]
        if lacks:
            missing.append(at(t, "lacks " + ", ".join(lacks)))
    part("4f types without a derive that they could have", missing)


# Point 5.
def facts(clause):
    parts, deep, last = [], 0, 0
    for k, c in enumerate(clause):
        deep += (c in "([{") - (c in ")]}")
        if c == "×" and deep == 0:
            parts.append(clause[last:k])
            last = k + 1
    out = []
    for p in parts + [clause[last:]]:
        p = squeeze(p)
        while p.startswith("(") and closing(p, 0) == len(p):
            p = squeeze(p[1:-1])
        out.append(p)
    return out


def point_5(functions, types, files):
    by = defaultdict(list)
    for f in functions:
        for _, clause in f.requires:
            for fact in facts(clause):
                fact = re.sub(r"\b(file|d|l|s)\.now\b", "s.now", fact)
                fact = re.sub(r"\b(from|start|at|begin)\b", "at", fact)
                by[re.sub(r"\b\d+\b", "N", fact)].append(at(f))
    by = sorted(((k, v) for k, v in by.items() if len(v) > 2), key=lambda r: -len(r[1]))
    part("5a facts that three or more functions require (s a file's bytes, at a place in them, N a number)", [f"{len(v)} `{k}`: " + "; ".join(v) for k, v in by])
    TOTALS.append(("5a functions that require one of them", len({x for _, v in by for x in v})))
    part("5b functions with `requires`", [at(f, " ; ".join(c for _, c in f.requires)) for f in functions if f.requires])
    same = {"from": "at", "start": "at", "begin": "at", "d": "s", "file": "s", "l": "s", "j": "n", "k": "n", "i": "n", "a": "first", "b": "second"}
    sets = []
    for f in functions:
        s = set()
        for n, t in f.params:
            t = re.sub(r"'\w+ ", "", t)
            s.add(f"{same.get(n, n) if t in ('usize', '&[u8]') else n}: {t}")
        sets.append((f, frozenset(s)))
    shared = {a & b for (_, a), (_, b) in itertools.combinations(sets, 2) if len(a & b) > 1}
    rows = []
    for s in shared:
        with_all = [f for f, t in sets if s <= t]
        if len(with_all) >= 5:
            each = ", ".join(f"{sum(p in t for _, t in sets)} with {p}" for p in sorted(s))
            rows.append((len(with_all), f"{len(with_all)} ({', '.join(sorted(s))}); {each}"))
    part("5c parameters that five or more functions take together", [r for _, r in sorted(rows, key=lambda r: (-r[0], r[1]))])


# Point 6.
def point_6(functions, types, files):
    part("6a a buffer with a length beside it, and who reads or makes it", read_by_hand("buffers with a length", functions, types))
    rows = []
    for t in types:
        rows += [at(t, f"{n}: {held}") for n, held in t.parts if re.search(r"\[[^\];]+;\s*\d+\]", held)]
    for f in functions:
        rows += [at(f, f"{n}: {t}") for n, t in f.params if re.search(r"\[[^\];]+;\s*\d+\]", t)]
        if re.search(r"\[[^\];]+;\s*\d+\]", f.answer):
            rows.append(at(f, "answers " + f.answer))
        rows += [at(f, m[0], line) for line, m in lines_of(f, r"\[(?:\d+|[A-Z]\w*(?: \{[^}]*\})?); \d+\]")]
    part("6b arrays of a written length", rows)
    rows = [at(f, ", ".join(f"{n}: {t}" for n, t in f.params)) for f in functions if any(t == "&mut [u8]" for _, t in f.params) and any(n in ("at", "begin", "len") and t == "usize" for n, t in f.params)]
    part("6c an output with the place in it beside", rows)
    rows = [at(t, ", ".join(f"{n}{held if held.startswith(('(', '{')) else ': ' + held}" for n, held in t.parts)) for t in types if re.search(r"\b(place|offset|address)\b[^,]*,\s*(?:pub\s+)?(?:length|size)\b", t.text)]
    part("6d a part of the file by place and length", rows)
    rows = [at(f) for f in functions if re.search(r"\b(binary_search|BTreeMap|HashMap|Vec|String|Box)\b", f.sign + f.body)]
    part("6e heap types, maps, searches in sorted lists", rows)


# Point 7.
def point_7(functions, types, files):
    rows = [at(f, f"{m[0]} .. with {len(re.findall(r'=>', f.body))} arms", line) for f in functions for line, m in lines_of(f, r"match table::byte\(t, 0\)|if table::byte\(t, 0\) ==")]
    part("7a a letter says which step to run", rows)
    part("7b a flag or an enum says which step to run", read_by_hand("one enum or flag says which step", functions, types))
    part("7c parameters of type bool", [at(f, f"{n}: bool") for f in functions for n, t in f.params if t == "bool"])
    part("7d the same walk with another step", read_by_hand("walks with another step", functions, types))
    part("7e closures, impl Fn, dyn, function pointers", [at(f) for f in functions if re.search(r"\b(Fn|FnMut|FnOnce|dyn)\b|\bfn\(", f.sign[3:] + f.body) or re.search(r"\|\w+\| ", f.body)])


# Point 8.
PLAIN = set("λ . → = ≡ × ∷ ++ + - * / % < ≤ ↦ | let in elim rw simp omega cc search refl ap sym subst record where unfolding pub abbrev unfoldable".split())
PASSED = re.compile(r"^\s*(--|use |$)")


def proof_lines(path):
    rows = []
    for k, line in enumerate(open(path, encoding="utf-8").read().split("\n"), 1):
        if not PASSED.match(line):
            rows.append((k, squeeze(line), re.sub(r"[^\s(){}.;,\[\]«»]+", lambda m: m[0] if m[0] in PLAIN else "x", line.strip())))
    return rows


def runs(texts, least):
    """Pairs of runs of `least` or more lines that are the same but for names; of two files the longest alone."""
    seeds = defaultdict(list)
    for name, rows in texts.items():
        for k in range(len(rows) - least + 1):
            key = tuple(s for _, _, s in rows[k : k + least])
            if sum(map(len, key)) >= 20 * least:
                seeds[key].append((name, k))
    best = {}
    for places in seeds.values():
        for (a, i), (b, j) in itertools.combinations(places[:8], 2):
            if a == b and abs(i - j) < least:
                continue
            n, x, y = 0, texts[a], texts[b]
            while i + n < len(x) and j + n < len(y) and x[i + n][2] == y[j + n][2] and not (a == b and i + n >= j > i):
                n += 1
            if n > best.get((a, b), (0,))[0]:
                best[a, b] = (n, f"{n} lines: {a}:{x[i][0]} ~ {b}:{y[j][0]}")
    return [r for _, r in sorted(best.values(), key=lambda r: (-r[0], r[1]))]


def point_8(functions, types, files):
    proofs = sorted(glob.glob("crates/*/proofs/**/*.antt", recursive=True))
    texts = {p: proof_lines(p) for p in proofs}
    answers = [p for p in proofs if p.endswith("/Answers.antt")]
    count = lambda ps: sum(len(open(p, encoding="utf-8").read().split("\n")) - 1 for p in ps)  # noqa: E731
    goals = {p: [s for _, s, _ in texts[p] if re.match(r"(abbrev )?pub \S+ : goal\.", s)] for p in answers}
    part("8a files of answers", [f"{p}: {len(goals[p])} answers, {count([p])} lines" for p in answers])
    invariants = [p for p in proofs if p.endswith("/Invariants.antt")]
    lemmas = [p for p in proofs if p not in answers and p not in invariants]
    part("8b files of invariants", [f"{p}: {count([p])} lines" for p in invariants])
    part("8c files of lemmas", [f"{p}: {count([p])} lines" for p in lemmas])
    TOTALS.extend([("8a answers in them", sum(map(len, goals.values()))), ("8a lines", count(answers)), ("8b lines", count(invariants)), ("8c lines", count(lemmas))])
    rows = []
    for p in answers:
        seen = defaultdict(list)
        for k, s, _ in texts[p]:
            if len(s) >= 40 and not s.startswith("pub "):
                seen[s].append(k)
        again = sum(len(v) - 1 for v in seen.values() if len(v) > 1)
        if again:
            rows.append(f"{p}: {again} lines that stand before in the file; first at {', '.join(str(v[0]) for v in seen.values() if len(v) > 1)}")
    part("8d files of answers that say a line again (40 characters or more)", rows)
    TOTALS.append(("8d such lines", sum(int(re.search(r": (\d+) lines", r)[1]) for r in rows)))
    rows = []
    for p in answers:
        names = re.findall(r"let (\w+)(?: : [^=\n]*)? =\s*(record \{)?", open(p, encoding="utf-8").read())
        made = defaultdict(int)
        for n, rec in names:
            made[n] += 1
        said = [f"{n} {k} times" for n, k in made.items() if k > 1]
        if said:
            rows.append(f"{p}: " + ", ".join(said))
    part("8e files of answers that make a `let` of one name in several answers", rows)
    part("8f runs of 5 or more lines that are the same but for names, by pairs of files", runs(texts, 5))
    everything = "\n".join(open(p, encoding="utf-8").read() for p in [p for p in sorted(glob.glob("crates/**/*.antt", recursive=True)) if "/out/" not in p] + sorted(files) + [p for p in sorted(glob.glob("docs/*.md")) if "DESIGN-PASS" not in p] + ["README.md"])
    words = defaultdict(int)
    for w in re.findall(r"[^\s(){}.;,\[\]«»`]+", everything):
        words[w] += 1
    rows = []
    for p in lemmas:
        for k, s, _ in texts[p]:
            m = re.match(r"pub (\S+) :(\s|$)", s)
            if m and words[m[1]] == 1 + sum(t.startswith(m[1] + " ") for _, t, _ in texts[p]):
                rows.append(f"{p}:{k} {m[1]}")
    part("8g lemmas of proofs/ whose name stands nowhere else (the check may find them by itself)", rows)


def listing(functions, types, files):
    """Every public constant and function with its contract, and every type."""
    crate = None
    for path, raw in files.items():
        for m in re.finditer(r"^\s*(pub const [^;]*;)", raw, re.M):
            print(f"- {path}:{raw.count(chr(10), 0, m.start(1)) + 1} `{m[1]}`")
    for x in sorted(functions + types, key=lambda x: (x.crate, x.path, x.line)):
        if isinstance(x, Function) and not x.public and " for " not in x.owner:
            continue
        if x.crate != crate:
            crate = x.crate
            print(f"\n## {crate}\n")
        if isinstance(x, Type):
            print(f"- {x.path}:{x.line} `{' '.join(x.attributes)} {x.text}`")
            continue
        print(f"- {x.path}:{x.line} `{x.owner + ': ' if x.owner else ''}{x.sign}`")
        for word, clauses in (("requires", x.requires), ("ensures", x.ensures)):
            for name, clause in clauses:
                print(f"  - {word}{' ' + name if name else ''} `{clause}`")


def main(argv):
    global SHOW, SHORT
    functions, types, files = read()
    if "--list" in argv:
        listing(functions, types, files)
        return
    SHOW, SHORT = "--totals" not in argv, "--short" in argv
    points = [a for a in argv if a.isdigit()] or "12345678"
    for p in points:
        globals()[f"point_{p}"](functions, types, files)
    print(f"\n{len(files)} files, {len(functions)} functions, {sum(f.public for f in functions)} of them public, {len(types)} types")
    for title, n in TOTALS:
        print(f"{n:5} {title}")


if __name__ == "__main__":
    main(sys.argv[1:])
