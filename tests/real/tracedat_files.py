"""trace.dat files that trace-cmd recorded, held against trace-cmd's own reading of them (tracedat/facts.json)."""
import hashlib
import json
import pathlib

from report import refusal, same
from tufakpeni import CpuRange, Refusal, TraceDat

FOLDER = pathlib.Path(__file__).parent / 'tracedat'
FACTS = json.loads((FOLDER / 'facts.json').read_text())
SECTIONS = ('header_page', 'header_event', 'formats', 'systems', 'kallsyms', 'printk', 'processes', 'options')

# The bytes of fields and words that stand before each section's place, counted from the end of the section before.
GAPS = {
    'header_page': 3 + 7 + 2 + 1 + 1 + 4 + 12 + 8,
    'header_event': 13 + 8,
    'formats': 4,
    'systems': 4,
    'kallsyms': 4,
    'printk': 4,
    'processes': 8,
    'options': 4 + 10,
    'body': 10,
}


def compare_flags(header, facts):
    for name in ('order', 'long_size', 'page_size', 'format_count', 'system_count', 'cpu_count', 'ending'):
        same(getattr(header, name), facts[name], name)


def compare_sections(header, facts):
    """Each section is as long as trace-cmd says and starts right behind the one before. All files here have options."""
    end = 0
    for name, gap in GAPS.items():
        section = header.section(name)
        same(section.place, end + gap, name)
        end = section.place + section.size
    for name in SECTIONS:
        same(len(getattr(header, name)), facts[name], name)
    same(bytes(header.header_page[:22]), b'\tfield: u64 timestamp;')
    same(bytes(header.header_event[:25]), b'# compressed entry header')


def compare_options(header, facts):
    """The types in the options section, up to the closing 0, which is its last two bytes."""
    data, at, types = header.options, 0, []

    def number(width):
        return int.from_bytes(data[at:at + width], header.order)

    while number(2):
        types.append(number(2))
        at += 2
        at += 4 + number(4)
    same(types, facts['option_types'])
    same(at + 2, len(data))


def compare_flyrecord(header, facts, file):
    same(header.header_end, facts['header_end'])
    same(header.cpus, [CpuRange(*cpu) for cpu in facts['cpus']])
    # Right behind the header trace-cmd writes the length and name of the clock.
    clock = facts['clock'].encode()
    stored = len(clock).to_bytes(8, header.order) + clock
    same(file[header.header_end:header.header_end + len(stored)], stored)


def compare_latency(header, facts):
    section = header.section('body')
    same([section.place, section.size], facts['text'])
    same(header.header_end, facts['header_end'])
    same(header.cpus, [])
    for i in range(header.cpu_count):
        same(refusal(header.cpu_range, i), Refusal.NOT_FOUND)


def test_file(report, name, facts, file):
    header = TraceDat(file)
    with report.case(f'{name}: flags and counts'):
        compare_flags(header, facts)
    with report.case(f'{name}: sections'):
        compare_sections(header, facts)
    with report.case(f'{name}: options'):
        compare_options(header, facts)
    with report.case(f'{name}: {facts["ending"]}'):
        if facts['ending'] == 'latency':
            compare_latency(header, facts)
        else:
            compare_flyrecord(header, facts, file)


def test(report):
    same(sorted(str(path.relative_to(FOLDER)) for path in FOLDER.glob('*/*.dat')), sorted(FACTS), 'files')
    for name, facts in FACTS.items():
        file = (FOLDER / name).read_bytes()
        with report.case(f'{name}: unchanged'):
            same((len(file), hashlib.sha256(file).hexdigest()), (facts['bytes'], facts['sha256']))
        with report.case(f'{name}: read or refused'):
            if 'refused' in facts:
                same(refusal(TraceDat, file), facts['refused'])
            else:
                test_file(report, name, facts, file)
