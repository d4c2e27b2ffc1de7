"""A trace as gdb itself reads it. Runs inside gdb:

    TFILE=x.tf [REGS=1] [QUERY=q.json] gdb -nx -batch [-ex 'file PROGRAM'] [-ex 'set endian big'] -x gdb_list.py

Prints one JSON line a frame, then one for the file:
  frame   its number in the file
  tp      its tracepoint's number in the file
  memory  [address, length, hex], sorted by address, with touching and overlapping blocks merged; gdb gives it only where
          it knows the tracepoint
  tsv     variable -> value: the last V block of that variable
  reads   for QUERY {"frame": [[address, length], ...]}: hex, or null where gdb finds no such bytes
  regs    with REGS: [name, offset in the R block, hex], the first R block"""
import json
import os
import re

import gdb

SETTINGS = ('set pagination off', 'set confirm off', 'set width 0', 'set max-value-size unlimited',
            'set print repeats 0', 'set print elements 0', 'set breakpoint pending auto')
FILE = os.environ['TFILE']


def told(command):
    return gdb.execute(command, to_string=True)


def renumbered(opened):
    """gdb's own tracepoint number -> the file's."""
    found = re.findall(r"racepoint (\d+) (?:for|is same as) target's tracepoint (\d+) at", opened)
    return {int(own): int(stored) for own, stored in found}


def memory():
    answer = told('interpreter-exec mi "-trace-frame-collected --memory-contents"')
    if not answer.startswith('^done'):
        return {'mi_error': answer.strip()[:200]}
    found = re.findall(r'address="(0x[0-9a-f]+)",length="(\d+)"(?:,contents="([0-9a-f]*)")?', answer)
    return {'memory': [[int(address, 16), int(length), contents] for address, length, contents in found]}


def variables():
    rows = [line.split() for line in told('info tvariables').splitlines()[1:]]
    return {row[0]: int(row[2]) for row in rows if len(row) == 3 and re.match(r'-?\d+$', row[2])}


def registers(order):
    """Joined by gdb's register number, since some registers have no name."""
    stored = {}
    for line in told('maint print remote-registers').splitlines():
        row = line.split()
        if len(row) >= 8 and row[-1].isdigit() and row[-2].isdigit():
            stored[row[1]] = (int(row[-1]), int(row[4]))
    found = []
    for line in told('maint print raw-registers').splitlines():
        row = line.split()
        if len(row) > 2 and row[1] in stored and row[-1].startswith('0x'):
            offset, size = stored[row[1]]
            value = bytes.fromhex(row[-1][2:])
            if len(value) == size:
                found.append([row[0], offset, (value[::-1] if order == 'little' else value).hex()])
    return found


def read(address, length):
    try:
        return bytes(gdb.selected_inferior().read_memory(address, length)).hex()
    except gdb.error:
        return None


def frame(n, numbers, queries, order):
    tracepoint = int(gdb.parse_and_eval('$tracepoint'))
    row = {'frame': n, 'tp': numbers.get(tracepoint, tracepoint), **memory(), 'tsv': variables()}
    if str(n) in queries:
        row['reads'] = [read(*query) for query in queries[str(n)]]
    if os.environ.get('REGS'):
        row['regs'] = registers(order)
    return row


def find(n):
    """Whether gdb finds frame n."""
    told(f'tfind {n}')
    found = gdb.parse_and_eval('$trace_frame')
    return found.type.code != gdb.TYPE_CODE_VOID and int(found) == n


def main():
    for setting in SETTINGS:
        told(setting)
    queries = json.load(open(os.environ['QUERY'])) if 'QUERY' in os.environ else {}
    numbers = renumbered(told('target tfile ' + FILE))
    status = re.search(r'(?:Collected|Buffer contains) (\d+) trace frame', told('tstatus'))
    order = re.search(r'(little|big) endian', told('show endian')).group(1)
    arch = told('show architecture').strip()
    n, end = 0, 'no-frame'
    try:
        while find(n):
            print(json.dumps(frame(n, numbers, queries, order)))
            n += 1
    except gdb.error as error:
        end = f'error: {error}'
    print(json.dumps({'file': os.path.basename(FILE), 'created': numbers,
                      'status_frames': int(status.group(1)) if status else None, 'endian': order, 'arch': arch,
                      'frames': n, 'end': end}))


main()
