#!/usr/bin/env python3
"""Reads files that real tools saved, and compares with what those tools read in them. TUFAKPENI_LIBRARY names the
shared library. The last line is the total, 'N passed, M failed'; the exit status is 0 only where nothing failed."""
import pathlib
import sys

sys.path.insert(0, str(pathlib.Path(__file__).resolve().parents[2] / 'bindings/python'))

import gdb_files
import tracedat_files
from report import Report
from tufakpeni import LibraryMissing, _library


def main():
    try:
        _library.library()
    except LibraryMissing as missing:
        print(missing, file=sys.stderr)
        return 2
    report = Report()
    for part in (gdb_files, tracedat_files):
        with report.case(part.__name__):
            part.test(report)
    print(f'{report.passed} passed, {report.failed} failed')
    return 1 if report.failed else 0


if __name__ == '__main__':
    sys.exit(main())
