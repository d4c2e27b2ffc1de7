"""Where the repository's files are; makes its Python module importable, and the tests' reading of its header."""
import pathlib
import sys

ROOT = pathlib.Path(__file__).resolve().parents[2]
MODULE = ROOT / 'bindings/python'
EXPECTED = pathlib.Path(__file__).resolve().parent / 'expected'

sys.path[:0] = [str(MODULE), str(ROOT / 'tests/interface')]
