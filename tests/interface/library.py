"""Where the archive is."""
import os
from pathlib import Path

from header import ROOT

ARCHIVE = Path(os.environ.get('TUFAKPENI_ARCHIVE') or ROOT / 'crates/trace_c/out/libtrace_c.a')
