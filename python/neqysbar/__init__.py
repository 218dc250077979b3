"""Neqysbar for Python: the program over bytes, and what it writes as records.

    import neqysbar
    status, output = neqysbar.run(["serial"], trace)
    for entry in neqysbar.read_log(output.decode("ascii")):
        print(entry.number, entry.seat, entry.kind)

`run` calls the shared library; `output_of` is the same and raises what the program says is wrong. The readers need none: `read_log` and `read_report` read the output of a
run, `read_study` that of a study, `read_dump` the bytes of a dump. `set_lines` gives a trace other
settings. `to_frame` makes a pandas table of records, if pandas is there. `python -m neqysbar.sweep` runs
a trace with many settings, `python -m neqysbar.plot` draws. It needs Python 3.9 and no packages.
"""

from .calls import NotDone, Told, library, library_path, output_of, run, run_with_message
from .dumps import Dump, DumpFrame, DumpProcess, DumpSlot, NoDump, ValidEntry, read_dump
from .entries import Entry, NoEntry, entry_of, read_log
from .reports import FrameRow, NoReport, PageFile, ProcessRow, Report, read_report
from .studies import NoStudy, Study, read_study
from .tables import to_frame
from .traces import NotSet, set_lines
from .versions import version

__version__ = version()
__all__ = [
    "Dump", "DumpFrame", "DumpProcess", "DumpSlot", "Entry", "FrameRow", "NoDump", "NoEntry", "NoReport", "NoStudy",
    "NotDone", "NotSet", "PageFile", "ProcessRow", "Report", "Study", "Told", "ValidEntry", "__version__", "entry_of",
    "library", "library_path", "output_of", "read_dump", "read_log", "read_report", "read_study", "run",
    "run_with_message", "set_lines", "to_frame",
]
