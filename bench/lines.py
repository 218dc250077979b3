"""Measures how many lines of entries are written and read in a second.

Copies the crates that `line` and `read_line` stand on, and the program in lines_main.txt, into a folder of
its own, builds and runs the program, and prints the lines a second of each call. Ends with status 1 if
`read_line` is slower than `line`.
"""
import pathlib
import shutil
import subprocess
import sys
import tempfile

HERE = pathlib.Path(__file__).resolve().parent
CRATES = ["vm_types", "vm_text", "vm_journal", "entry_lines"]
LINES = 16 * 1_000_000


def main():
    with tempfile.TemporaryDirectory() as room:
        room = pathlib.Path(room)
        for name in CRATES:
            shutil.copytree(HERE.parent / "crates" / name, room / "crates" / name)
        (room / "crates" / "lines" / "src").mkdir(parents=True)
        shutil.copy(HERE / "lines_main.txt", room / "crates" / "lines" / "src" / "main.rt")
        (room / "crates.txt").write_text(
            "vm_types:\n"
            "vm_text: vm_types arrayvec itoa\n"
            "vm_journal: vm_types vm_text\n"
            "entry_lines: vm_types vm_text vm_journal arrayvec\n"
            "lines: vm_types vm_text vm_journal entry_lines arrayvec\n"
        )
        ran = subprocess.run(["rt", "run"], cwd=room / "crates" / "lines", stdout=subprocess.PIPE, text=True, check=True)
        read, written, reading, both = map(int, ran.stdout.split())
    writing = max(both - reading, 1)
    print(f"read_line: {LINES * 1000 // max(reading, 1):,} lines a second")
    print(f"line:      {LINES * 1000 // writing:,} lines a second")
    return 0 if reading <= writing else 1


if __name__ == "__main__":
    sys.exit(main())
