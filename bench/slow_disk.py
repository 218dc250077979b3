#!/usr/bin/env python3
"""Measures a run by threads beside a serial one, on a disk of which each read and write takes a millisecond.

Copies the repository's crates into a folder of its own, adds the program in slow_disk_main.txt and
slow_disk_blocks.txt to them, and lets `rt try` build and run it, which proves nothing. Eight processes read
each a section of its own, page after page, and there are frames for all pages. Prints the requests, the
transfers and the milliseconds of both runs. The status is 0 if the run by threads has at least four times
as many requests a second, else 1.
"""
import pathlib
import shutil
import subprocess
import sys
import tempfile

TOP = pathlib.Path(__file__).resolve().parent.parent
NAME = "slow_disk"
# how many times as many requests a second are wanted of the run by threads
WANTED = 4
USES = "vm_types vm_journal disk_trait outside_io trace_reader serial_run replay_run arrayvec"


def main():
    with tempfile.TemporaryDirectory() as room:
        room = pathlib.Path(room)
        shutil.copytree(TOP / "crates", room / "crates", ignore=shutil.ignore_patterns("out", "must-fail", "data"))
        (room / "crates.txt").write_text((TOP / "crates.txt").read_text() + f"{NAME}: {USES}\n")
        (room / "HANDLES").write_text((TOP / "HANDLES").read_text())
        source = room / "crates" / NAME / "src"
        source.mkdir(parents=True)
        for text, file in (("slow_disk_main.txt", "main.rt"), ("slow_disk_blocks.txt", "slow.rt")):
            shutil.copy(TOP / "bench" / text, source / file)
        ran = subprocess.run(["rt", "try"], cwd=source.parent, stdout=subprocess.PIPE, text=True, check=False)
    lines = [line.split() for line in ran.stdout.splitlines()]
    runs = [tuple(map(int, words)) for words in lines if len(words) == 3 and all(word.isdecimal() for word in words)]
    if len(runs) != 2:
        sys.exit(f"bench: the program didn't run\n{ran.stdout}")
    rates = []
    for name, (requests, transfers, taken) in zip(("serial", "threads"), runs):
        rates.append(requests / max(taken, 1))
        print(f"{name:8} {requests:6,} requests {transfers:6,} transfers {taken:8,} ms {1000 * rates[-1]:8,.0f} requests/s")
    print(f"{rates[1] / rates[0]:.2f} times as many requests a second, {WANTED} wanted")
    return 0 if rates[1] >= WANTED * rates[0] else 1


if __name__ == "__main__":
    sys.exit(main())
