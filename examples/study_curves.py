#!/usr/bin/env python3
"""Draws what the references of a process cost against the number of frames.

    examples/study_curves.py examples/recorded/sort.trace A 16 sort.svg

For each number of frames, from 1 to the one that is named, at most 1024, it runs `study` of the program
over the trace, and takes the faults of the ring, of LRU and the least ones from the lines. It writes an
SVG picture with the three curves, and prints the numbers. It needs Python 3.9 and no packages. NEQYSBAR
in the environment may name another program.
"""

import html
import os

from scripts import Refused, ended, number, output_of, words_of

MOST_FRAMES = 1024
WIDTH, HEIGHT = 640, 400
LEFT, RIGHT, ABOVE, BELOW = 70, 20, 30, 50
# a curve's name, its colour, and the dashes that tell it from the others without colours
CURVES = (("ring", "#b04a2f", "none"), ("LRU", "#2f6fb0", "9 4"), ("least", "#3a8f4d", "2 3"))


def faults(trace, process, frames):
    """The faults of the ring, of LRU and the least, with so many frames."""
    text, messages = output_of(["study", "--process", process, "--frames", str(frames)], trace)
    found = {}
    for line in text.splitlines():
        words = line.split()
        if words[0] == "PAGES" and words[1] == "0":
            raise Refused(messages.removeprefix("neqysbar: ") or f"process {process} has no references")
        if words[0] in ("RING", "LRU", "LEAST") and words[1] == str(frames):
            found[words[0]] = int(words[2])
    return found["RING"], found["LRU"], found["LEAST"]


def step_of(most):
    """A round distance of some five marks up to the most."""
    step = 1
    while most / step > 6:
        step *= 2 if str(step)[0] in "15" else 2.5
    return int(step)


def picture(title, rows):
    """The SVG text; a row has the number of frames and the three faults."""
    most_frames = rows[-1][0]
    most_faults = max(max(row[1:]) for row in rows)

    def x_of(frames):
        return LEFT + (WIDTH - LEFT - RIGHT) * (frames - 1) / max(most_frames - 1, 1)

    def y_of(count):
        return HEIGHT - BELOW - (HEIGHT - ABOVE - BELOW) * count / max(most_faults, 1)

    out = [
        f'<svg xmlns="http://www.w3.org/2000/svg" viewBox="0 0 {WIDTH} {HEIGHT}" font-family="sans-serif" font-size="12">',
        f'<rect width="{WIDTH}" height="{HEIGHT}" fill="white"/>',
        f'<text x="{LEFT}" y="18" font-size="14">{html.escape(title)}</text>',
    ]
    step = step_of(most_faults)
    for count in range(0, most_faults + 1, step):
        y = y_of(count)
        out.append(f'<line x1="{LEFT}" y1="{y:.1f}" x2="{WIDTH - RIGHT}" y2="{y:.1f}" stroke="#dddddd"/>')
        out.append(f'<text x="{LEFT - 8}" y="{y + 4:.1f}" text-anchor="end">{count}</text>')
    step = step_of(most_frames)
    for frames in sorted({1, *range(step, most_frames + 1, step)}):
        out.append(f'<text x="{x_of(frames):.1f}" y="{HEIGHT - BELOW + 18}" text-anchor="middle">{frames}</text>')
    out.append(f'<text x="{(LEFT + WIDTH - RIGHT) / 2:.1f}" y="{HEIGHT - 12}" text-anchor="middle">frames</text>')
    out.append(f'<text x="16" y="{HEIGHT / 2:.1f}" transform="rotate(-90 16 {HEIGHT / 2:.1f})" text-anchor="middle">faults</text>')
    for place, (name, colour, dashes) in enumerate(CURVES, 1):
        pen = f'stroke="{colour}" stroke-width="2" stroke-dasharray="{dashes}"'
        points = " ".join(f"{x_of(row[0]):.1f},{y_of(row[place]):.1f}" for row in rows)
        out.append(f'<polyline points="{points}" fill="none" {pen}/>')
        y = ABOVE + 18 * place
        out.append(f'<line x1="{WIDTH - 110}" y1="{y - 4}" x2="{WIDTH - 85}" y2="{y - 4}" {pen}/>')
        out.append(f'<text x="{WIDTH - 78}" y="{y}">{name}</text>')
    out.append("</svg>")
    return "\n".join(out) + "\n"


def main():
    words = words_of(__doc__)
    words.add_argument("trace", help="a file with a trace")
    words.add_argument("process", choices=[chr(65 + place) for place in range(16)], metavar="process", help="A to P")
    words.add_argument("frames", type=number(1, MOST_FRAMES), help=f"1 to {MOST_FRAMES}")
    words.add_argument("picture", help="the file for the picture")
    asked = words.parse_args()
    folder = os.path.dirname(asked.picture) or "."
    if not os.path.isdir(folder):
        raise Refused(f"there is no folder {folder} for the picture")
    if os.path.isdir(asked.picture):
        raise Refused(f"{asked.picture} is a folder, and no file for the picture")
    with open(asked.trace, "rb") as source:
        trace = source.read()
    rows = [(frames, *faults(trace, asked.process, frames)) for frames in range(1, asked.frames + 1)]
    print("frames   ring    LRU  least")
    for row in rows:
        print("{:6d} {:6d} {:6d} {:6d}".format(*row))
    with open(asked.picture, "w", encoding="utf-8", newline="\n") as out:
        out.write(picture(f"Process {asked.process} of {os.path.basename(asked.trace)}", rows))


if __name__ == "__main__":
    ended("study_curves", main)
