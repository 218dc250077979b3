"""Draws pictures of traces and their runs, as SVG or PNG, by matplotlib.

    python -m neqysbar.plot curves sort.trace --process A --frames 1:16 --output curves.svg
    python -m neqysbar.plot working-set phases.trace --output working-set.svg
    python -m neqysbar.plot faults sort.trace --output faults.png
    python -m neqysbar.plot lists sort.trace --output lists.svg
    python -m neqysbar.plot thrashing one.trace two.trace three.trace --output thrashing.svg

Lines are told apart by their dashes too, so a picture can be printed without colours. The same input and
the same matplotlib make the same SVG, byte for byte.
"""

from __future__ import annotations

import argparse
import os
import sys
from typing import Any, Optional

from .files import file_bytes
from .plot_data import CURVES, KINDS, NotDrawn, fault_curves, faults_over_time, loads_of, reports_over_time
from .sweep import at_least_one, number_list

DONE, USAGE = 0, 2
INCHES = (7.0, 4.2)
# colours that are told apart with any colour vision, and dashes and marks for print
COLOURS = ("#000000", "#d55e00", "#0072b2", "#009e73")
DASHES = ("-", (0, (6, 2)), (0, (1, 1.3)), (0, (6, 2, 1, 2)))
MARKS = ("", "o", "s", "^")
NAMES = {"ring": "ring (first in, first out)", "lru": "least recently used", "least": "the least possible"}
# how the faults of a kind are filled
FILLS = {"first touch": {"facecolor": "#000000"}, "from memory": {"facecolor": "#ffffff", "hatch": "////"},
         "read": {"facecolor": "#d55e00"}}
KIND_NAMES = {"first touch": "first touch of a page", "from memory": "page still in memory", "read": "page read"}
TIME = "requests answered"
COSTS = [1, 10, 100]


def style(number: int) -> dict[str, Any]:
    """How the line of this number is drawn: 16 are told apart without colours."""
    place = number % len(DASHES)
    return {"color": COLOURS[place], "linestyle": DASHES[place], "linewidth": 1.6,
            "marker": MARKS[number // len(DASHES) % len(MARKS)], "markersize": 4, "markevery": 0.1}


def read_trace(path: str) -> bytes:
    try:
        return file_bytes(path)
    except OSError as fault:
        raise NotDrawn(f"{path} can't be read: {fault.strerror}") from None


def draw_curves(axes: Any, words: argparse.Namespace) -> str:
    rows = fault_curves(read_trace(words.traces[0]), words.traces[0], words.process, words.frames)
    for number, curve in enumerate(CURVES):
        axes.plot([frames for frames, _ in rows], [faults[curve] for _, faults in rows], label=NAMES[curve], **style(number))
    axes.set_xlabel("frames")
    axes.set_ylabel("faults")
    return f"Faults of process {words.process}"


def draw_working_set(axes: Any, words: argparse.Namespace) -> str:
    rows = reports_over_time(read_trace(words.traces[0]), words.traces[0], words.samples)
    places = [place for place, _ in rows]
    processes = [row.process for row in rows[0][1].processes]
    for number, process in enumerate(processes):
        counts = [report.processes[number].count for _, report in rows]
        axes.plot(places, counts, label=f"pages of {process}", drawstyle="steps-post", **style(number))
    if len(processes) == 1:
        limits = [report.processes[0].limit for _, report in rows]
        axes.plot(places, limits, label=f"limit of {processes[0]}", drawstyle="steps-post", **style(1))
    axes.set_xlabel(TIME)
    axes.set_ylabel("pages of 512 bytes")
    return "Working set and limit" if len(processes) == 1 else "Working sets"


def draw_faults(axes: Any, words: argparse.Namespace) -> str:
    rows = faults_over_time(read_trace(words.traces[0]), words.traces[0], words.samples)
    if not rows:
        raise NotDrawn(f"{words.traces[0]} has no requests")
    ends = [end for end, _ in rows]
    starts, below = [0, *ends[:-1]], [0] * len(rows)
    for kind in KINDS:
        heights = [faults[kind] for _, faults in rows]
        axes.bar(starts, heights, [end - start for start, end in zip(starts, ends)], bottom=below, align="edge",
                 label=KIND_NAMES[kind], edgecolor="#000000", linewidth=0.4, **FILLS[kind])
        below = [first + second for first, second in zip(below, heights)]
    axes.set_xlabel(TIME)
    axes.set_ylabel(f"faults in {ends[0]} requests")
    return "Faults over time"


def draw_lists(axes: Any, words: argparse.Namespace) -> str:
    rows = reports_over_time(read_trace(words.traces[0]), words.traces[0], words.samples)
    for number, (state, name) in enumerate((("FREE", "free list"), ("MODIFIED", "modified list"))):
        axes.plot([place for place, _ in rows], [report.counts[state] for _, report in rows], label=name,
                  drawstyle="steps-post", **style(number))
    axes.set_xlabel(TIME)
    axes.set_ylabel("frames")
    return "Free and modified list over time"


def draw_thrashing(axes: Any, words: argparse.Namespace) -> str:
    from matplotlib.ticker import StrMethodFormatter

    loads = loads_of((path, read_trace(path)) for path in words.traces)
    for number, cost in enumerate(words.costs):
        axes.plot([load.processes for load in loads], [load.work(cost) for load in loads],
                  label="as 1 reference" if cost == 1 else f"as {cost} references",
                  **{**style(number), "marker": MARKS[1 + number % 3], "markevery": 1})
    axes.set_yscale("log")
    axes.yaxis.set_major_formatter(StrMethodFormatter("{x:g}"))
    axes.set_xlabel("processes")
    axes.set_ylabel("share of time for references (%, log scale)")
    return "Throughput, if a transfer of a page takes as long"


# a kind of picture: what draws it, and how many traces it takes
KINDS_OF_PICTURE = {"curves": (draw_curves, 1), "working-set": (draw_working_set, 1), "faults": (draw_faults, 1),
                    "lists": (draw_lists, 1), "thrashing": (draw_thrashing, None)}


def matplotlib_figure() -> tuple[Any, Any]:
    """A figure with one pair of axes. Without matplotlib it is a NotDrawn."""
    try:
        import matplotlib
    except ImportError:
        raise NotDrawn("a picture needs matplotlib, which isn't there") from None
    matplotlib.use("Agg")
    from matplotlib import pyplot
    from matplotlib.ticker import MaxNLocator

    # text stays text, and names of parts don't change from call to call
    matplotlib.rcParams.update({"svg.fonttype": "none", "svg.hashsalt": "neqysbar", "font.size": 10,
                                "font.family": "sans-serif", "figure.dpi": 100})
    figure, axes = pyplot.subplots(figsize=INCHES, layout="constrained")
    axes.xaxis.set_major_locator(MaxNLocator(integer=True))
    axes.yaxis.set_major_locator(MaxNLocator(integer=True))
    axes.grid(True, color="#dddddd", linewidth=0.6)
    axes.set_axisbelow(True)
    axes.spines[["top", "right"]].set_visible(False)
    return figure, axes


def save(figure: Any, path: str) -> None:
    """Writes the picture in the form of its name; a picture that can't be written leaves none."""
    import matplotlib

    form = path.rsplit(".", 1)[1]
    metadata = {"Creator": f"Matplotlib {matplotlib.__version__}", "Date": None} if form == "svg" else {"Software": None}
    try:
        figure.savefig(path, format=form, metadata=metadata, dpi=150)
    except OSError as fault:
        raise NotDrawn(f"{path} can't be written: {fault.strerror}") from None


def draw(words: argparse.Namespace) -> None:
    figure, axes = matplotlib_figure()
    title = KINDS_OF_PICTURE[words.kind][0](axes, words)
    if len(words.traces) == 1:
        title += f", {os.path.basename(words.traces[0])}"
    axes.set_title(words.title or title, fontsize=11, loc="left")
    if axes.get_yscale() == "linear":
        axes.set_ylim(bottom=0)
    axes.margins(x=0.02)
    # below the axes, so that it hides no line
    axes.legend(loc="upper center", bbox_to_anchor=(0.5, -0.16), ncol=3, frameon=False, handlelength=3, fontsize=9)
    for path in words.output:
        save(figure, path)


def output_name(text: str) -> str:
    if not text.endswith((".svg", ".png")):
        raise argparse.ArgumentTypeError(f"{text!r} ends neither with .svg nor with .png")
    return text


def parser() -> argparse.ArgumentParser:
    made = argparse.ArgumentParser(prog="python -m neqysbar.plot", description=__doc__, allow_abbrev=False,
                                   formatter_class=argparse.RawDescriptionHelpFormatter)
    made.add_argument("kind", choices=sorted(KINDS_OF_PICTURE), help="what is drawn")
    made.add_argument("traces", nargs="+", metavar="TRACE", help="a trace; for thrashing one for each number of processes")
    made.add_argument("--output", required=True, action="append", type=output_name, metavar="FILE",
                      help="a .svg or a .png; may be given again")
    made.add_argument("--process", metavar="X", choices="ABCDEFGHIJKLMNOP", default="A", help="for curves (default: A)")
    made.add_argument("--frames", type=number_list, metavar="VALUES", default=list(range(1, 17)), help="for curves (default: 1:16)")
    made.add_argument("--samples", type=at_least_one, metavar="N", default=200, help="places in time (default: 200)")
    made.add_argument("--costs", type=number_list, metavar="VALUES", default=COSTS,
                      help="for thrashing: the references that a transfer is as long as (default: 1,10,100)")
    made.add_argument("--title", help="the title, in place of the one it would have")
    return made


def main(words: Optional[list[str]] = None) -> int:
    asked = parser().parse_args(words)
    try:
        if len(asked.traces) > (KINDS_OF_PICTURE[asked.kind][1] or len(asked.traces)):
            raise NotDrawn(f"{asked.kind} takes one trace")
        draw(asked)
    except (NotDrawn, OSError) as fault:
        print(f"plot: {fault}", file=sys.stderr)
        return USAGE
    return DONE


if __name__ == "__main__":
    sys.exit(main())
