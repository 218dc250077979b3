"""A legal run of a little more than 100,000 lines, made by formula: three pages take turns in a
ring of two slots."""

LEAST_LINES = 100_000
FRAMES = 8


def long_trace():
    requests = [f"A R1 {(i % 3) * 512:08X}" for i in range(requests_of_run())]
    head = ["VMTRACE 1", f"FRAMES {FRAMES}", "PAGEFILE 4", "PROCESS A 2 2 2 0",
            "MAPZERO A 00000000 3 UW", "BODY"]
    return "\n".join(head + requests + ["END", ""])


def requests_of_run():
    return LEAST_LINES // 3 + 1


def entry_lines(requests):
    """The entries of so many requests. The page that left two requests ago heads the ring."""
    lines = []
    for i in range(requests):
        page, frame = (i % 3) * 512, i % 3
        if i >= 2:
            lines.append(f"A EVICT A {((i - 2) % 3) * 512:08X} F{(i - 2) % 3} REPLACE MODIFIED")
        lines.append(f"A ZERO {page:08X} F{frame}" if i < 3
                     else f"A BACK A {page:08X} F{frame} MODIFIED")
        lines.append(f"A DONE R1 {page:08X} 00")
    return [f"{number} {line}" for number, line in enumerate(lines, 1)]


def report(requests):
    at = len(entry_lines(requests))
    out = (requests - 3) % 3
    lines = [f"PFN AT {at}",
             "FREE 5 MODIFIED 1 BAD 0 RELEASE 0 READERROR 0 WRITING 0 READING 0 ACTIVE 2"]
    for frame in range(3):
        held = ("MODIFIED", 0) if frame == out else ("ACTIVE", 1)
        lines.append(f"FRAME {frame} {held[0]} A/{frame * 512:08X} MODIFY 1 REFS {held[1]} "
                     f"SHARES {held[1]}")
    return lines + ["PAGEFILE 4 CHARGED 3 ASSIGNED 0", "PROCESS A RESIDENT COUNT 2 LIMIT 2",
                    "STATUS 0"]


def long_log():
    requests = requests_of_run()
    return "\n".join(entry_lines(requests) + report(requests) + [""])
