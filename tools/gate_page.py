"""docs/GATE.md, what the gate costs: the two tables that it has, and how they are measured.

tools/gate.py writes the one of the gate's parts, and tools/cost.py that of the crates, each from a
run of its own. A table stands between two marks, and all else on the page stays as it is."""
import datetime
import os
import pathlib
import platform
import re
import resource
import time

import crates
import gate_record

PAGE = crates.TOP / gate_record.PAGE
PARTS, CRATES = "parts", "crates"


def times():
    """The seconds of the clock; and the processor seconds of all processes that this one has waited
    for, and of those that they have waited for."""
    used = resource.getrusage(resource.RUSAGE_CHILDREN)
    return time.monotonic(), used.ru_utime + used.ru_stime


def since(before):
    """The seconds since then, of the clock and of the processor."""
    return [now - then for now, then in zip(times(), before)]


def memory():
    """The bytes of memory of this machine."""
    return os.sysconf("SC_PHYS_PAGES") * os.sysconf("SC_PAGE_SIZE")


def processors():
    """How many processors this process may use."""
    return len(os.sched_getaffinity(0))


def machine():
    """The processors and the memory of this machine."""
    about = pathlib.Path("/proc/cpuinfo").read_text(errors="replace")
    model = re.search(r"model name\s*: (.*)", about)
    name = model[1] if model else platform.machine()
    return f"{processors()} processors {name}, {memory() / (1 << 30):.0f} GiB"


class Run:
    """A run that measures: when and where it began, and what else the machine did then."""

    def __init__(self):
        self.date, self.load = datetime.date.today(), os.getloadavg()[0]

    def about(self, *more):
        """What is to be known of it, as a list."""
        lines = [f"{self.date}, {machine()}; a load of {self.load:.1f} before it.",
                 f"`{gate_record.toolchain()}`.", *more]
        return [f"- {line}" for line in lines]


def table(head, rows):
    """A table in Markdown. A row is a name and its seconds, None for those that it has not."""
    lines = [head, ["---"] * len(head)]
    lines += [[name, *("" if it is None else f"{it:,.0f}" for it in cells)] for name, cells in rows]
    return [f"| {' | '.join(line)} |" for line in lines]


def put(part, lines):
    """Writes a part of the page."""
    begin, end = f"<!-- {part} -->\n", f"<!-- end of {part} -->\n"
    before, begun, rest = PAGE.read_text(encoding="utf-8").partition(begin)
    _, ended, after = rest.partition(end)
    if not begun or not ended:
        raise ValueError(f"{PAGE} has no marks of its part {part}")
    text = "\n".join(["", *lines, "", ""])
    PAGE.write_text(before + begin + text + end + after, encoding="utf-8")
    print(f"{gate_record.PAGE} has the new {part}")
