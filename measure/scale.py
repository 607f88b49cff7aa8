#!/usr/bin/env python3
"""Measures PROGRAM and a baseline on generated systems, and writes the figures into the pages.

usage: measure/scale.py PROGRAM [--runs N]     measures all systems of docs/scale.md, N times each (4). Writes
                                               measure/scale.tsv and, from it, all that --draw writes. After an
                                               interruption, the same call goes on
       measure/scale.py PROGRAM.. [--runs N] SYSTEM..
                                               measures these systems alone, as "grid 100". Prints their rows, and
                                               writes no file
       measure/scale.py --draw                 writes the tables and the picture of docs/scale.md, and the table of
                                               README.md, from measure/scale.tsv

A SYSTEM is a family and its numbers, as measure/systems.py takes them, in one argument. `cmp` before the family
measures the comparison of the system with itself, in place of its minimisation. The baseline is
measure/yardstick. Further programs with the command line of `autbis` take its place. The script ends with an error if
two programs write different outputs. measure/out keeps the systems, the baseline and the rows that are measured.

A row of scale.tsv has the system, the relation, the states, the transitions, the rounds, the processor time in seconds
(the least of N runs; the programs take turns), the peak memory in MB, and the seconds of the baseline, first with every
signature computed in every round and then without. `-` stands for a run of over a minute, and for a baseline that
cannot be built.
"""

import argparse
import filecmp
import itertools
import hashlib
import math
import os
import re
import resource
import statistics
import subprocess
import sys
import tempfile
import textwrap
from datetime import date
from pathlib import Path
from typing import Callable, NamedTuple, Optional

HERE = Path(__file__).resolve().parent
TOP, KEPT, ROWS = HERE.parent, HERE / "out", HERE / "scale.tsv"
PAGE, PICTURE, README = TOP / "docs" / "scale.md", TOP / "docs" / "scale.svg", TOP / "README.md"
LONGEST = 60  # seconds
LEAST = 15  # megabytes: this script takes about as much, and a run cannot be seen to take less
SHORTEST = 0.05  # seconds: shorter runs are noise, and are not drawn
RELATIONS = {"strong": "#2166ac", "branching": "#d6604d"}
GREY = "#555"
SIDE = 300  # of a panel
FAR = 3  # a point gets a name if it is off the line by this factor
KINDS = {  # the name, {} being the last number; the family; the numbers, the largest last
    "philosophers {}": ("philosophers", (6, 7, 8)),
    "leader election {}": ("leader-election", (11, 13)),
    "token ring {}": ("token-ring", (10, 13, 15)),
    "lossy channels {}": ("lossy-channels", (3, 6, 9)),
    "buffers {}": ("buffers", (9, 11, 12)),
    "counters {}": ("counters", (6, 7, 8)),
    "random, sparse": ("random-system", ("100000 100000 20 20", "1000000 1000000 20 20")),
    "random, 5 % internal": ("random-system", ("1000000 10000000 20 5",)),
    "random, 20 % internal": ("random-system", ("1000000 10000000 20 20",)),
    "random, 30 % internal": ("random-system", ("25000 100000 5 30", "250000 1000000 5 30")),
}
HARD = {
    "internal cycle": ("internal-cycle", (5_000, 10_000)),
    "chain": ("chain", (2_000, 5_000, 10_000)),
    "line with returns": ("line-with-returns", (5_000, 10_000, 20_000)),
    "poll": ("poll", (2_500, 5_000, 10_000)),
    "idlers": ("idlers", ("2000 2000", "4000 4000", "8000 8000")),
    "unions in turn": ("unions-in-turn", ("10 4000", "11 4000", "12 4000")),
}
ALL = {**KINDS, **HARD}
SYSTEMS = {kind: [f"{family} {numbers}" for numbers in sizes] for kind, (family, sizes) in ALL.items()}
IN_README = "leader election {}", "token ring {}", "lossy channels {}", "buffers {}", "random, 5 % internal"
BASELINES = "every signature in every round", "only signatures that can have changed"
MODELS = [kind for kind in KINDS if not kind.startswith("random")]
MADE = "inert-cycle", "inert-line", "line-over-hub", "hubs", "halves", "own-labels", "twins", "line-by-twos"
SIZES = 8_000, 16_000, 32_000
LARGE = "chain 1000000", "layers 1000 38", "unions-in-turn 14 4000"
COMPARED = {f"random, {share} % internal": f"cmp random-system 1000000 10000000 20 {share}" for share in (5, 20)}


class Row(NamedTuple):
    system: str
    relation: str
    states: int
    transitions: int
    rounds: Optional[int]
    seconds: Optional[float]
    megabytes: Optional[int]
    others: list  # the seconds of the yardsticks, or of other programs

    def text(self):
        spelled = lambda cell: "-" if cell is None else f"{cell:.2f}" if isinstance(cell, float) else str(cell)
        return "\t".join(map(spelled, [*self[:-1], *self.others])) + "\n"


def rows_of(text):
    """The rows of a file like scale.tsv, by system and relation."""
    rows = {}
    for line in text.splitlines():
        system, relation, *cells = line.split("\t")
        numbers = [None if cell == "-" else float(cell) if "." in cell else int(cell) for cell in cells]
        rows[system, relation] = Row(system, relation, *numbers[:5], numbers[5:])
    return rows


def run(words, out=subprocess.DEVNULL):
    """The processor seconds, the megabytes and the standard error of one run; None if it took too long."""
    bounded = lambda: resource.setrlimit(resource.RLIMIT_CPU, (LONGEST, LONGEST))
    process = subprocess.Popen(words, stdin=subprocess.DEVNULL, stdout=out, stderr=subprocess.PIPE, preexec_fn=bounded)
    said = process.stderr.read().decode()
    _, status, used = os.wait4(process.pid, 0)
    process.returncode = os.waitstatus_to_exitcode(status)
    if process.returncode > 0:
        sys.exit(f"measure/{Path(sys.argv[0]).name}: {' '.join(words)}: status {process.returncode}: {said}")
    return None if process.returncode else (used.ru_utime + used.ru_stime, round(used.ru_maxrss / 1024), said)


def made(system):
    """The file of a system. It is written now if it is not in measure/out."""
    file = KEPT / f"{system.replace(' ', '-')}.aut"
    if not file.exists():
        beside = file.with_suffix(".new")
        # A separate process writes the system, since the measured memory of a run is never below that of this process.
        with open(beside, "wb") as out:
            status = subprocess.run([sys.executable, HERE / "systems.py", *system.split()], stdout=out).returncode
        if status != 0:
            beside.unlink()
            sys.exit(1)
        os.replace(beside, file)
    return file


def baselines():
    """The command lines of the baseline's two variants, once it is built."""
    cargo = ["cargo", "build", "--release", "--offline", "--quiet", "--target-dir", KEPT / "target"]
    try:
        subprocess.run([*cargo, "--manifest-path", HERE / "yardstick" / "Cargo.toml"], check=True)
    except (OSError, subprocess.CalledProcessError) as error:
        print(f"measure/scale.py: the baseline is not built and not measured: {error}", file=sys.stderr)
        return []
    built = str(KEPT / "target" / "release" / "yardstick")
    return [[built, "--every"], [built]]


def check_texts(system, calls):
    """Ends if two of these calls write different outputs."""
    with tempfile.TemporaryDirectory(dir=KEPT) as work:
        texts = []
        for call in calls:
            text = f"{work}/{len(texts)}"
            with open(text, "wb") as out:
                texts += [text] if run(call, out) else []
            if texts and not filecmp.cmp(texts[0], texts[-1], shallow=False):
                sys.exit(f"measure/scale.py: {system}: this call writes another output: {' '.join(call)}")


def measured(programs, runs, system, relation):
    command, copies = ("cmp", 2) if system.startswith("cmp ") else ("min", 1)
    file = made(system.split("cmp ")[-1])
    with open(file) as text:
        _, transitions, states = map(int, re.findall(r"\d+", text.readline()))
    calls = [[first, command, *words, "--relation", relation, *[str(file)] * copies] for first, *words in programs]
    check_texts(system, calls)
    calls[0] += ["--stats"] * (command == "min")
    found = [[] for _ in calls]
    for _ in range(runs):
        for call, times in zip(calls, found):
            # A call that took too long is not run again.
            if None not in times:
                times.append(run(call))
    first, *others = [None if None in times else min(times) for times in found]
    seconds, megabytes, said = first or (None, None, "")
    rounds = re.search(r"rounds (\d+)", said)
    rounds = rounds and int(rounds[1])
    others = [best and best[0] for best in others] + [None] * (2 - len(others))
    return Row(system, relation, states, transitions, rounds, seconds, megabytes, others)


def measure_all(program, runs):
    """Writes scale.tsv with the rows of all systems, and draws. Until then measure/out keeps the rows for a next call."""
    programs = [[program], *baselines()]
    kept = KEPT / "rows.tsv"
    about = f"# {hashlib.sha256(Path(program).read_bytes()).hexdigest()} {len(programs)} programs, {runs} runs\n"
    first, *lines = (kept.read_text() if kept.exists() else "").splitlines(keepends=True) or [""]
    # The last line is incomplete if the script was interrupted.
    lines = [line for line in lines if line.endswith("\n")] if first == about else []
    rows = rows_of("".join(lines))
    write(kept, "".join([about, *lines]))
    with open(kept, "a") as out:
        for system, relation in wanted():
            if (system, relation) not in rows:
                # The page shows no baseline of a comparison.
                turns = programs[:1] if system in COMPARED.values() else programs
                rows[system, relation] = measured(turns, runs, system, relation)
                print(rows[system, relation].text(), end="", file=out, flush=True)
            print(rows[system, relation].text(), end="", flush=True)
    write(ROWS, "".join(rows[key].text() for key in wanted()))
    where = f"on {date.today()} at commit {commit(program)}, on {machine()}"
    figures = "The figures in the tables and in the picture"
    draw(wrapped(f"{figures} were measured {where}. Each time is the shortest time of {runs} runs."))
    kept.unlink()


def commit(program):
    """The commit of the repository that holds the program."""
    call = "git", "-C", Path(program).resolve().parent, "describe", "--always", "--dirty", "--abbrev=8", "--exclude=*"
    return subprocess.run(call, stdout=subprocess.PIPE, text=True, check=True).stdout.strip()


def machine():
    model = re.search(r"model name\s*: (.*)", Path("/proc/cpuinfo").read_text())
    return f"{os.cpu_count()} processors" + (f" ({' '.join(model[1].split())})" if model else "")


def wanted():
    """The systems and relations of all rows."""
    for systems in SYSTEMS.values():
        yield from ((system, relation) for system in systems for relation in RELATIONS)
    yield from itertools.product(COMPARED.values(), RELATIONS)
    yield from ((f"{family} {n}", "branching") for family in MADE for n in SIZES)
    yield from ((system, "branching") for system in LARGE)


def write(path, text):
    """Replaces the file by the text, once all of it is written."""
    beside = path.with_name(f"{path.name}.new")
    try:
        beside.write_text(text)
        os.replace(beside, path)
    finally:
        beside.unlink(missing_ok=True)


def named(kind):
    """The name of a kind, with the number of its largest system."""
    return kind.format(SYSTEMS[kind][-1].split()[-1])


def of_kinds(rows):
    """The rows of the first two tables and of the picture, each with its kind."""
    keys = ((kind, system, relation) for kind in SYSTEMS for system in SYSTEMS[kind] for relation in RELATIONS)
    return [(kind, rows[system, relation]) for kind, system, relation in keys if (system, relation) in rows]


def of_system(rows, system):
    return [rows[system, relation] for relation in RELATIONS]


def largest(rows, kind):
    return of_system(rows, SYSTEMS[kind][-1])


def megabytes(row):
    return f"{row.megabytes:,}" if row.megabytes > LEAST else f"under {LEAST + 1}"


def cells(row):
    """The rounds, seconds and megabytes of a row of a table."""
    if row.seconds is None:
        return "-", f"over {LONGEST}", "-"
    return f"{row.rounds:,}", f"{row.seconds:.2f}", megabytes(row)


def wrapped(text, indent=0):
    return textwrap.wrap(text, 120, subsequent_indent=" " * indent)


def line_of(*cells):
    return f"| {' | '.join(map(str, cells))} |"


def table(rows, names):
    """A table of systems: a line for each name of the pairs (name, system), with both relations."""
    cells_of = "rounds", "time, s", "memory, MB"
    found = [f"{relation}: {cell}" for relation in ("Strong", "Branching") for cell in cells_of]
    yield line_of("System", "States", "Transitions", *found)
    yield "|---|--:|--:|--:|--:|--:|--:|--:|--:|"
    for name, system in names:
        # A system may be new, and not measured yet.
        if (system, "branching") in rows:
            strong, branching = of_system(rows, system)
            sizes = (f"{size:,}" for size in (strong.states, strong.transitions))
            yield line_of(name, *sizes, *cells(strong), *cells(branching))


def compared(rows):
    """The table of `cmp`: two copies of a system."""
    found = [f"{relation}: {cell}" for relation in ("Strong", "Branching") for cell in ("time, s", "memory, MB")]
    yield line_of("Two copies of", *found)
    yield "|---|--:|--:|--:|--:|"
    for name, system in COMPARED.items():
        strong, branching = of_system(rows, system)
        yield line_of(name, f"{strong.seconds:.1f}", megabytes(strong), f"{branching.seconds:.1f}", megabytes(branching))


def large(rows):
    """The table of single large systems, for branching bisimilarity."""
    yield line_of("System", "States", "Transitions", "Rounds", "Time, s", "Memory, MB", "Baseline: time, s")
    yield "|---|--:|--:|--:|--:|--:|--:|"
    for row in (rows[system, "branching"] for system in LARGE):
        baseline = f"over {LONGEST}" if row.others[1] is None else f"{row.others[1]:.2f}"
        yield line_of(f"`{row.system}`", f"{row.states:,}", f"{row.transitions:,}", *cells(row), baseline)


def summary(rows):
    """The first points of the page: the largest models, and the random systems at both limits."""
    models = [largest(rows, kind) for kind in MODELS]
    sizes = [row.transitions for row, _ in models]
    yield from wrapped(f"- **Models** of {min(sizes):,} to {max(sizes):,} transitions take {at_most(models)}.", 2)
    limits = [largest(rows, kind) for kind in KINDS if rows[SYSTEMS[kind][-1], "strong"].transitions == 10_000_000]
    both = "1,000,000 states and 10,000,000 transitions"
    yield from wrapped(f"- **Random systems of the largest size**, {both}, take {at_most(limits)}.", 2)


def at_most(pairs):
    """The most seconds for either relation, and the most memory, of pairs of rows."""
    strong, branching = (max(row.seconds for row in rows) for rows in zip(*pairs))
    most = max(row.megabytes for row in itertools.chain(*pairs))
    times = f"{strong:.1f} s for strong bisimilarity and {branching:.1f} s for branching bisimilarity"
    return f"at most {times}, and at most {most} MB of memory"


def ratios(rows):
    """The table of ratios: the processor time over that of each baseline, if this one takes a while."""
    lines = [line_of("The baseline computes", "Strong: average", "largest", "Branching: average", "largest")]
    lines.append("|---|--:|--:|--:|--:|")
    for column, baseline in enumerate(BASELINES):
        found = {relation: [] for relation in RELATIONS}
        for _, row in of_kinds(rows):
            other = row.others[column]
            if row.seconds and other and other >= 0.1:
                found[row.relation].append(row.seconds / other)
        if not all(found.values()):
            return []
        both = ((f"{statistics.geometric_mean(times):.2f}", f"{max(times):.1f}") for times in found.values())
        lines.append(line_of(baseline, *itertools.chain(*both)))
    return lines


def made_table(rows):
    """The families that were made to be hard and are not, for branching bisimilarity: the slowest of each size."""
    yield line_of("Size N", "Longest time, s", "Most memory, MB")
    yield "|--:|--:|--:|"
    for n in SIZES:
        column = [rows[f"{family} {n}", "branching"] for family in MADE]
        slowest = max(LONGEST if row.seconds is None else row.seconds for row in column)
        yield line_of(f"{n:,}", f"{slowest:.2f}", megabytes(max(column, key=lambda row: row.megabytes or 0)))


def readme_rows(rows):
    yield "                        states transitions  strong  branching   MB"
    for kind in IN_README:
        name = named(kind)
        strong, branching = largest(rows, kind)
        seconds = f"{strong.seconds:8.1f} {branching.seconds:10.1f} {max(strong.megabytes, branching.megabytes):4}"
        yield f"{name:20} {strong.states:9,} {strong.transitions:11,}{seconds}"


class Panel(NamedTuple):
    """A plot with two logarithmic axes, and a line of slope 1 through the median. Each axis has two ends."""

    left: int
    top: int
    across_title: str
    up_title: str
    across: tuple
    up: tuple
    line: Callable  # the text at the line, by its rate
    point: Callable  # the two values of a row

    def place(self, across, up):
        along = lambda value, ends: math.log(value / ends[0]) / math.log(ends[1] / ends[0])
        return self.left + SIDE * along(across, self.across), self.top + SIDE * (1 - along(up, self.up))

    def axes(self):
        for value in ticks(self.across):
            x, _ = self.place(value, self.up[0])
            yield f'<path d="M{x:.1f} {self.top}v{SIDE}"/>' + words_at(x, self.top + SIDE + 16, spelled(value), "middle")
        for value in ticks(self.up):
            _, y = self.place(self.across[0], value)
            yield f'<path d="M{self.left} {y:.1f}h{SIDE}"/>' + words_at(self.left - 6, y + 4, spelled(value), "end")
        yield words_at(self.left + SIDE / 2, self.top + SIDE + 36, self.across_title, "middle")
        x, y = self.left - 44, self.top + SIDE / 2
        yield f'<g transform="rotate(-90 {x} {y})">{words_at(x, y, self.up_title, "middle")}</g>'

    def drawn(self, rows):
        """The elements: the axes, the line with its text, the points, and the names of the points far from the line."""
        points = [(kind.replace(" {}", ""), row.relation, *self.point(row)) for kind, row in rows]
        rate = statistics.median(up / across for _, _, across, up in points)
        start, end = max(self.across[0], self.up[0] / rate), min(self.across[1], self.up[1] / rate)
        (x, y), (x_2, y_2) = (self.place(across, across * rate) for across in (start, end))
        yield from self.axes()
        yield f'<path class="line" d="M{x:.1f} {y:.1f}L{x_2:.1f} {y_2:.1f}"/>'
        taken = [(x + part / 60 * (x_2 - x), y + part / 60 * (y_2 - y)) for part in range(61)]
        names = {(self.line(rate), GREY): taken[45]}
        how_far = lambda point: abs(math.log(point[3] / point[2] / rate))
        for point in sorted(points, key=how_far):
            name, relation, across, up = point
            place = self.place(across, up)
            taken.append(place)
            yield mark(relation, *place)
            if how_far(point) > math.log(FAR):
                names[name, RELATIONS[relation]] = place
        rooms = [(x - 5, y - 5, x + 5, y + 5) for x, y in taken]
        for (words, colour), (x, y) in names.items():
            room = self.room(words, x, y, rooms)
            rooms.append(room)
            to_x, to_y = min(max(x, room[0]), room[2]), min(max(y, room[1]), room[3])
            if math.hypot(to_x - x, to_y - y) > 12:
                yield f'<path class="to" stroke="{colour}" d="M{x:.1f} {y:.1f}L{to_x:.1f} {to_y:.1f}"/>'
            yield words_at(room[0], room[1] + 11, words, colour=colour)

    def room(self, words, x, y, rooms):
        """Room for a name near a place: the nearest where it covers least of the marks, the line and other names."""
        wide = 6.3 * len(words)
        rays = [(r, a / 8 * math.pi) for r in range(10, 150, 7) for a in range(16)]
        # The corner nearest to the place is at the end of a ray from it.
        corners = [(x + r * math.cos(a), y + r * math.sin(a)) for r, a in rays]
        free = [(a - wide * (a < x), b - 14 * (b < y)) for a, b in corners]
        free = [(a, b, a + wide, b + 14) for a, b in free]
        within = lambda low, one, side: low < one[side] and one[side + 2] < low + SIDE
        inside = lambda one: within(self.left, one, 0) and within(self.top, one, 1)
        shared = lambda a, b, side: max(0, min(a[side + 2], b[side + 2]) - max(a[side], b[side]))
        covered = lambda one: sum(shared(one, other, 0) * shared(one, other, 1) for other in rooms)
        return min(filter(inside, free), key=covered)


def mark(relation, x, y):
    """The mark of a run: a circle for strong bisimilarity, a square for branching bisimilarity."""
    if relation == "strong":
        return f'<circle cx="{x:.1f}" cy="{y:.1f}" r="4" fill="{RELATIONS[relation]}" fill-opacity="0.75"/>'
    square = f'x="{x - 3.5:.1f}" y="{y - 3.5:.1f}" width="7" height="7"'
    return f'<rect {square} fill="{RELATIONS[relation]}" fill-opacity="0.75"/>'


def words_at(x, y, words, kind="name", colour="black"):
    return f'<text class="{kind}" x="{x:.1f}" y="{y:.1f}" fill="{colour}">{words}</text>'


def ticks(ends):
    """The values of an axis that get a line: the powers of ten, and on a short axis 2 and 5 times these."""
    steps = (1,) if ends[1] / ends[0] > 1000 else (1, 2, 5)
    return [value for power in range(-2, 9) for step in steps if ends[0] <= (value := step * 10.0**power) <= ends[1]]


def spelled(value):
    if value >= 1e4:
        return f"{value / 1e6:,.0f} M" if value >= 1e6 else f"{value / 1e3:,.0f} k"
    return f"{value:,.0f}" if value >= 1 else f"{value:g}"


def drawing(rows):
    """The picture: time and memory over transitions, time over visits, and time for branching over time for strong."""
    time, ends = "processor time, s", (0.04, 20)
    by_transitions = lambda row: (row.transitions, row.seconds)
    memory = lambda row: (row.transitions, row.megabytes)
    by_visits = lambda row: (row.transitions * row.rounds, row.seconds)
    by_strong = lambda row: (rows[row.system, "strong"].seconds, row.seconds)
    speed = lambda things: lambda rate: f"{1e-6 / rate:.{1 if rate > 1e-7 else 0}f} M {things} per second"
    size = lambda rate: f"{rate * 1e6:.0f} bytes per transition"
    times = lambda rate: f"{rate:.1f} times"
    shown = [(kind, row) for kind, row in of_kinds(rows) if (row.seconds or 0) >= SHORTEST]
    large = [(kind, row) for kind, row in shown if row.megabytes > LEAST]
    strong = {row.system for _, row in shown if row.relation == "strong"}
    both = [(kind, row) for kind, row in shown if row.relation == "branching" and row.system in strong]
    yield '''<svg xmlns="http://www.w3.org/2000/svg" width="790" height="840" viewBox="0 0 790 840">
<title>Processor time and memory of autbis min</title>
<style>text { font: 12px sans-serif } .middle { text-anchor: middle } .end { text-anchor: end }
path { stroke: #ddd } .line { stroke: #555; stroke-dasharray: 4 3 } .to { stroke: inherit; stroke-width: 0.7 }</style>
<rect width="100%" height="100%" fill="white"/>'''
    strong_time, branching_time = "processor time for strong, s", "processor time for branching, s"
    many = 5e3, 2e7
    yield from Panel(70, 20, "transitions", time, many, ends, speed("transitions"), by_transitions).drawn(shown)
    yield from Panel(470, 20, "transitions", "peak memory, MB", many, (LEAST, 5000), size, memory).drawn(large)
    yield from Panel(70, 410, "rounds times transitions", time, (5e4, 1e9), ends, speed("visits"), by_visits).drawn(shown)
    yield from Panel(470, 410, strong_time, branching_time, ends, ends, times, by_strong).drawn(both)
    for x, relation in zip((76, 146), RELATIONS):
        yield mark(relation, x, 785) + words_at(x + 10, 789, relation)
    yield words_at(240, 789, "Dashed: slope 1, through the median. Named: points off the dashed line")
    yield words_at(240, 805, f"by a factor of {FAR} or more. Runs of under {SHORTEST} s are left out.")
    yield "</svg>"


def replaced(text, pattern, lines):
    """The text with these lines between the two groups of the pattern. Without lines, the text stays as it is."""
    lines = "\n".join(lines)
    text, count = re.subn(pattern, lambda found: found[1] + lines + found[2] if lines else found[0], text, flags=re.S)
    if count != 1:
        sys.exit(f"measure/scale.py: a page must have exactly one match of the pattern {pattern}")
    return text


def draw(day=()):
    rows = rows_of(ROWS.read_text())
    usual = [(named(kind), SYSTEMS[kind][-1]) for kind in KINDS]
    hard = [(f"`{system}`", system) for kind in HARD for system in SYSTEMS[kind]]
    tables = {"table": table(rows, usual), "hard systems": table(rows, hard), "made systems": made_table(rows)}
    tables = {**tables, "cmp": compared(rows), "large systems": large(rows)}
    parts = {"summary": summary(rows), "day": day, "ratios": ratios(rows), **tables}
    page = PAGE.read_text()
    for mark, lines in parts.items():
        page = replaced(page, rf"(<!-- measure/scale.py: {mark} -->\n).*?(\n\n)", lines)
    readme = replaced(README.read_text(), r"(```text\n) +states transitions.*?(\n```)", readme_rows(rows))
    write(PICTURE, "\n".join(drawing(rows)) + "\n")
    write(PAGE, page)
    write(README, readme)


def main():
    parser = argparse.ArgumentParser(usage=__doc__.split("usage: ")[1].split("\n\n")[0], add_help=False)
    parser.add_argument("words", nargs="*")
    parser.add_argument("--runs", type=int, default=4)
    parser.add_argument("--draw", action="store_true")
    given = parser.parse_intermixed_args()
    systems = [word for word in given.words if " " in word]
    program, *others = [word for word in given.words if " " not in word] or [None]
    if given.draw == bool(program) or given.draw and systems or given.runs < 1 or others and not systems:
        parser.error("give --draw, or a PROGRAM with at least one run, or programs and systems")
    try:
        KEPT.mkdir(exist_ok=True)
        if systems:
            programs = [[program], *([[other] for other in others] or baselines())]
            for system in systems:
                for relation in RELATIONS:
                    print(measured(programs, given.runs, system, relation).text(), end="", flush=True)
        elif program:
            measure_all(program, given.runs)
        else:
            draw()
    except OSError as error:
        sys.exit(f"measure/scale.py: {error}")
    except (KeyError, TypeError, ValueError) as error:
        sys.exit(f"measure/scale.py: measure/scale.tsv lacks a row, or has a row that cannot be read: {error!r}")
    except KeyboardInterrupt:
        sys.exit("measure/scale.py: interrupted; the same call goes on")


if __name__ == "__main__":
    main()
