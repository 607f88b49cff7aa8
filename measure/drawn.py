#!/usr/bin/env python3
"""Compares the outputs of two programs for random systems: the output of `min` for each system, and the verdict of `cmp`
for two, for both relations, with and without hide lists. Both programs have the command line of `autbis`; the second
one is measure/yardstick.

The same SEED draws the same systems. At the first difference, the script keeps the files in measure/out/differing, and
ends with status 1. It leaves out the transitions and states that the difference does not need.

usage: drawn.py PROGRAM SECOND [SEED]
"""

import random
import re
import subprocess
import sys
import tempfile
import time
from pathlib import Path

TOP = Path(__file__).resolve().parent.parent
sys.path.insert(0, str(TOP / "extras"))
from aut import refusing, run  # noqa: E402

CASES = 200
LABELS = 'a', '"a"', "b", "tau", "A_1", '"put !1"', '"x" "y"', '"0"', '"\\"', "i", '"i"'
KEPT = TOP / "measure" / "out" / "differing"


def system(draw):
    """States, all of which can be reached from state 0, and transitions, some of which are internal."""
    states = draw.choice((1, 2, 5, 8, 13, 20, 40, 100))
    labels = draw.sample(LABELS, draw.randint(1, 4))
    share, far = draw.choice((0, 0.2, 0.5, 0.8)), draw.choice((1, 3, states))
    label = lambda: draw.choice(("i", '"i"')) if draw.random() < share else draw.choice(labels)
    lines = [(max(0, target - draw.randint(1, far)), label(), target) for target in range(1, states)]
    # If `back` is 0 or 1, no transition leads to a state with a smaller number.
    back = draw.choice((-far, -1, 0, 1))
    for _ in range(int(states * draw.choice((0, 0.3, 1, 3)))):
        source = draw.randrange(states)
        target = source + draw.randint(back, far)
        if 0 <= target < states:
            lines.append((source, label(), target))
    return states, lines


def doubled(draw, states, lines):
    """One or two copies of each state, with a transition to a copy of each target: equivalent for both relations."""
    copies, number = [], 0
    for _ in range(states):
        copies.append(range(number, number + draw.randint(1, 2)))
        number = copies[-1].stop
    pick = lambda s: draw.sample(copies[s], draw.randint(1, len(copies[s])))
    return number, [(s, label, t) for source, label, target in lines for s in copies[source] for t in pick(target)]


def delayed(draw, states, lines):
    """An internal transition before some states: equivalent for branching bisimilarity."""
    moved, more = [], []
    for source, label, target in lines:
        if draw.random() < 0.3:
            more.append((states + len(more), "i", target))
            target = more[-1][0]
        moved.append((source, label, target))
    return states + len(more), moved + more


def altered(draw, states, lines):
    """Another target for one transition."""
    place = draw.randrange(len(lines)) if lines else 0
    moved = [(source, label, draw.randrange(states)) for source, label, _ in lines[place : place + 1]]
    return states, lines[:place] + moved + lines[place + 1 :]


def second(draw, one):
    """A system to compare with the given system. It often is equivalent, and often differs only a little."""
    for change in (doubled, delayed, altered, altered):
        if draw.random() < 0.5:
            one = change(draw, *one)
    return one


def text(draw, states, lines):
    """The text of a file of the system, with states and transitions in random order. The first state has any number."""
    numbers = draw.sample(range(states), states)
    comma = draw.choice((",", ", ", " , "))
    shown = [f"({numbers[source]}{comma}{label}{comma}{numbers[target]})\n" for source, label, target in lines]
    return f"des ({numbers[0]}, {len(lines)}, {states})\n" + "".join(draw.sample(shown, len(shown)))


def differing(seed, case, programs, folder):
    """The command line for which the outputs differ in this case, or None if they differ for no command line."""
    draw = random.Random(f"{seed} {case}")
    one = system(draw)
    for name, drawn in (("one", one), ("two", second(draw, one))):
        (folder / f"{name}.aut").write_text(text(draw, *drawn))
    hidden = draw.sample(LABELS, draw.randint(0, 3))
    (folder / "hide").write_text("".join(f"{label}\n" for label in hidden))
    for relation in ("strong", "branching"):
        for words in (["min", "one.aut"], ["min", "two.aut"], ["cmp", "one.aut", "two.aut"]):
            words[1:1] = ["--relation", relation, *(["--hide", "hide"] if hidden else [])]
            if differ(words, programs, folder):
                return words
    return None


def differ(words, programs, folder):
    """Whether the outputs for this command line differ, or one is missing."""
    ended = [subprocess.run([program, *words], cwd=folder, stdout=subprocess.PIPE) for program in programs]
    one, other = ((it.returncode, it.stdout) for it in ended)
    return one != other or one[0] > 1 or not one[1]


def shrink(path, still):
    """Removes transitions of a system, and states without transitions, while `still` is true."""
    header, *lines = path.read_text().splitlines()
    first, _, states = re.findall(r"\d+", header)
    write = lambda some: path.write_text("\n".join([f"des ({first}, {len(some)}, {states})", *some, ""]))
    for k in reversed(range(len(lines))):
        write(lines[:k] + lines[k + 1 :])
        if still():
            del lines[k]
    write(lines)
    before, parts = path.read_text(), [re.match(r"\((\d+)(.*\D)(\d+)\)", line).groups() for line in lines]
    used = sorted({first}.union(*(part[::2] for part in parts)), key=int)
    first, states = used.index(first), len(used)
    write([f"({used.index(source)}{label}{used.index(target)})" for source, label, target in parts])
    if not still():
        path.write_text(before)


def keep(folder):
    """Keeps the files of a case for which the outputs differ."""
    KEPT.mkdir(parents=True, exist_ok=True)
    for file in folder.iterdir():
        (KEPT / file.name).write_bytes(file.read_bytes())


def compare(_, program, other, seed=None):
    programs, seed = [Path(program).resolve(), Path(other).resolve()], seed or str(time.time_ns())
    with refusing(f"seed {seed}, {program} and {other}"), tempfile.TemporaryDirectory() as work:
        folder = Path(work)
        for case in range(CASES):
            words = differing(seed, case, programs, folder)
            if words:
                for name in sorted({"one.aut", "two.aut"}.intersection(words)):
                    shrink(folder / name, lambda: differ(words, programs, folder))
                keep(folder)
                sys.exit(f"seed {seed}: the outputs differ, or one is missing; the files are in {KEPT}: {' '.join(words)}")
    print(f"{CASES} random pairs of systems: both programs write the same; seed {seed}", flush=True)


if __name__ == "__main__":
    run(compare, __doc__, (2, 3))
