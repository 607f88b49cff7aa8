#!/usr/bin/env python3
"""Draws examples of this folder before and after, each as NAME.svg: the system, and then its quotient. Bisimilar
states have one colour; a state that is bisimilar to no other is white. Grey steps are internal.

The colours are PROGRAM's own verdicts: `cmp` says which state of the quotient each state of the system is equivalent
to. Needs graphviz, which draws both. Where states go depends on its version. `extras/draw` draws any other system.

usage: draw.py PROGRAM
"""

import os
import re
import sys
from pathlib import Path
from typing import NamedTuple

sys.path.insert(0, str(Path(__file__).resolve().parent.parent / "extras"))
import autbis  # noqa: E402
from aut import Look, Refused, System, graph, path_of, rendered, run, write  # noqa: E402

GAP, LINE = 12, 20  # between parts of a picture, and from one line of words to the next


class Picture(NamedTuple):
    name: str
    relation: str
    before: Look = Look()
    after: Look = Look()
    hide: bool = False  # the labels of NAME.hide
    beside: bool = False  # the quotient stands to the right of the system, not below
    meanings: tuple = ()  # of the states of the quotient
    visible: str = "visible step"


# What keeps labels clear of states.
APART = 'overlap=prism sep="+9" splines=true '
PICTURES = (
    Picture("coffee-machine", "strong"),
    Picture("coffee-chosen-by-coin", "strong"),
    Picture("mutual-exclusion", "branching", Look("neato", APART + "start=3"), Look("neato", APART + "start=1")),
    Picture(
        "alternating-bit",
        "branching",
        Look("neato", "splines=line start=1", size=0.17, font=0, length=0.75),
        Look(settings="rankdir=LR nodesep=1.2 ranksep=0.9", size=0.7, font=16),
        hide=True,
        beside=True,
        meanings=("empty", "holds 1", "holds 2", "holds 3"),
        visible="send or receive",
    ),
)
COLOURS = (
    *("#8dd3c7", "#ffd480", "#bebada", "#fb9a8f", "#80b1d3", "#b3de69", "#fccde5"),
    *("#d9b38c", "#a6cee3", "#ccebc5", "#c8c8c8", "#ece33b", "#45b0a0", "#e07ba4"),
)

# The heads of arrows, by their colours.
HEADS = "".join(
    f'<marker id="a{colour}" markerWidth="7" markerHeight="5" refY="2.5" orient="auto">'
    f'<path d="M0 0 7 2.5 0 5z" fill="#{colour}"/></marker>'
    for colour in ("000", "999")
)


def drawn(system, look, fills):
    """The width, the height and the elements of the picture of a system."""
    picture = rendered(graph(system, look, fills), look.engine, "svg").decode("utf-8")
    shape = re.search(r'<svg width="(\d+)pt" height="(\d+)pt".*?>(.*)</svg>', picture, re.S)
    if shape is None:
        raise Refused(5, f"{look.engine} draws no picture")
    wide, high, elements = shape.groups()
    # Without names, and with a state or a step on each line.
    elements = re.sub(r'<!--.*?-->\n|<title>.*?</title>\n| id="\w+"| class="\w+"', "", elements)
    elements = re.sub(r"\n(?!<g>)", "", elements)
    # In fewer bytes: one element for a step and its arrow's head, and one place after a point.
    elements = elements.replace('stroke="black" d', 'stroke="#000" d').replace("#999999", "#999")
    elements = re.sub(r'(stroke="#(\w+)") (d=".*?")/><polygon .*?/>', r'\1 marker-end="url(#a\2)" \3/>', elements)
    return int(wide), int(high), re.sub(r"<g>(.*)</g>", r"\1", re.sub(r"(\d\.\d)\d+", r"\1", elements))


def moved(x, y, elements):
    return f'<g transform="translate({x} {y})">{elements}</g>'


def said(x, y, words):
    return f'<text x="{x}" y="{y + 10}" font-family="sans-serif" font-size="12">{words}</text>'


def dot(fill, x=8, rim=1):
    return f'<circle cx="{x}" cy="6" r="7" fill="{fill}" stroke="black" stroke-width="{rim}"/>'


def matches(program, relation, system, quotient):
    """For each state of the system, the state of the quotient that it is equivalent to; None if there is none."""
    are_equivalent = lambda s, t: autbis.equivalent(system.text(s), quotient.text(t), relation, program=program)
    ends = range(quotient.states)
    return [next((t for t in ends if are_equivalent(s, t)), None) for s in range(system.states)]


def picture(program, kind):
    """The picture of one system and of its quotient."""
    file = Path(f"{kind.name}.aut")
    hidden = [line.strip('"') for line in file.with_suffix(".hide").read_text().splitlines()] if kind.hide else []
    quotient = System.of(autbis.minimise(file, kind.relation, hidden, program).encode())
    system = System.of(file.read_bytes(), hidden)
    found = matches(program, kind.relation, system, quotient)
    fills = dict(zip((t for t in range(quotient.states) if found.count(t) > 1), COLOURS))
    wide, high, left = drawn(system, kind.before, [fills.get(t, "white") for t in found])
    wide_2, high_2, right = drawn(quotient, kind.after, [fills.get(t, "white") for t in range(quotient.states)])
    x, y = (wide + 2 * GAP, 0) if kind.beside else (0, high + LINE + GAP)
    titles = (
        f"{kind.name}{' with its hide list' if kind.hide else ''}: {system.states} states",
        f"its quotient by {kind.relation} bisimilarity: {quotient.states} states",
    )
    items = list(legend(kind, system, found, fills))
    foot = max(high, y + high_2) + LINE + 2 * GAP
    width, height = max(wide, x + wide_2, x + 7 * len(titles[1])) + 2 * GAP, foot + LINE * len(items)
    return "\n".join([
        f'<svg xmlns="http://www.w3.org/2000/svg" width="{width}" height="{height}" viewBox="0 0 {width} {height}">',
        f"<title>{'; '.join(titles)}</title>",
        '<rect width="100%" height="100%" fill="white"/>',
        said(GAP, GAP, titles[0]),
        said(GAP + x, GAP + y, titles[1]),
        HEADS,
        moved(GAP, GAP + LINE, left),
        moved(GAP + x, GAP + LINE + y, right),
        *(moved(GAP, foot + LINE * k, item) for k, item in enumerate(items)),
        "</svg>\n",
    ])  # fmt: skip


def legend(kind, system, found, fills):
    """What the picture's marks mean: each mark with its words."""
    yield dot("white", rim=3) + said(24, 0, "first state")
    for t, meaning in enumerate(kind.meanings):
        yield dot(fills[t]) + said(24, 0, f"{meaning}: {found.count(t)} states become {t}")
    if not kind.meanings:
        yield dot(COLOURS[0]) + dot(COLOURS[1], 24) + said(40, 0, "one colour: bisimilar, and what they become")
    if len(fills) < len(set(found)):
        yield dot("white") + said(24, 0, "bisimilar to no other")
    arrow = lambda colour: f'<path d="M0 6H14" stroke="{colour}"/><path d="M12 2 20 6 12 10z" fill="{colour}"/>'
    if any(label == "i" for _, label, _ in system.transitions):
        yield arrow("black") + said(28, 0, kind.visible)
        yield arrow("#999") + said(28, 0, "internal step")


def draw(_, program):
    program = os.path.abspath(path_of(program, "name a path"))
    path_of("dot", "it comes with graphviz")
    os.chdir(Path(__file__).resolve().parent)
    for kind in PICTURES:
        try:
            write(picture(program, kind), f"{kind.name}.svg")
        except (OSError, autbis.Fault) as error:
            raise Refused(5, str(error)) from None


run(draw, __doc__, (1,))
