#!/usr/bin/env python3
"""Writes the example systems, each as NAME.aut, and hide lists as NAME.hide, into the folder of this script, or FOLDER.

usage: generate.py [FOLDER]
"""

import sys
from pathlib import Path

HERE = Path(__file__).resolve().parent
sys.path[:0] = (str(HERE.parent / folder) for folder in ("extras", "measure"))
from aut import Refused, run, write  # noqa: E402
from systems import Protocol, explored, moves_in_a_row, put, text_of  # noqa: E402


def alternating_bit(s, bits):
    """The alternating-bit protocol. With one bit in place of two, 0, neither side ever turns its bit."""
    if s.sending is None:
        for value in (1, 2, 3):
            yield f"send !{value}", s._replace(sending=value)
    elif s.message is None:
        yield f"put !{s.sending} !{s.bit}", s._replace(message=(s.sending, s.bit))
    if s.message is not None:
        value, bit = s.message
        yield "lose_message", s._replace(message=None)
        if s.delivering is None and bit == s.awaited:
            yield f"get !{value} !{bit}", s._replace(message=None, awaited=(bit + 1) % bits, delivering=value)
        elif s.delivering is None and s.answer is None:  # seen before: say so again
            yield f"answer_again !{bit}", s._replace(message=None, answer=bit)
    if s.delivering is not None and s.answer is None:
        yield f"receive !{s.delivering}", s._replace(delivering=None, answer=(s.awaited - 1) % bits)
    if s.answer is not None:
        yield "lose_answer", s._replace(answer=None)
        if s.sending is not None and s.answer == s.bit:
            yield f"answered !{s.answer}", s._replace(answer=None, sending=None, bit=(s.bit + 1) % bits)
        else:  # of an earlier message
            yield f"pass_over !{s.answer}", s._replace(answer=None)


def mutual_exclusion(s):
    """Peterson's algorithm for two processes. A state: both places in the program, both flags, whose turn it is."""
    labels = "ask", None, None, "enter", "leave", None
    raises_flag, gives_turn, waits, drops_flag = 1, 2, 3, 5
    for me, other in ((0, 1), (1, 0)):
        place = s[me]
        changed = {raises_flag: {2 + me: 1}, gives_turn: {4: other}, drops_flag: {2 + me: 0}}.get(place, {})
        if place != waits or s[2 + other] == 0 or s[4] == me:
            # The places go round.
            yield f"{labels[place]} !{me}" if labels[place] else "i", put(s, {me: (place + 1) % 6, **changed})


def dining_philosophers(s):
    """Philosophers at a round table, each of whom takes the left fork first. The labels do not say who it was."""
    thinks, waits, eats = range(3)
    for p, phase in enumerate(s):
        if phase == thinks and s[p - 1] != eats:
            yield "left", put(s, {p: waits})
        elif phase == waits and s[(p + 1) % len(s)] == thinks:
            yield "right", put(s, {p: eats})
        elif phase == eats:
            yield "down", put(s, {p: thinks})


def coffee_machine(s, choices):
    """A machine for coffee and tea with three cups that it goes round through. A state: the cup, and what the coin has
    left to choose from or what is made. The coin makes one of the choices."""
    cup, place = s
    if place == "idle":
        for choice in choices:
            yield "coin", (cup, choice)
    elif place in ("coffee", "tea"):
        yield place, ((cup + 1) % 3, "idle")
    else:
        for kind in place:
            yield f"press_{kind}", (cup, kind)


def car_park(s):
    """A car park. A state: which places are taken. The labels say that a car comes or goes, and not to which place."""
    for p, taken in enumerate(s):
        yield "goes" if taken else "comes", put(s, {p: 1 - taken})


SYSTEMS = {
    "alternating-bit": explored(Protocol(), lambda s: alternating_bit(s, bits=2)),
    # A value goes on from place to place by internal steps.
    "buffer-chain": explored(bytes(8), lambda s: moves_in_a_row(s, (0, 1), "put", "get")),
    "car-park": explored(bytes(11), car_park),
    "coffee-chosen-by-coin": explored((0, "idle"), lambda s: coffee_machine(s, [("coffee",), ("tea",)])),
    "coffee-machine": explored((0, "idle"), lambda s: coffee_machine(s, [("coffee", "tea")])),
    "dining-philosophers": explored(bytes(9), dining_philosophers),
    "mutual-exclusion": explored(bytes(5), mutual_exclusion),
    # What a user of the alternating-bit protocol sees.
    "one-place-buffer": explored(bytes(1), lambda s: moves_in_a_row(s, (1, 2, 3), "send", "receive")),
    "unturned-bit": explored(Protocol(), lambda s: alternating_bit(s, bits=1)),
}

# Hide lists of the labels of the alternating-bit protocol: what is still seen.
HIDE_LISTS = {
    "alternating-bit": ("send !1", "send !2", "send !3", "receive !1", "receive !2", "receive !3"),
    "value-1": ("send !1", "receive !1"),
}


def generate(_, folder=HERE):
    if not Path(folder).is_dir():
        raise Refused(3, f"{folder} is no folder")
    bare = lambda label: label.strip('"')
    *_, rows = SYSTEMS["alternating-bit"]
    labels = sorted({line.split(", ")[1] for row in rows for line in row.splitlines()}, key=bare)
    for name, system in SYSTEMS.items():
        write("".join(text_of(system)), f"{folder}/{name}.aut")
    for name, seen in HIDE_LISTS.items():
        write("".join(f"{label}\n" for label in labels if bare(label) not in seen), f"{folder}/{name}.hide")


run(generate, __doc__, (0, 1))
