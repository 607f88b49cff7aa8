#!/usr/bin/env python3
"""Writes a system of a family to standard output. The families are the models and the other systems of docs/scale.md.

usage: measure/systems.py FAMILY NUMBER..     measure/systems.py philosophers 8 > philosophers.aut
       measure/systems.py                     lists the families

The systems of a family with the same numbers are always the same, byte for byte.
"""

import inspect
import itertools
import os
import random
import re
import sys
from functools import lru_cache
from typing import Any, NamedTuple, Optional

MOST_STATES, MOST_TRANSITIONS = 1_000_000, 10_000_000
MAY_BE_NONE = {"percent", "a", "c"}
FAMILIES = {}  # by name: the function that makes a system, the names of its numbers, and a description


class Wrong(Exception):
    """Numbers that a family does not take."""


def family(function, make=None):
    """Adds a function of numbers to the families. If `make` is given, it makes the system in place of the function, and
    its numbers are the parameters of the function except for the first."""
    numbers = list(inspect.signature(function).parameters)[1 if make else 0 :]
    about = " ".join(function.__doc__.split())
    FAMILIES[function.__name__.replace("_", "-")] = make or function, numbers, about
    return make or function


# Models. A model is its first state and its moves: from a state, pairs of a label and the state that it leads to. The
# label i is internal. States are numbered as they are found.


def model(first):
    """Makes a family from its moves, a function of a state and of numbers. `first` returns the first state for the
    numbers."""
    return lambda moves: family(moves, lambda *numbers: explored(first(*numbers), lambda s: moves(s, *numbers)))


def explored(first, moves):
    """The first state, the number of states, the number of transitions, and the lines of the system."""
    number, found, lines, transitions = {first: 0}, [first], [], 0
    for source, state in enumerate(found):
        if len(found) > MOST_STATES:
            raise Wrong("there are too many states")
        row = []
        for label, target in moves(state):
            place = number.setdefault(target, len(found))
            if place == len(found):
                found.append(target)
            row.append(f"({source}, {spelled(label)}, {place})\n")
        transitions += len(row)
        lines.append("".join(row))
    return 0, len(found), transitions, lines


@lru_cache(maxsize=None)
def spelled(label):
    """A label as a file has it: between quotation marks if it is not plain."""
    return label if label.replace("_", "").isalnum() else f'"{label}"'


def put(state, changes):
    """A copy of the bytes with other values at some positions."""
    state = bytearray(state)
    for place, value in changes.items():
        state[place] = value
    return bytes(state)


@model(bytes)
def philosophers(s, k):
    """k dining philosophers (Dijkstra 1971). Each of them sits down, takes the left fork, then the right fork, eats,
    and puts the right fork back first. Sitting down and eating are visible. Taking forks and putting them back is
    internal."""
    thinks, sits, has_left, has_both, eats, has_left_still = range(6)
    visible = {thinks: "SIT", has_both: "EAT"}
    for p, phase in enumerate(s):
        lacks_left = phase == sits and s[(p + 1) % k] in (has_both, eats)
        lacks_right = phase == has_left and s[p - 1] >= has_left
        if not lacks_left and not lacks_right:
            # The phases go round.
            yield f"{visible[phase]} !{p}" if phase in visible else "i", put(s, {p: (phase + 1) % 6})


# The first k bytes are the stations; after them, byte k + p is 1 more than what is on the link from p to p + 1.
@model(lambda k: bytes(2 * k))
def leader_election(s, k):
    """k stations in a ring of one-place links elect the station with the greatest number (Chang and Roberts 1979).
    Starting, being elected and the signal of the leader are visible. Messages are internal. k must not be a multiple of
    7."""
    if k % 7 == 0:
        raise Wrong("stations would share their numbers")
    idle, active, passive, leads = range(4)
    for p in range(k):
        before, after, own = k + (p - 1) % k, k + p, (7 * p + 3) % k
        if s[p] == idle and s[after] == 0:
            yield f"START !{p}", put(s, {p: active, after: own + 1})
        if s[p] != idle and s[before] != 0:
            name = s[before] - 1
            if name == own:
                if s[p] == active:
                    yield f"LEADER !{p}", put(s, {before: 0, p: leads})
            elif name < own and s[p] != passive:
                yield "i", put(s, {before: 0})
            elif s[after] == 0:
                yield "i", put(s, {before: 0, after: name + 1, p: leads if s[p] == leads else passive})
        if s[p] == leads:
            yield f"OPEN !{p}", s


# The last byte is the place of the token.
@model(lambda k: bytes(k + 1))
def token_ring(s, k):
    """k stations pass a token around (Le Lann 1977). The station with the token may enter. Wishing to enter, entering
    and leaving are visible. Passing the token on is internal."""
    idle, waits, inside = range(3)
    for p in range(k):
        here = s[k] == p
        if s[p] == idle:
            yield f"WANT !{p}", put(s, {p: waits})
            if here:
                yield "i", put(s, {k: (p + 1) % k})
        elif s[p] == waits and here:
            yield f"ENTER !{p}", put(s, {p: inside})
        elif s[p] == inside:
            yield f"LEAVE !{p}", put(s, {p: idle})


class Protocol(NamedTuple):
    """An alternating-bit protocol over channels of one place, each of which may lose what it holds."""

    sending: Optional[int] = None  # the value that the sender has
    bit: int = 0  # of the sender
    message: Any = None  # the channel of messages: a value and a bit
    awaited: int = 0  # the bit that the receiver awaits
    delivering: Optional[int] = None  # the value that the receiver has
    answer: Optional[int] = None  # the channel of acknowledgements: a bit


@model(lambda k: (Protocol(), Protocol()))
def lossy_channels(s, k):
    """Two alternating-bit protocols (Bartlett, Scantlebury and Wilkinson 1969) in series, for k values, over one-place
    channels that can lose a message. Putting in and getting out are visible. Everything else is internal."""
    left, right = s
    for own in s:
        now = lambda **new: (own._replace(**new), right) if own is left else (left, own._replace(**new))
        if own is left and own.sending is None:
            for value in range(k):
                yield f"PUT !{value}", now(sending=value)
        if own is right and own.sending is None and left.delivering is not None:
            yield "i", (left._replace(delivering=None), right._replace(sending=left.delivering))
        if own is right and own.delivering is not None:
            yield f"GET !{own.delivering}", now(delivering=None)
        if own.sending is not None and own.message is None:
            yield "i", now(message=(own.sending, own.bit))
        if own.message is not None:
            yield "i", now(message=None)
            value, bit = own.message
            if bit == own.awaited and own.delivering is None:
                yield "i", now(message=None, delivering=value, awaited=1 - bit)
            elif bit != own.awaited and own.answer is None:
                yield "i", now(message=None, answer=bit)
        if own.answer is not None:
            yield "i", now(answer=None)
            if own.answer == own.bit and own.sending is not None:
                yield "i", now(answer=None, sending=None, bit=1 - own.bit)


def moves_in_a_row(s, values, put_in, get_out):
    """The moves of a row of one-place buffers. A byte is 0 for an empty buffer, and otherwise 1 plus the index of the
    value that the buffer holds."""
    if s[0] == 0:
        for held, value in enumerate(values, 1):
            yield f"{put_in} !{value}", put(s, {0: held})
    for p in range(len(s) - 1):
        if s[p] != 0 and s[p + 1] == 0:
            yield "i", put(s, {p: 0, p + 1: s[p]})
    if s[-1] != 0:
        yield f"{get_out} !{values[s[-1] - 1]}", put(s, {len(s) - 1: 0})


@model(bytes)
def buffers(s, k):
    """A row of k one-place buffers for two values (Milner 1989). Putting in and getting out are visible. Passing on is
    internal."""
    return moves_in_a_row(s, (0, 1), "PUT", "GET")


@model(bytes)
def counters(s, k):
    """k independent counters modulo 5. Nothing is internal."""
    for p, value in enumerate(s):
        yield f"{'WRAP' if value == 4 else 'INC'} !{p}", put(s, {p: (value + 1) % 5})


# Other systems, by their transitions. The first state is the one with the highest number, unless a family sets it.


def made(steps, states=None, first=None):
    steps = list(itertools.islice(steps, MOST_TRANSITIONS + 1))
    last = max((max(source, target) for source, _, target in steps), default=None)
    if last is None:
        raise Wrong("there are no steps")
    lines = (f"({source}, {label}, {target})\n" for source, label, target in steps)
    return last if first is None else first, states or last + 1, len(steps), lines


END, TAIL = 0, 12


def many(letter, count, first=0):
    return [f"{letter}{k}" for k in range(first, first + count)]


def row(s, targets=(), labels=(), by="i"):
    """The transitions of a state: internal ones (or with the label `by`) to the targets, and one with each label to the
    end."""
    yield from ((s, by, target) for target in targets)
    yield from ((s, label, END) for label in labels)


def below_top(first, rows):
    """States from `first` on, each with the targets and labels of its row, and one more state that leads to all of
    them."""
    rows = list(rows)
    states = range(first, first + len(rows))
    for s, (targets, labels) in zip(states, rows):
        yield from row(s, targets, labels)
    yield from row(states[-1] + 1, states, by="go")


def line(n, step):
    """States 1 to n, each with its own label and an internal transition to the next state, or to the previous state if
    `step` is -1. The direction decides whether a signature adds its own pair at the front or at the end."""
    for s in range(1, n + 1):
        yield from row(s, [s + step] if 1 <= s + step <= n else [], [f"l{s}"])


def failing(line, tail, odd=None):
    """A line of these states. Each state can also fail into the second state of a tail, but the odd state fails into
    the first. The tail leads to the dead state behind it, as the line does."""
    dead = tail + TAIL
    for place, s in enumerate(line):
        yield s, "a", line[place + 1] if place + 1 < len(line) else dead
        yield s, "fail", tail + (s != odd)
    yield from ((s, "b", s + 1) for s in range(tail, dead))
    yield line[0], "off", tail


def two_hubs(n, *labels):
    """Two states with these labels, and n states with an internal transition to both."""
    for hub in (1, 2):
        yield from row(hub, [], labels[hub - 1])
    yield from below_top(3, n * [((1, 2), ())])


def teeth(k, n):
    """States 1 to k with n labels each, dealt out in turn: the labels of the states alternate."""
    return ((1 + x % k, f"l{x}", END) for x in range(k * n))


def sets(k):
    """A state for each set of the states 1 to k, with internal transitions to the state of the set without its last
    member and to that member."""
    last = lambda members: members.bit_length()
    rest = lambda members: members - (1 << last(members) - 1)
    rows = (((last(members), *([k + rest(members)] if rest(members) else [])), ()) for members in range(1, 2**k))
    return below_top(k + 1, rows)


# Each function from here to the loop over `globals()` is a family.
OTHERS = {*globals(), "OTHERS"}


def random_system(states, transitions, labels, percent):
    """A random system. The first transitions lead to each state from a random earlier state, and the other transitions
    lead from a random state to a random state. A share of `percent` of the transitions is internal, and the others have
    one of `labels` labels. The transitions are ordered by their sources, as in the files that tools write."""
    if transitions < states - 1:
        raise Wrong("there are too few transitions to reach all states")
    if percent > 100:
        raise Wrong("the percentage is over 100")
    draw = random.Random(1).random
    # One number for each transition: 10 million numbers fit into memory, and are sorted quickly.
    steps = [0] * transitions
    for k in range(transitions):
        is_tree = k + 1 < states
        source = int(draw() * (k + 1 if is_tree else states))
        target = k + 1 if is_tree else int(draw() * states)
        label = 0 if draw() * 100 < percent else 1 + int(draw() * labels)
        steps[k] = (source << 64) + (label << 32) + target
    steps.sort()
    low = (1 << 32) - 1
    names = ["i", *many("a", labels)]
    return 0, states, transitions, (f"({x >> 64}, {names[x >> 32 & low]}, {x & low})\n" for x in steps)


def chain(n):
    """A line of n states with one label. The number of rounds is n."""
    return made(((s, "a", s + 1) for s in range(n - 1)), first=0)


def idle(n):
    """A line of n transitions, in a system with the largest number of states: most states have no line in the file."""
    return made(((s, "a", s + 1) for s in range(n)), states=MOST_STATES, first=0)


# Systems with about n rounds. Most rounds separate one state from many.


def mixed_chain(n, k):
    """A line of n states with one label. Each k-th transition is internal."""
    return made(((s, "i" if s % k == k - 1 else "a", s + 1) for s in range(n - 1)), first=0)


def line_with_returns(n):
    """A line of n states with internal transitions. Each third state also leads back to the first, with two labels in
    turn."""
    onward = ((s, "i", s + 1) for s in range(n - 1))
    back = ((s, "ab"[s % 2], END) for s in range(0, n, 3))
    return made(itertools.chain(onward, back), first=0)


def poll(n):
    """A ring of n states with internal transitions. From the k-th state, `start` leads to a line of k transitions with
    the label `run`, which ends at the first state."""
    ring = (((s, "i", (s + 1) % n), (s, "start", n + s)) for s in range(n))
    lines = ((n + s, "run", n + s - 1 if s else 0) for s in range(n))
    return made(itertools.chain(*ring, lines), first=0)


def idlers(k, r):
    """k workers have an internal transition to one server, which can begin jobs of 0 to r - 1 steps. No internal
    transitions follow each other, but in each of r rounds the signatures of all workers change."""
    server, ends = k, k + 1
    for worker in range(k):
        yield from row(worker, [server])
    yield from row(server, range(ends, ends + r), by="serve")
    yield from ((job, "step", job - 1) for job in range(ends + 1, ends + r))
    yield from row(ends + r, range(k), by="go")


def up_and_down(n):
    """A line of n states with a label to go up and a label to go down. From each state an internal transition leads to
    another state, which leads back with a third label."""
    steps = (((s, "up", s + 1), (s + 1, "down", s)) if s + 1 < n else () for s in range(n))
    closing = (((s, "i", n + s), (n + s, "close", s)) for s in range(n))
    return made(itertools.chain.from_iterable(itertools.chain(steps, closing)), first=0)


def ladder(n):
    """Two lines of n states, one with internal transitions and one with a label. The same label leads from each line to
    the other."""
    rungs = (((s, "a", n + s), *(((s, "i", s + 1), (n + s, "a", n + s + 1)) if s + 1 < n else ())) for s in range(n))
    return made(itertools.chain.from_iterable(rungs), first=0)


def line_to_middle(n):
    """A line of n transitions. Each state also has a transition with another label to the state in the middle."""
    return made(((s, label, t) for s in range(n) for label, t in (("step", s + 1), ("back", n // 2))), first=0)


def failing_line(n):
    """A line of n states, each of which can fail into a tail of 12 transitions. The round that separates the second
    state of the tail from the first must process the whole line."""
    return made(failing(range(n), n), first=0)


def failing_line_back(n):
    """The line of failing-line, numbered from its end."""
    return made(failing(range(n)[::-1], n), first=n - 1)


def failing_line_odd(n):
    """The line of failing-line, but one state near its end fails elsewhere. The round that processes the other states
    does not process this state."""
    return made(failing(range(n), n, max(n - 40, 0)), first=0)


def failing_cycle(n, high):
    """A cycle of n states, which are never separated, beside a line of `high` states with the same label. All states
    can fail into the same tail."""
    tail = n + high
    yield from failing(range(n, tail), tail)
    for s in range(n):
        yield s, "a", (s + 1) % n
        yield s, "fail", tail + 1
    yield from row(tail + TAIL + 1, [0, n], by="go")


def line_beside_loop(n):
    """A line of n transitions and a loop with the same label. For each state of the line there are three states with a
    label of their own: two of them lead to the state of the line, and one leads to the loop. In each round one such
    state is the smaller part of its block, and the round does not process it."""
    loop, dead, three = n, n + 1, n + 2
    yield from ((s, "a", s + 1 if s + 1 < n else dead) for s in range(n))
    yield loop, "a", loop
    for s in range(n):
        yield from ((three + 3 * s + k, f"c{s}", loop if k == 2 else s) for k in range(3))
    yield from row(three + 3 * n, [0, *range(three, three + 3 * n)], by="go")


def chain_and_loop(n):
    """A line of n transitions with one label, and one internal loop beside the line."""
    yield from ((s, "a", s + 1) for s in range(n))
    yield n + 1, "i", n + 1
    yield from row(n + 2, [0, n + 1], by="go")


def trace(n):
    """A line of n random transitions: three in ten are internal, and the others have one of three labels."""
    draw = random.Random(n).random
    return made(((s, "i" if draw() < 0.3 else "abc"[int(draw() * 3)], s + 1) for s in range(n)), first=0)


def copies_and_line(n, k, r):
    """Two copies of n states with k transitions each to random states, so that no block is a singleton, an internal
    loop, and a line of r transitions. The rounds split only the line, while many long signatures are cached."""
    draw = random.Random(n)
    rows = [[(draw.randrange(200), draw.randrange(n)) for _ in range(k)] for _ in range(n)]
    for copy in (0, n):
        yield from ((copy + s, f"l{label}", target + n * draw.randrange(2)) for s in range(n) for label, target in rows[s])
    yield from ((2 * n + s, "l0", 2 * n + s + 1) for s in range(r))
    yield 2 * n + r + 1, "i", 2 * n + r + 1
    yield from row(2 * n + r + 2, [0, n, 2 * n, 2 * n + r + 1], by="go")


def pair_and_line(k, r):
    """Two equal states with k labels each, an internal loop, and a line of r transitions. The rounds split only the
    line, while one long signature is cached."""
    yield from ((s, f"l{label}", 2) for s in range(2) for label in range(k))
    yield from ((3 + s, "a", 4 + s) for s in range(r))
    yield 4 + r, "i", 4 + r
    yield from row(5 + r, [0, 1, 3, 4 + r], by="go")


def internal_cycle(n):
    """A cycle of internal transitions over all states but the last. From each state a transition leads to the last
    state, with one of ten labels in turn. For strong bisimilarity there are about as many rounds as states."""
    cycle = (((s, "i", (s + 1) % (n - 1)), (s, f"a{s % 10}", n - 1)) for s in range(n - 1))
    return made(itertools.chain.from_iterable(cycle), first=0)


def inert_cycle(n):
    """A cycle of n internal transitions, each state with its own label, and n states that collect the same labels from
    two other states. All of them have the same signature, formed in two ways."""
    a, b = n + 1, n + 2
    for s in range(1, n + 1):
        yield from row(s, [s % n + 1], [f"l{s}"])
        yield from row(b if s == 1 else a, [], [f"l{s}"])
    for s in range(n + 3, 2 * n + 3):
        yield from row(s, [a, b])
    yield from row(2 * n + 3, [1, *range(a, 2 * n + 3)], by="go")


def inert_line(n):
    """A line of n internal transitions. Each state has its own label, so the signatures have 1 to n pairs."""
    return made(line(n, 1), first=1)


def line_over_hub(n):
    """A line of n internal transitions with a label for each state. Each state also leads to one state with n
    labels."""
    hub = n + 1
    yield from row(hub, [], many("h", n))
    yield from line(n, 1)
    yield from ((s, "i", hub) for s in range(1, n + 1))
    yield from row(hub + 1, [1, hub], by="go")


def line_and_hub(n):
    """A line of n internal transitions with a label for each state, one state with n other labels, and n states with
    internal transitions to a state of the line and to that state."""
    hub = n + 1
    yield from line(n, -1)
    yield from row(hub, [], many("h", n))
    yield from below_top(n + 2, (((j, hub), ()) for j in range(1, n + 1)))


def line_by_twos(n):
    """A line of n internal transitions with a label for each state, and n states that each lead to two states of the
    line."""
    yield from line(n, 1)
    yield from below_top(n + 1, (((j, n + 1 - j), ()) for j in range(1, n + 1)))


def hubs(n):
    """Two states with n labels each, n - 1 of them shared, and n states with an internal transition to both."""
    return two_hubs(n, many("l", n), many("l", n, 1))


def halves(n):
    """Two states with n / 2 labels each, none of them shared, and n states with an internal transition to both."""
    return two_hubs(n, many("l", n // 2), many("m", n // 2))


def own_labels(n):
    """A state with n labels, and n states with an internal transition to it and one of its labels again."""
    yield from row(1, [], many("l", n))
    yield from below_top(2, (((1,), (label,)) for label in many("l", n)))


def twins(n):
    """Two states that share n labels and have one more label each. For each of the two states there are n states with
    an internal transition to it, the additional label of the other state, and a new label. So the signatures are equal
    in pairs, and each signature of a pair is formed from another state."""
    yield from row(1, [], [*many("l", n), "x"])
    yield from row(2, [], [*many("l", n), "y"])
    yield from below_top(3, (((hub,), (other, new)) for new in many("z", n) for hub, other in ((1, "y"), (2, "x"))))


def side(n):
    """A state with n + 1 labels and a state with n other labels. n states have an internal transition to the first
    state and their own label, and n states have internal transitions to one of these and to the second state."""
    yield from row(1, [], many("l", n + 1))
    yield from row(2, [], many("m", n))
    for middle, label in enumerate(many("o", n), 3):
        yield from row(middle, [1], [label])
    yield from below_top(n + 3, (((middle, 2), ()) for middle in range(3, n + 3)))


def unions_of_two(k):
    """k states with k labels of their own each. For each two of these states, another state has an internal transition
    to both. The number of pairs of all signatures is k times the number of lines of the file."""
    for hub in range(1, k + 1):
        yield from row(hub, [], many(f"l{hub}_", k))
    yield from below_top(k + 1, ((pair, ()) for pair in itertools.combinations(range(1, k + 1), 2)))


def unions_of_all(k, n):
    """k states with n labels of their own each, and a state for each set of them, with internal transitions to the
    state of the set without its last member and to that member. The labels of a state follow each other."""
    for hub in range(1, k + 1):
        yield from row(hub, [], many(f"l{hub}_", n))
    yield from sets(k)


def unions_in_turn(k, n):
    """The states of unions-of-all, but with labels that are dealt out in turn. The labels of the k states alternate, so
    the signatures of the sets share next to nothing."""
    yield from teeth(k, n)
    yield from sets(k)


def comb(k, n):
    """k states with n labels each, dealt out in turn, and a state with an internal transition to each of them: one
    union of k signatures whose pairs alternate."""
    yield from teeth(k, n)
    yield from row(k + 1, range(1, k + 1))


def comb_but_one(k, n):
    """The k states of a comb, and k states with internal transitions to all of them but one."""
    yield from teeth(k, n)
    yield from below_top(k + 1, (([s for s in range(1, k + 1) if s != out], ()) for out in range(1, k + 1)))


def comb_by_halves(k, n):
    """The k states of a comb, and k states with internal transitions to a random half of them."""
    draw = random.Random(1).random
    yield from teeth(k, n)
    yield from below_top(k + 1, (([s for s in range(1, k + 1) if draw() < 0.5], ()) for _ in range(k)))


def layers(wide, high):
    """`high` layers of `wide` states. Each state has its own label, and internal transitions to two states of the layer
    below."""
    draw = random.Random(1).randrange
    for s in range(1, wide * high + 1):
        yield from row(s, [s - wide, (s - 1) // wide * wide - draw(wide)] if s > wide else [], [f"l{s}"])
    yield from row(wide * high + 1, range(wide * (high - 1) + 1, wide * high + 1), by="go")


def grid(k):
    """Two components in parallel, with k internal transitions each: k * k states, each with its own label."""
    for s in range(1, k * k + 1):
        yield from row(s, [s - k] * (s > k) + [s - 1] * (s % k != 1), [f"l{s}"])


def long_line(k, n):
    """A line of 63 + 2^k internal transitions with a label for each state, and n states with their own label and an
    internal transition to the last state of the line."""
    last = 63 + 2**k
    yield from line(last, -1)
    yield from below_top(last + 1, (((last,), (label,)) for label in many("o", n)))


def two_labels(n, a, c):
    """n states, each with two transitions (the labels number a and c) to a state of its own, which has its own
    label."""
    yield from row(2 * n + 1, [], many("l", max(a, c) + 1))
    for other, label in enumerate(many("o", n), 1):
        yield from row(other, [], [label])
        yield from ((n + other, f"l{number}", other) for number in (a, c))
    yield from row(2 * n + 1, range(n + 1, 2 * n + 1), by="go")


for each in [function for name, function in globals().items() if name not in OTHERS]:
    family(each)


def system_of(words):
    """The system for the arguments: a family and its numbers."""
    if words[0] not in FAMILIES:
        raise Wrong("there is no such family")
    make, names, _ = FAMILIES[words[0]]
    if len(words) - 1 != len(names) or not all(re.fullmatch("[0-9]{1,8}", word) for word in words[1:]):
        raise Wrong(f"the family takes the numbers {' '.join(names)}")
    numbers = [int(word) for word in words[1:]]
    if any(number == 0 and name not in MAY_BE_NONE for name, number in zip(names, numbers)):
        raise Wrong("0 is too small")
    try:
        system = make(*numbers)
        system = system if isinstance(system, tuple) else made(system)
    except (IndexError, ValueError):
        # What does not fit in a byte of a state, or in a range.
        raise Wrong("a number is too large") from None
    _, states, transitions, _ = system
    if states > MOST_STATES or transitions > MOST_TRANSITIONS:
        raise Wrong(f"there are more than {MOST_STATES:,} states or {MOST_TRANSITIONS:,} transitions")
    return system


def text_of(system):
    first, states, transitions, lines = system
    yield f"des ({first}, {transitions}, {states})\n"
    yield from lines


def listed():
    yield __doc__ + "\n"
    for name, (_, numbers, about) in FAMILIES.items():
        yield f"  {name} {' '.join(numbers)}\n      {about}\n"


def main(words):
    try:
        sys.stdout.writelines(text_of(system_of(words)) if words else listed())
        sys.stdout.flush()
    except (Wrong, OSError, MemoryError) as fault:
        print(f"measure/systems.py: {' '.join(words) or 'the list'}: {fault}", file=sys.stderr, flush=True)
        # What is left in the buffer cannot be written.
        os._exit(1)


if __name__ == "__main__":
    main(sys.argv[1:])
