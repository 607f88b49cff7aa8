"""What the scripts in Python share: command lines, exit statuses, a line of progress, reading systems, and pictures.

A script ends with status 3 for wrong usage, 5 if a file cannot be opened or written, and 70 if a program is missing. If
`autbis` finds a fault, the script ends with the status of `autbis` and passes its message on unchanged.
"""

import contextlib
import fcntl
import getopt
import os
import re
import shutil
import signal
import subprocess
import sys
import time
from array import array
from pathlib import Path
from typing import NamedTuple

# A transition of a system without faults: its source, its label as it is written, and its target.
TRANSITION = re.compile(rb"\(\s*(\d+)\s*,\s*(.*\S)\s*,\s*(\d+)\s*\)")
HEADER = re.compile(rb"\s*des\s*\(\s*(\d+)\s*,\s*(\d+)\s*,\s*(\d+)\s*\)")
PIECE = 1 << 20  # bytes of a file that are read at once
LINE_BYTES = 8194  # one more than a line may have with its line feed
F_SETPIPE_SZ = 1031  # as `fcntl` of Linux has it


class Refused(Exception):
    """The script has no answer. The arguments are its exit status and the sentence that gives the reason."""


class Progress:
    """A line on standard error that shows what the script is doing, if standard error is a terminal.

    The line appears after two seconds, is overwritten twice a second, and is erased at the end. `run` starts and ends
    it, so a script only calls `phase` when it begins something, and `advance` when it has read some bytes. A script that
    writes its output bit by bit calls `end` first if standard output is a terminal too.
    """

    def __init__(self):
        self.script, self.is_shown = "", False
        self.phase("starting")

    def start(self, script):
        """Lets the line appear two seconds from now. The alarm signal is used for nothing else."""
        self.script = script
        if os.isatty(2) and os.environ.get("TERM", "dumb") != "dumb":
            signal.signal(signal.SIGALRM, lambda *_: self.show())
            signal.setitimer(signal.ITIMER_REAL, 2, 0.5)

    def phase(self, name, size=0):
        """Begins a phase, such as "reading x.aut". If it reads a file, `size` is the number of its bytes, or 0."""
        self.name, self.size, self.read, self.since = name, size, 0, time.monotonic()

    def advance(self, count):
        """Counts bytes that were read in this phase."""
        self.read += count

    def show(self):
        """Writes the line over what it was."""
        read = f" {self.read:,}{f' of {self.size:,}' if self.size else ''} bytes," if self.read else ""
        line = f"{self.script}: {self.name}:{read} {time.monotonic() - self.since:.0f} s"
        with contextlib.suppress(OSError):
            os.write(2, b"\r\33[K" + line[: (os.get_terminal_size(2).columns or 80) - 1].encode("utf-8", "replace"))
            self.is_shown = True

    def end(self):
        """Erases the line. It does not appear again."""
        if self.script:
            signal.setitimer(signal.ITIMER_REAL, 0)
        if self.is_shown:
            with contextlib.suppress(OSError):
                os.write(2, b"\r\33[K")
            self.is_shown = False


PROGRESS = Progress()


def run(job, about, names, short="", long=()):
    """Calls `job` with the options and file names of the command line, and ends the script if that fails.

    `about` is the help text of the script. `names` contains the numbers of file names that the script accepts. `short`
    and `long` are the options, in the form that `getopt` takes.
    """
    script = Path(sys.argv[0]).name
    about = re.sub(r"(?m)^usage: \S+", lambda _: f"usage: {script}", about.strip())
    open_streams()
    PROGRESS.start(script)
    try:
        options, given = getopt.gnu_getopt(sys.argv[1:], "h" + short, ["help", *long])
        options = dict(options)
        if "-h" in options or "--help" in options:
            write(about + "\n")
        elif len(given) in names:
            job(options, *given)
        else:
            raise getopt.GetoptError("")
    except getopt.GetoptError:
        say(re.search("^usage: .*", about, re.M | re.S).group())
        sys.exit(3)
    except Refused as refused:
        status, why = refused.args
        say(why if why.startswith("autbis: ") else f"{script}: {why}")
        sys.exit(status)
    except BrokenPipeError:
        sys.exit(5)
    except KeyboardInterrupt:
        sys.exit(130)
    finally:
        PROGRESS.end()


def say(words):
    """Writes words to standard error, if that is possible. Ends the line of progress."""
    PROGRESS.end()
    with contextlib.suppress(OSError):
        os.write(2, f"{words}\n".encode("utf-8", "surrogateescape"))


def open_streams():
    """Opens standard streams that are closed, so that no other file takes their numbers.

    To read the input or to write the output then fails, as it does while the stream is closed.
    """
    for stream, access in enumerate((os.O_WRONLY, os.O_RDONLY, os.O_WRONLY)):
        try:
            os.fstat(stream)
        except OSError:
            os.set_inheritable(os.open(os.devnull, access), True)


def path_of(program, where):
    """The path of a program."""
    path = shutil.which(program)
    if path is None:
        raise Refused(70, f"there is no {program} on PATH: {where}")
    return path


@contextlib.contextmanager
def refusing(what):
    """Turns a failed call in this block into a Refused with the reason `what`, unless a reader has closed a pipe."""
    try:
        yield
    except BrokenPipeError:
        raise
    except OSError as error:
        raise Refused(5, f"{what}: {error.strerror}") from None


def write(answer, file=None):
    """Writes an answer, a text or bytes, to a file, or else to standard output. Ends the line of progress.

    A file is written beside its place and then renamed, so that there is a whole file or none.
    """
    PROGRESS.end()
    answer = answer.encode("utf-8") if isinstance(answer, str) else answer
    with refusing(f"{file or 'standard output'}: cannot be written"):
        if file is None or (os.path.exists(file) and not os.path.isfile(file)):
            with open(1 if file is None else file, "wb", closefd=file is not None) as out:
                out.write(answer)
            return
        place = os.path.realpath(file)
        beside = f"{place}.{os.getpid()}"
        try:
            with open(beside, "xb") as out:
                out.write(answer)
            if os.path.exists(place):
                shutil.copymode(place, beside)
            os.replace(beside, place)
        finally:
            with contextlib.suppress(OSError):
                os.unlink(beside)


def accepted(name, take, hide=None, look=lambda *header: None):
    """Reads a system in which `autbis` finds no fault, and returns its header and the labels of a hide list.

    If the name is None, the system is on standard input. `look` is given the header before more is read. Then `take`
    is given the other lines, some at a time, while `autbis` reads them too. Only when this call returns is it known
    that they have no fault, so `take` may raise a ValueError or an OverflowError for faulty ones.
    """
    program = path_of("autbis", "./autbis in a clone builds it, and ./install puts it into ~/.local/bin")
    shown = "standard input" if name is None else name
    with refusing(f"{shown}: cannot be read"):
        given = open(0 if name is None else name, "rb", closefd=name is not None)
        PROGRESS.phase(f"reading {shown}", os.fstat(given.fileno()).st_size)
        line = given.readline(LINE_BYTES)
    seen = HEADER.match(line)
    if seen is not None:
        look(*map(int, seen.groups()))
    with refusing(f"{hide}: cannot be read"):
        listed = open(os.devnull if hide is None else hide, "rb")
    end, feed = os.pipe()
    list_name = f"/dev/fd/{end}"
    # `cmp` reads the list, the first system to its end, and then the second one, whose fault shows that these have none.
    words = [program, "cmp", "--hide", list_name, "/dev/stdin", "/dev/null"]
    pipe = subprocess.PIPE
    hidden, failed = [], []

    def keep(lines):
        try:
            if not failed:
                take(lines)
        except (ValueError, OverflowError) as error:
            failed.append(error)

    with subprocess.Popen(words, stdin=pipe, stdout=subprocess.DEVNULL, stderr=pipe, pass_fds=[end]) as checking:
        os.close(end)
        with given, listed:
            fed(listed, b"", open(feed, "wb"), hide, hidden.append)
            fed(given, line, checking.stdin, shown, keep)
        said = os.fsdecode(checking.stderr.read()).rstrip("\n").rpartition("\n")[2]
    if said == "autbis: /dev/null: bad header" and checking.returncode == 2:
        if failed:
            raise failed[0]
        labels = b"\n".join(hidden).split(b"\n")
        return tuple(map(int, seen.groups())), {label_of(label.strip()) for label in labels}
    if checking.returncode in (0, 1) or not said:
        raise Refused(70, f"{program} gives no answer")
    raise Refused(checking.returncode, said.replace("/dev/stdin", shown, 1).replace(list_name, hide or "", 1))


def fed(given, line, reader, shown, take):
    """Writes a line and then the rest of a stream to `reader`, and gives the lines after the first to `take`.

    Ends early if `reader` is closed, which means that `autbis` has found a fault.
    """

    def read():
        with refusing(f"{shown}: cannot be read"):
            return given.read1(PIECE)

    with contextlib.suppress(OSError):
        # So much fits into the pipe that `autbis` can read while `take` works.
        fcntl.fcntl(reader, F_SETPIPE_SZ, PIECE)
    begun = b""
    with contextlib.suppress(BrokenPipeError), reader:
        reader.write(line)
        PROGRESS.advance(len(line))
        for piece in iter(read, b""):
            reader.write(piece)
            reader.flush()
            PROGRESS.advance(len(piece))
            lines, feed, begun = (begun + piece).rpartition(b"\n")
            if feed:
                take(lines)
    if begun:
        take(begun)


class Cached(dict):
    """The values of a function by its arguments, each computed once. Without a function, it numbers the arguments from 0."""

    def __init__(self, function=None):
        super().__init__()
        self.function = function or (lambda _: len(self))

    def __missing__(self, argument):
        value = self[argument] = self.function(argument)
        return value


def columns(lines):
    """The sources, the labels as they are written, and the targets of the transitions on these lines."""
    many = lines.count(b"\n") + 1
    # Lines as most tools write them need no regular expression.
    is_usual = lines.count(b",") == lines.count(b", ") == 2 * many
    if is_usual and not any(blank in lines for blank in (b"\t", b"\r", b" ,", b",  ")):
        with contextlib.suppress(ValueError):
            words = lines[1:-1].replace(b")\n(", b", ").split(b", ")
            # Most sources stand on several lines in a row.
            sources, targets = array("I", map(Cached(int).__getitem__, words[::3])), array("I", map(int, words[2::3]))
            if len(words) == 3 * many:
                return sources, words[1::3], targets
    sources, labels, targets = zip(*TRANSITION.findall(lines))
    return array("I", map(int, sources)), labels, array("I", map(int, targets))


def label_of(written):
    """The label that is written so, perhaps between quotation marks."""
    return (written[1:-1] if written.startswith(b'"') else written).decode("ascii")


def spelled(label):
    """The label as `autbis` writes it."""
    return label if re.fullmatch("[A-Za-z_][A-Za-z_0-9]*", label) else f'"{label}"'


class System:
    """A system in which some labels have been made internal. Repeated transitions are dropped."""

    def __init__(self, header, transitions, hidden=()):
        """Takes the header as three numbers, and transitions as TRANSITION has them."""
        self.first, _, self.states = header
        labelled = ((int(s), label_of(written), int(t)) for s, written, t in transitions)
        self.transitions = sorted({(s, "i" if label in hidden else label, t) for s, label, t in labelled})

    @classmethod
    def of(cls, text, hidden=()):
        """The system that the bytes of a file have, which are known to have no fault."""
        line, _, lines = text.partition(b"\n")
        return cls(map(int, HEADER.match(line).groups()), TRANSITION.findall(lines), hidden)

    def text(self, first):
        """The text of the system that begins in the given state."""
        lines = (f'({source}, "{label}", {target})\n' for source, label, target in self.transitions)
        return f"des ({first}, {len(self.transitions)}, {self.states})\n" + "".join(lines)


class Look(NamedTuple):
    """How graphviz draws a system. `dot` draws it from left to right, with labels beside transitions; others put them on."""

    engine: str = "dot"
    settings: str = "rankdir=LR nodesep=0.3 ranksep=0.1"
    size: float = 0.33  # of a state, in inches
    font: int = 12  # in points; 0: neither labels nor numbers of states
    length: float = 0.9  # of a transition without a label, in inches, except for `dot`


def quoted(label):
    """A label for graphviz, which puts it between quotation marks. Escapes and entities of graphviz are avoided."""
    return label.replace("&", "&amp;").replace("\\", "\\\\").replace('"', '\\"')


def graph(system, look, fills, title=""):
    """A system under a title, in the language of graphviz."""
    font = f'fontname="sans-serif" fontsize={look.font or 1}'
    lines = [
        f'digraph {{ {look.settings} label="{quoted(title)}" labelloc=t {font}',
        f"edge [arrowsize=0.6 len=0.6 {font}]",
        f"node [fixedsize=true shape=circle style=filled width={look.size} {font}]",
    ]
    for state in range(system.states):
        width, words = 3 if state == system.first else 1, state if look.font else ""
        lines.append(f'{state} [fillcolor="{fills[state]}" penwidth={width} label="{words}"]')
    for k, (source, label, target) in enumerate(system.transitions):
        words = quoted(label)
        if label == "i" or not look.font:
            colour = "gray60" if label == "i" else "black"
            lines.append(f"{source} -> {target} [color={colour} len={look.length}]")
        elif look.engine == "dot":
            lines.append(f'{source} -> {target} [label="{words}"]')
        else:
            lines.append(f'l{k} [shape=plaintext style="" width={0.09 * len(label)} height=0.2 label="{words}"]')
            lines.append(f"{source} -> l{k} [arrowhead=none] l{k} -> {target}")
    return "\n".join([*lines, "}\n"])


def rendered(text, engine, form):
    """The bytes of the picture, in this form, that a program of graphviz makes of a text in its language."""
    words = [path_of(engine, "it comes with graphviz"), f"-T{form}"]
    PROGRESS.phase(f"{engine} draws the picture")
    done = subprocess.run(words, input=text.encode("utf-8"), stdout=subprocess.PIPE, stderr=subprocess.PIPE)
    if done.returncode != 0 or not done.stdout:
        raise Refused(5, f"{engine} fails: {os.fsdecode(done.stderr).strip()}")
    return done.stdout
