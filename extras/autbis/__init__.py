"""Minimises and compares labelled transition systems by the installed program `autbis`.

>>> import autbis
>>> print(autbis.minimise('des (0, 2, 3)\\n(0, coin, 1)\\n(0, coin, 2)\\n'), end='')
des (0, 1, 2)
(0, coin, 1)
>>> autbis.equivalent('des (0, 1, 2)\\n(0, i, 1)\\n', 'des (0, 0, 1)\\n', relation='branching')
True

A system is the text of an `.aut` file as `str` or `bytes`, the path of such a file as an `os.PathLike`, such as a
`pathlib.Path`, or an open file, which is read to its end, as is a path that is no regular file, such as `/dev/stdin`.
A `str` is never taken for a path.

`relation` is 'strong' or 'branching'. `hide` lists the labels that are made internal first, each a `str` or `bytes`, as
they are and without quotation marks round them; or it is the path of a hide list as an `os.PathLike`, or an open hide
list. The lines of a hide list are no labels: a label with a quotation mark at each end is a ValueError, and one that
has them itself can only be hidden by a hide list. A list may be empty; if nothing comes from an iterator, a pipe or an
open file, be it a hide list or a system, it may have been used before, which is a ValueError. `program` is the program
to run, a `str` or an `os.PathLike`, by default `autbis` on PATH. `timeout` is in seconds, from when all was read; None
waits for ever. If this process is ended, by whatever signal, so is the program, and no file is left.
"""

from __future__ import annotations

import contextlib
import errno
import fcntl
import os
import re
import shutil
import signal
import stat
import subprocess
import sys
import tempfile
from typing import IO, TYPE_CHECKING, Any, Dict, Iterator, List, NamedTuple, Optional, Tuple, Union

if TYPE_CHECKING:
    from typing_extensions import Literal, Protocol
elif sys.version_info >= (3, 8):
    from typing import Literal, Protocol
else:
    Literal, Protocol = Union, object

__version__ = "0.1.0"

__all__ = ["minimise", "minimise_with_counts", "equivalent", "Counts", "Relation"]
__all__ += ["Fault", "TextFault", "UsageFault", "OutOfMemory", "DeviceFault", "MissingFile", "TimedOut"]

# pytest shows the line of the caller, and none of this module.
__tracebackhide__ = True


class Readable(Protocol):
    """An open file, also one of `gzip` or the like."""

    def read(self) -> Union[str, bytes]: ...


class ListOfLabels(Protocol):
    """A list, tuple, set or the like, but no `str`, which can only be asked for a part of it."""

    def __iter__(self) -> Iterator[Union[str, bytes]]: ...

    def __contains__(self, __label: object) -> bool: ...


Relation = Literal["strong", "branching"]
System = Union[str, bytes, "os.PathLike[str]", Readable]
Labels = Union[ListOfLabels, Iterator[Union[str, bytes]], "os.PathLike[str]", Readable]
Program = Union[str, "os.PathLike[str]"]
Timeout = Optional[float]


class Counts(NamedTuple):
    """The line of `--stats`: the sizes of the system that was read, and the counts of the run."""

    states: int
    transitions: int
    rounds: int
    visits: int
    allowance: int


class Fault(Exception):
    """There is no answer. `status` is the exit status of the program, and `message` what it said."""

    def __init__(self, status: int, message: str) -> None:
        super().__init__(status, message)
        self.status, self.message = status, message

    def __str__(self) -> str:
        return self.message


class TextFault(Fault):
    """A system or the hide list is faulty.

    `where` says which: 'text', 'first', 'second' or 'hide'. `name` is the name of its file, or `where` if it has none.
    `line` is the number of the faulty line, or None if the fault names none. `fault` says what is wrong.
    """

    def __init__(
        self, status: int, message: str, where: Optional[str], name: Optional[str], line: Optional[int], fault: str
    ) -> None:
        super().__init__(status, message)
        # A pickled exception is made anew from these.
        self.args = (status, message, where, name, line, fault)
        self.where, self.name, self.line, self.fault = where, name, line, fault


class UsageFault(Fault):
    """The relation is unknown, or the program takes other words."""


class OutOfMemory(Fault):
    """A growth was refused."""


class DeviceFault(Fault):
    """A file cannot be opened, or a read or write failed."""


class MissingFile(DeviceFault, FileNotFoundError):
    """There is no file of the name `filename`."""

    def __init__(self, status: int, message: str, filename: str) -> None:
        FileNotFoundError.__init__(self, errno.ENOENT, os.strerror(errno.ENOENT), filename)
        self.status, self.message = status, message

    def __reduce__(self) -> Tuple[Any, ...]:
        return type(self), (self.status, self.message, self.filename)


class TimedOut(Fault):
    """There was no answer in time, and the program was ended."""


_FAULTS = {3: UsageFault, 4: OutOfMemory, 5: DeviceFault}


def minimise(
    text: System, relation: Relation = "strong", hide: Labels = (), program: Program = "autbis", timeout: Timeout = None
) -> str:
    """Returns the text of the equivalent system with the fewest states.

    Raises a Fault if there is none, and FileNotFoundError if a system, a hide list or the program is not there. A file
    that is not there is a Fault too, a MissingFile.
    """
    return _text(_run(program, ["min"], relation, hide, {"text": text}, timeout))


def minimise_with_counts(
    text: System, relation: Relation = "strong", hide: Labels = (), program: Program = "autbis", timeout: Timeout = None
) -> Tuple[str, Counts]:
    """As `minimise`, and returns the counts of `--stats` too."""
    ran = _run(program, ["min", "--stats"], relation, hide, {"text": text}, timeout)
    line = re.fullmatch(rb"stats: states (\d+) transitions (\d+) rounds (\d+) visits (\d+) allowance (\d+)\n", ran.stderr)
    if line is None:
        raise _no_answer(ran)
    return _text(ran), Counts(*map(int, line.groups()))


def equivalent(
    a: System,
    b: System,
    relation: Relation = "strong",
    hide: Labels = (),
    program: Program = "autbis",
    timeout: Timeout = None,
) -> bool:
    """Returns whether the two systems are equivalent.

    Raises what `minimise` does.
    """
    ran = _run(program, ["cmp"], relation, hide, {"first": a, "second": b}, timeout)
    verdict = {(0, b"TRUE\n"): True, (1, b"FALSE\n"): False}.get((ran.returncode, ran.stdout))
    if verdict is None:
        raise _no_answer(ran)
    return verdict


class _Input(NamedTuple):
    """A system or a hide list: what it is, its name for a fault, and the descriptor of a regular file that has it."""

    where: str
    name: str
    descriptor: int


def _run(
    program: Program, words: List[str], relation: str, hide: Labels, systems: Dict[str, System], timeout: Timeout
) -> subprocess.CompletedProcess[bytes]:
    """Runs the program on the systems. Raises a Fault if it ended with a status that is that of none of its answers."""
    found = shutil.which(os.fspath(program))
    if found is None:
        raise FileNotFoundError(errno.ENOENT, "the program is not installed, or not on PATH", os.fspath(program))
    with contextlib.ExitStack() as opened:
        inputs = [_put(opened, where, system) for where, system in systems.items()]
        files = [f"/dev/fd/{it.descriptor}" for it in inputs]
        hidden = _hidden(hide)
        if hidden != b"":
            inputs.append(_put(opened, "hide", hidden))
            words = [*words, f"--hide=/dev/fd/{inputs[-1].descriptor}"]
        command = [os.path.abspath(found), *words, f"--relation={relation}", "--", *files]
        ran = _ran(opened, command, [it.descriptor for it in inputs], timeout)
    if ran.returncode == 0 or (ran.returncode == 1 and words[0] == "cmp"):
        return ran
    raise _fault(ran, {str(it.descriptor): it for it in inputs})


def _ran(
    opened: contextlib.ExitStack, command: List[str], descriptors: List[int], timeout: Timeout
) -> subprocess.CompletedProcess[bytes]:
    """Runs the command, which is ended with this process."""
    # Whatever ends this process closes `held`. The other end of the pipe, which the program has too, then sends it SIGIO.
    end, held = os.pipe()
    opened.callback(os.close, held)
    tie = _kept(opened, end)
    os.close(end)
    null, pipe = subprocess.DEVNULL, subprocess.PIPE
    with subprocess.Popen(command, stdin=null, stdout=pipe, stderr=pipe, pass_fds=(tie, *descriptors)) as process:
        try:
            with contextlib.suppress(OSError):
                fcntl.fcntl(tie, fcntl.F_SETOWN, process.pid)
                fcntl.fcntl(tie, fcntl.F_SETFL, os.O_ASYNC)
            written, said = process.communicate(timeout=timeout)
        except subprocess.TimeoutExpired:
            raise TimedOut(-signal.SIGKILL, f"autbis: no answer in {timeout} seconds") from None
        finally:
            process.kill()
    return subprocess.CompletedProcess(command, process.returncode, written, said)


def _text(ran: subprocess.CompletedProcess[bytes]) -> str:
    """Returns the system that was written."""
    if not ran.stdout.startswith(b"des ("):
        raise _no_answer(ran)
    return ran.stdout.decode("ascii")


def _no_answer(ran: subprocess.CompletedProcess[bytes]) -> Fault:
    return Fault(ran.returncode, f"{ran.args[0]} ended with status {ran.returncode} and no answer of autbis")


def _fault(ran: subprocess.CompletedProcess[bytes], inputs: Dict[str, _Input]) -> Fault:
    """Returns the fault of the message, in which each file has the name that the caller knows."""
    message = ran.stderr.decode("utf-8", "replace").rstrip("\n")
    rest, where, name = message, None, None
    prefix = re.match(r"autbis: /dev/fd/(\d+): ", message)
    if prefix is not None and prefix[1] in inputs:
        where, name, _ = inputs[prefix[1]]
        rest = message[prefix.end() :]
        message = f"autbis: {name}: {rest}"
    if ran.returncode == 2:
        line = re.fullmatch(r"line (\d+): (.*)", rest)
        return TextFault(2, message, where, name, int(line[1]) if line else None, line[2] if line else rest)
    if not message:
        message = f"{ran.args[0]} ended with status {ran.returncode}"
    return _FAULTS.get(ran.returncode, Fault)(ran.returncode, message)


def _put(opened: contextlib.ExitStack, where: str, source: object) -> _Input:
    """Opens a system or a hide list. What is no regular file is read, and put into one without a name."""
    if isinstance(source, os.PathLike):
        name = os.fsdecode(source)
        try:
            with open(name, "rb") as file:
                if stat.S_ISREG(os.fstat(file.fileno()).st_mode):
                    return _Input(where, name, _kept(opened, file))
                text: object = _read(file, where, name)
        except FileNotFoundError:
            raise MissingFile(5, f"autbis: {name}: cannot open", name) from None
        except OSError:
            raise DeviceFault(5, f"autbis: {name}: cannot open") from None
    elif hasattr(source, "read"):
        given = getattr(source, "name", where)
        name = given if isinstance(given, str) else where
        text = _read(source, where, name)
    else:
        name, text = where, source
    if isinstance(source, str) and "\n" not in source:
        if source.endswith(".aut") or ("\0" not in source and os.path.isfile(source)):
            raise ValueError(f"a str is the text of a system, and this names a file: pass pathlib.Path({source!r})")
    if not isinstance(text, (str, bytes, bytearray, memoryview)):
        raise TypeError(f"a system is a str, bytes, an os.PathLike or an open file, and not {type(source).__name__}")
    with tempfile.TemporaryFile() as written:
        written.write(_bytes(text))
        return _Input(where, name, _kept(opened, written))


def _kept(opened: contextlib.ExitStack, file: Union[int, IO[bytes]]) -> int:
    """Returns another descriptor of the file, which is none that a script could use: the program may be started by one."""
    descriptor = fcntl.fcntl(file, fcntl.F_DUPFD_CLOEXEC, 10)
    opened.callback(os.close, descriptor)
    return descriptor


def _read(file: Readable, where: str, name: str) -> Union[str, bytes]:
    """Returns what is left of an open file. If nothing is left, it has to be a file that never had anything."""
    text = file.read()
    if not text:
        with contextlib.suppress(AttributeError, OSError):
            if file.tell() == 0:  # type: ignore[attr-defined]
                return text
        what = "hide list" if where == "hide" else "system"
        hint = "; hide=[] hides nothing" if where == "hide" else ""
        raise ValueError(f"nothing is left of the {what} {name}, which may have been read before{hint}")
    return text


def _bytes(text: Union[str, bytes]) -> bytes:
    """Returns the bytes of a text. What is not ASCII becomes bytes that the program refuses."""
    return text.encode("utf-8", "surrogatepass") if isinstance(text, str) else bytes(text)


def _hidden(hide: Labels) -> object:
    """Returns the hide list: the path or the open file, or the lines for a list of labels."""
    if isinstance(hide, os.PathLike) or hasattr(hide, "read"):
        return hide
    if isinstance(hide, (str, bytes, bytearray, memoryview)) or not hasattr(hide, "__iter__"):
        kind = type(hide).__name__
        raise TypeError(f"hide is a list of labels, an os.PathLike or an open file, and not {kind}; hide=[] hides nothing")
    lines = b"".join(map(_label, hide))
    if not lines and iter(hide) is hide:
        raise ValueError("nothing comes from the iterator of labels, which may have been used before; hide=[] hides nothing")
    return lines


def _label(label: Union[str, bytes]) -> bytes:
    """Returns the line of a hide list for this label: between quotation marks, which may stand round any label."""
    if not isinstance(label, (str, bytes, bytearray)):
        raise TypeError(f"a label is a str or bytes, and not {type(label).__name__}")
    text = _bytes(label)
    if b"\n" in text or re.fullmatch(rb'\s*".*"\s*', text):
        raise ValueError(f"a line of a hide list and no label: {label!r}: pass the list, as pathlib.Path or an open file")
    return b'"' + text + b'"\n'
