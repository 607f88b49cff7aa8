"""Tests of the module `autbis`: python3 -m unittest. AUTBIS names the program, by default the one on PATH."""

import copy
import doctest
import errno
import functools
import io
import itertools
import os
import pathlib
import pickle
import shutil
import signal
import socket
import stat
import subprocess
import sys
import tempfile
import threading
import time
import typing
import unittest.mock

import autbis

PROGRAM = os.environ.get("AUTBIS", "autbis")
TOP = pathlib.Path(__file__).resolve().parents[1]
FOUND = str(pathlib.Path(autbis.__file__).resolve().parents[1])
EARLY = "des (0, 4, 5)\n(0, a, 1)\n(0, a, 2)\n(1, b, 3)\n(2, c, 4)\n"
LATE = "des (0, 3, 4)\n(0, a, 1)\n(1, b, 2)\n(1, c, 3)\n"
SILENT = "des (0, 2, 3)\n(0, tau, 1)\n(1, a, 2)\n"
ONE_STEP = "des (0, 1, 2)\n(0, a, 1)\n"
EXAMPLES = TOP / "examples"
MUTUAL = EXAMPLES / "mutual-exclusion.aut"


def example(name):
    return (EXAMPLES / name).read_text(encoding="ascii")


minimise, with_counts, equivalent = (
    functools.partial(call, program=PROGRAM) for call in (autbis.minimise, autbis.minimise_with_counts, autbis.equivalent)
)


class InFolder(unittest.TestCase):
    """Has a folder of its own."""

    def setUp(self):
        folder = tempfile.TemporaryDirectory()
        self.addCleanup(folder.cleanup)
        self.folder = pathlib.Path(folder.name)
        self.numbers = itertools.count()

    def new(self):
        """A path in the folder at which there is nothing yet."""
        return self.folder / str(next(self.numbers))

    def written(self, text):
        file = self.new()
        file.write_text(text, encoding="ascii")
        return file

    def piped(self, text):
        """The descriptor of a pipe through which this text comes."""
        reader, writer = os.pipe()
        with open(writer, "w", encoding="ascii") as file:
            file.write(text)
        return reader


class Answers(InFolder):
    def test_version(self):
        self.assertEqual(f"autbis {autbis.__version__}\n", (TOP / "manual" / "version.txt").read_text(encoding="ascii"))

    def test_minimise(self):
        for relation in ("strong", "branching"):
            self.assertEqual(minimise(MUTUAL.read_text(), relation), example(f"mutual-exclusion.{relation}.aut"))
        self.assertEqual(minimise(MUTUAL.read_text()), example("mutual-exclusion.strong.aut"))

    def test_hide(self):
        labels = [line.strip().strip('"') for line in example("alternating-bit.hide").splitlines()]
        for relation in ("strong", "branching"):
            wanted = example(f"alternating-bit.hidden.{relation}.aut")
            self.assertEqual(minimise(example("alternating-bit.aut"), relation, hide=labels), wanted)
        buffer = example("one-place-buffer.aut")
        self.assertTrue(equivalent(example("alternating-bit.aut"), buffer, "branching", hide=labels))
        self.assertFalse(equivalent(example("alternating-bit.aut"), buffer, "strong", hide=labels))

    def test_hide_a_label_with_quotation_marks_in_it_or_round_it(self):
        for label, hide in (('say "hi"', ['say "hi"']), ('"hi"', io.StringIO('""hi""\n'))):
            text = f'des (0, 1, 2)\n(0, "{label}", 1)\n'
            self.assertEqual(minimise(text, "branching", hide=hide), "des (0, 0, 1)\n")

    def test_equivalent(self):
        self.assertTrue(equivalent(LATE, LATE))
        self.assertFalse(equivalent(LATE, EARLY))
        self.assertTrue(equivalent(example("coffee-machine.aut"), example("coffee-machine.strong.aut")))
        self.assertFalse(equivalent(example("coffee-machine.aut"), example("coffee-chosen-by-coin.aut")))

    def test_counts(self):
        smallest, counts = with_counts(EARLY)
        self.assertEqual(smallest, minimise(EARLY))
        self.assertEqual((counts.states, counts.transitions), (5, 4))
        self.assertEqual(counts.allowance, (counts.rounds + 2) * counts.transitions)
        self.assertLessEqual(counts.rounds * counts.transitions, counts.visits)
        self.assertLessEqual(counts.visits, counts.allowance)
        _, counts = with_counts(EARLY, "branching", hide=["b", "c"])
        self.assertEqual((counts.states, counts.transitions), (5, 4))
        self.assertEqual(counts.allowance, (counts.rounds * counts.states + 2) * counts.transitions)

    def test_what_the_documentation_shows(self):
        (self.folder / "autbis").symlink_to(shutil.which(PROGRAM))
        with unittest.mock.patch.dict(os.environ, PATH=os.pathsep.join((str(self.folder), os.environ["PATH"]))):
            for shown in (doctest.testmod(autbis, verbose=False), doctest.testfile("../docs/scripting.md", verbose=False)):
                self.assertEqual(shown.failed, 0)
                self.assertGreater(shown.attempted, 0)


class Inputs(InFolder):
    """What a system, a hide list and a program may be."""

    def test_a_path(self):
        self.assertEqual(minimise(MUTUAL, "branching"), example("mutual-exclusion.branching.aut"))
        self.assertTrue(equivalent(MUTUAL, EXAMPLES / "mutual-exclusion.branching.aut", "branching"))
        self.assertFalse(equivalent(EXAMPLES / "coffee-machine.aut", example("coffee-chosen-by-coin.aut")))

    def test_a_path_that_is_relative_and_whose_name_is_no_word(self):
        self.addCleanup(os.chdir, os.getcwd())
        os.chdir(self.folder)
        for name in (b"-a b.aut", b"a\nb.aut", b"gr\xfcn.aut"):
            named = pathlib.Path(os.fsdecode(name))
            named.write_text(LATE, encoding="ascii")
            self.assertTrue(equivalent(named, LATE))

    def test_an_open_file(self):
        for mode in ("r", "rb"):
            with open(MUTUAL, mode) as file:
                self.assertEqual(minimise(file, "branching"), example("mutual-exclusion.branching.aut"))
        self.assertTrue(equivalent(io.StringIO(LATE), io.BytesIO(LATE.encode("ascii"))))

    def test_bytes(self):
        for kind in (bytes, bytearray, memoryview):
            self.assertEqual(minimise(kind(ONE_STEP.encode("ascii"))), ONE_STEP)

    def test_the_name_of_a_file_as_a_str(self):
        for name in (str(EXAMPLES / "coffee-machine.aut"), "no-such.aut"):
            self.assertRaisesRegex(ValueError, "pass pathlib.Path", minimise, name)

    def test_what_is_no_system(self):
        for given in (None, 3, ["des (0, 0, 1)\n"], object()):
            self.assertRaisesRegex(TypeError, "a system is a str, bytes, an os.PathLike or an open file", minimise, given)

    def test_hide_lists(self):
        wanted = example("alternating-bit.hidden.branching.aut")
        system, hide = EXAMPLES / "alternating-bit.aut", EXAMPLES / "alternating-bit.hide"
        self.assertEqual(minimise(system, "branching", hide=hide), wanted)
        with open(hide, encoding="ascii") as text:
            self.assertEqual(minimise(system, "branching", hide=text), wanted)
        self.assertEqual(minimise(LATE, "branching", hide=[b"a", "b", bytearray(b"c")]), "des (0, 0, 1)\n")

    def test_what_is_no_hide_list(self):
        for given in ("abc", b"a", None, 3):
            said = "^hide is a list of labels, an os.PathLike or an open file, and not .*; hide=\\[\\] hides nothing$"
            self.assertRaisesRegex(TypeError, said, minimise, LATE, hide=given)
        for given in ([None], [3]):
            self.assertRaisesRegex(TypeError, "a label is a str or bytes", minimise, LATE, hide=given)

    def test_the_lines_of_a_hide_list(self):
        list_of_labels = EXAMPLES / "alternating-bit.hide"
        said = "a line of a hide list and no label: .*: pass the list, as pathlib.Path or an open file"
        with open(list_of_labels, encoding="ascii") as text:
            lines = text.readlines()
        texts, labels = list_of_labels.read_text("ascii").splitlines(), list_of_labels.read_bytes().splitlines()
        given_each = texts, labels, lines, lines[:1], ['"tau"'], [' "tau"\r'], [bytearray(b'"tau"')], [b"a\nb"], ["tau\n"]
        for given in given_each:
            self.assertRaisesRegex(ValueError, said, minimise, LATE, hide=given)


class OtherThanFiles(InFolder):
    """Paths that name no regular file, or another one for each process: as a hide list and as a system."""

    def assert_answers(self, path_of):
        """Each path that comes from `path_of` is read as what was given to that."""
        self.assertTrue(equivalent(SILENT, ONE_STEP, "branching", hide=path_of("tau\n")))
        self.assertFalse(equivalent(SILENT, ONE_STEP, "branching", hide=path_of("a\n")))
        self.assertEqual(minimise(path_of(ONE_STEP)), ONE_STEP)
        self.assertTrue(equivalent(path_of(SILENT), path_of(ONE_STEP), "branching", hide=path_of("tau\n")))
        self.assertRaisesRegex(autbis.TextFault, "line 2: not a label", minimise, ONE_STEP, hide=path_of("a\n\n"))

    def test_a_named_pipe(self):
        def path_of(text):
            pipe = self.new()
            os.mkfifo(pipe)
            # If a call fails, nobody reads.
            writer = threading.Thread(target=pipe.write_text, args=(text,), daemon=True)
            writer.start()
            self.addCleanup(writer.join, 10)
            return pipe

        self.assert_answers(path_of)

    def path_of_descriptor(self, descriptor, folder="/dev/fd"):
        self.addCleanup(os.close, descriptor)
        return pathlib.Path(folder, str(descriptor))

    def test_a_descriptor_as_of_a_process_substitution(self):
        for folder in ("/dev/fd", "/proc/self/fd"):
            self.assert_answers(lambda text: self.path_of_descriptor(self.piped(text), folder))

    def test_a_descriptor_of_a_regular_file_and_of_one_that_was_removed(self):
        def path_of(text, then=pathlib.Path.exists):
            file = self.written(text)
            path = self.path_of_descriptor(os.open(file, os.O_RDONLY))
            then(file)
            return path

        self.assert_answers(path_of)
        self.assert_answers(functools.partial(path_of, then=pathlib.Path.unlink))

    def test_standard_input_by_its_path(self):
        found = {**os.environ, "PYTHONPATH": FOUND}
        for given, systems, hide in ("tau\n", (SILENT, ONE_STEP), "hide=STDIN"), (ONE_STEP, (ONE_STEP,), "b=STDIN"):
            script = f"import autbis, pathlib; STDIN = pathlib.Path('/dev/stdin'); call = {{'relation': 'branching', 'program': {PROGRAM!r}}}"
            words = [sys.executable, "-c", f"{script}; print(autbis.equivalent(*{systems!r}, {hide}, **call))"]
            with open(self.written(given), encoding="ascii") as file:
                for stdin in {"input": given}, {"stdin": file}:
                    ran = subprocess.run(words, stdout=subprocess.PIPE, universal_newlines=True, env=found, **stdin)
                    self.assertEqual(ran.stdout, "True\n", (hide, stdin))

    def test_closed_standard_streams(self):
        call = f"autbis.equivalent({SILENT!r}, {ONE_STEP!r}, 'branching', hide=['tau'], program={PROGRAM!r})"
        script = f"import autbis, os, sys; os.closerange(0, 3); sys.exit(40 + {call})"
        ran = subprocess.run([sys.executable, "-c", script], env={**os.environ, "PYTHONPATH": FOUND})
        self.assertEqual(ran.returncode, 41)

    def test_a_folder_and_a_socket(self):
        end = socket.socket(socket.AF_UNIX)
        self.addCleanup(end.close)
        end.bind(str(self.folder / "socket"))
        for given in (self.folder, self.folder / "socket"):
            self.assertRaisesRegex(autbis.DeviceFault, "", minimise, given)
            self.assertRaisesRegex(autbis.DeviceFault, "", minimise, LATE, hide=given)


class UsedBefore(InFolder):
    """A hide list or a system of which nothing is left."""

    def assert_is_refused_again(self, hide, why):
        self.assertTrue(equivalent(SILENT, ONE_STEP, "branching", hide=hide))
        for _ in range(2):
            self.assertRaisesRegex(ValueError, why, equivalent, SILENT, ONE_STEP, "branching", hide=hide)

    def test_an_open_file(self):
        for mode in ("r", "rb"):
            with open(self.written("tau\n"), mode) as hide:
                self.assert_is_refused_again(hide, f"nothing is left of the hide list {hide.name}")
        self.assert_is_refused_again(io.StringIO("tau\n"), "nothing is left of the hide list hide")

    def test_a_pipe_that_is_open_or_named(self):
        for as_hide in (lambda pipe: pipe, lambda pipe: pathlib.Path(f"/dev/fd/{pipe.fileno()}")):
            with open(self.piped("tau\n"), encoding="ascii") as pipe:
                self.assert_is_refused_again(as_hide(pipe), "nothing is left of the hide list")

    def test_an_iterator(self):
        for hide in ((label for label in ["tau"]), iter(["tau"]), map(str, ["tau"])):
            self.assert_is_refused_again(hide, "nothing comes from the iterator of labels")

    def test_a_system(self):
        for mode in ("r", "rb"):
            with open(self.written(ONE_STEP), mode) as file:
                self.assertEqual(minimise(file), ONE_STEP)
                said = f"^nothing is left of the system {file.name}, which may have been read before$"
                for call in (minimise, with_counts):
                    self.assertRaisesRegex(ValueError, said, call, file)
        for again in (io.StringIO(ONE_STEP), io.BytesIO(ONE_STEP.encode("ascii"))):
            self.assertRaisesRegex(ValueError, "nothing is left of the system second", equivalent, again, again)
            self.assertRaisesRegex(ValueError, "nothing is left of the system first", equivalent, again, ONE_STEP)
        with open(self.piped(ONE_STEP), encoding="ascii") as pipe:
            self.assertEqual(minimise(pipe), ONE_STEP)
            self.assertRaisesRegex(ValueError, "nothing is left of the system", minimise, pipe)

    def test_what_is_empty_may_be_used_again(self):
        empty = self.written("")
        with open(empty, encoding="ascii") as file:
            given = io.StringIO(), io.BytesIO(), file, empty, pathlib.Path(os.devnull)
            for system in (*given, "", b"") * 2:
                self.assertRaisesRegex(autbis.TextFault, "bad header", with_counts, system)
            for hide in (*given, [], (), set(), {}) * 2:
                self.assertFalse(equivalent(SILENT, ONE_STEP, "branching", hide=hide))


class Faults(unittest.TestCase):
    def assert_fault(self, where, name, line, said, *systems, **options):
        """One system cannot be minimised, or two not compared, for a fault of the text `where`."""
        with self.assertRaises(autbis.TextFault) as caught:
            (minimise if len(systems) == 1 else equivalent)(*systems, **options)
        fault = caught.exception
        self.assertEqual((fault.status, fault.where, fault.name, fault.line, fault.fault), (2, where, name, line, said))
        self.assertEqual(str(fault), f"autbis: {name}: " + (f"line {line}: " if line else "") + said)

    def test_the_faulty_text_and_its_line_are_named(self):
        self.assert_fault("text", "text", 2, "target out of range", "des (0, 1, 2)\n(0, a, 2)\n")
        self.assert_fault("text", "text", 2, "not a transition", 'des (0, 1, 2)\n(0, "café", 1)\n')
        self.assert_fault("text", "text", None, "bad header", "")
        self.assert_fault("text", "text", None, "only 0 transitions found", "des (0, 1, 1)\n")
        self.assert_fault("first", "first", None, "bad header", "x", LATE)
        self.assert_fault("second", "second", None, "bad header", LATE, "x")
        self.assert_fault("hide", "hide", 2, "not a label", LATE, hide=["a", "b\t"])

    def test_the_faulty_file_is_named(self):
        system, name = EXAMPLES / "verdicts", str(EXAMPLES / "verdicts")
        self.assert_fault("first", name, None, "bad header", system, LATE)
        self.assert_fault("second", name, None, "bad header", LATE, system)
        with open(name, encoding="ascii") as file:
            self.assert_fault("text", name, None, "bad header", file)

    def test_of_one_path_for_two_files_the_faulty_one_is_named(self):
        hide = EXAMPLES / "alternating-bit.hide"
        self.assert_fault("hide", str(MUTUAL), 1, "not a label", LATE, MUTUAL, hide=MUTUAL)
        self.assert_fault("second", str(hide), None, "bad header", LATE, hide, hide=hide)

    @unittest.skipIf(sys.version_info < (3, 8), "typing has no Literal")
    def test_the_relations(self):
        self.assertEqual(typing.get_args(autbis.Relation), ("strong", "branching"))

    def test_an_unknown_relation(self):
        self.assertRaisesRegex(autbis.UsageFault, "^autbis: unknown relation: weak$", minimise, LATE, "weak")

    def test_a_file_that_is_not_there(self):
        none = pathlib.Path("no-such.aut")
        for fault in (autbis.MissingFile, autbis.DeviceFault, FileNotFoundError):
            for call in (minimise, functools.partial(equivalent, LATE), lambda none: minimise(LATE, hide=none)):
                with self.assertRaisesRegex(fault, "^autbis: no-such.aut: cannot open$") as caught:
                    call(none)
                missing = caught.exception
                self.assertEqual((missing.status, missing.errno, missing.filename), (5, errno.ENOENT, "no-such.aut"))

    def test_a_file_that_cannot_be_opened(self):
        for name in (str(MUTUAL / "a.aut"), "a" * 300, str(TOP)):
            with self.assertRaises(autbis.DeviceFault) as caught:
                minimise(pathlib.Path(name))
            self.assertEqual(str(caught.exception), f"autbis: {name}: cannot open")
            self.assertNotIsInstance(caught.exception, autbis.MissingFile)
            self.assertIsInstance(caught.exception.__context__, OSError)

    def test_no_program(self):
        said = "the program is not installed, or not on PATH: 'no-such-autbis'"
        with self.assertRaisesRegex(FileNotFoundError, said) as caught:
            minimise(LATE, program="no-such-autbis")
        self.assertEqual(caught.exception.filename, "no-such-autbis")
        self.assertNotIsInstance(caught.exception, autbis.Fault)


class OtherPrograms(InFolder):
    """A program that does not do what autbis does."""

    def assert_no_answer(self, fault, said, call, scripts, *systems, **options):
        """If the program does this, the call raises the fault."""
        for script in scripts:
            fake = self.written(f"#!/bin/sh\n{script}\n")
            fake.chmod(stat.S_IRWXU)
            self.assertRaisesRegex(fault, said, call, *systems, program=fake, **options)

    def test_statuses_that_are_hard_to_bring_about(self):
        for script, fault in (("exit 4", autbis.OutOfMemory), ("exit 5", autbis.DeviceFault), ("kill -9 $$", autbis.Fault)):
            self.assert_no_answer(fault, r"/\d+ ended with status", equivalent, [script], LATE, LATE)

    def test_no_answer_is_taken_for_one(self):
        none = autbis.Fault, "no answer of autbis"
        self.assert_no_answer(*none, equivalent, ("", "exit 1", "echo FALSE", "echo TRUE; exit 1", "echo help"), LATE, LATE)
        self.assert_no_answer(*none, minimise, ("", "echo help"), LATE)
        self.assert_no_answer(*none, with_counts, ["echo 'des (0, 0, 1)'"], LATE)

    def test_a_timeout_ends_the_program(self):
        number, begun = self.new(), time.monotonic()
        late = autbis.TimedOut, "autbis: no answer in 0.5 seconds"
        self.assert_no_answer(*late, minimise, [f"echo $$ >'{number}'\nexec sleep 60"], LATE, timeout=0.5)
        self.assertLess(time.monotonic() - begun, 30)
        with self.assertRaises(ProcessLookupError):
            os.kill(int(number.read_text(encoding="ascii")), 0)


class Ends(InFolder):
    """A process that waits for the program gets a signal, and neither the program nor a file is left."""

    def assert_leaves_nothing(self, number, call):
        pipe, left = self.new(), self.new()
        os.mkfifo(pipe)
        left.mkdir()
        # It sleeps first: a process that is ended right after it started the program may leave it running.
        fake = self.written(f"#!/bin/sh\nexec 3>'{pipe}'\nsleep 1\necho begun >&3\nexec sleep 60\n")
        fake.chmod(stat.S_IRWXU)
        # Whoever runs this may have the signal ignored, as `nohup` does.
        usual = "" if number == signal.SIGKILL else f"signal.signal({int(number)}, signal.SIG_DFL)\n"
        script = f"import autbis, concurrent.futures, io, signal, sys\n{usual}{call}"
        found = {**os.environ, "PYTHONPATH": FOUND, "TMPDIR": str(left)}
        with subprocess.Popen([sys.executable, "-c", script, str(fake)], env=found) as process:
            with open(pipe, encoding="ascii") as said:
                self.assertEqual(said.readline(), "begun\n")
                now = time.monotonic()
                process.send_signal(number)
                # The other end is open as long as the program runs.
                self.assertEqual(said.read(), "")
        self.assertEqual(process.returncode, -number)
        self.assertLess(time.monotonic() - now, 30)
        self.assertEqual(list(left.iterdir()), [])

    def test_a_signal(self):
        for number in (signal.SIGTERM, signal.SIGHUP, signal.SIGKILL):
            self.assert_leaves_nothing(number, "autbis.minimise('des (0, 0, 1)', hide=['a'], program=sys.argv[1])")

    def test_a_signal_while_a_thread_waits(self):
        call = "autbis.equivalent, io.StringIO('des (0, 0, 1)'), b'x', program=sys.argv[1]"
        self.assert_leaves_nothing(signal.SIGTERM, f"concurrent.futures.ThreadPoolExecutor().submit({call}).result()")


class Copies(unittest.TestCase):
    """Each exception can be pickled and copied."""

    FAULTS = (
        autbis.Fault(70, "not built"),
        autbis.TextFault(2, "autbis: a.aut: line 2: not a transition", "text", "a.aut", 2, "not a transition"),
        autbis.TextFault(2, "autbis: hide: too many hidden labels", "hide", "hide", None, "too many hidden labels"),
        autbis.UsageFault(3, "autbis: unknown relation: weak"),
        autbis.OutOfMemory(4, "autbis: out of memory"),
        autbis.DeviceFault(5, "autbis: read or write failed"),
        autbis.MissingFile(5, "autbis: a.aut: cannot open", "a.aut"),
        autbis.TimedOut(-9, "autbis: no answer in 1 seconds"),
    )

    def test_each_exception_is_tried(self):
        named = {getattr(autbis, name) for name in autbis.__all__}
        wanted = {it for it in named if isinstance(it, type) and issubclass(it, Exception)}
        self.assertEqual({type(it) for it in self.FAULTS}, wanted)

    def test_copies(self):
        for fault in self.FAULTS:
            pickled = [pickle.loads(pickle.dumps(fault, protocol)) for protocol in range(pickle.HIGHEST_PROTOCOL + 1)]
            for other in (*pickled, copy.copy(fault), copy.deepcopy(fault)):
                self.assertIs(type(other), type(fault))
                self.assertEqual((str(other), vars(other)), (str(fault), vars(fault)))
                for field in ("errno", "filename"):
                    self.assertEqual(getattr(other, field, None), getattr(fault, field, None))


def makes_wheels():
    """Whether pip can build a package here without a network; before version 70.1, setuptools needs wheel for that."""
    asked = "import setuptools, pip\ntry: import wheel\nexcept ImportError: import setuptools.command.bdist_wheel"
    return subprocess.run([sys.executable, "-c", asked], stderr=subprocess.DEVNULL).returncode == 0


class Package(InFolder):
    @unittest.skipUnless(makes_wheels(), "there are no pip, setuptools and wheel to install with")
    def test_pip_installs_the_module(self):
        run = functools.partial(subprocess.run, cwd=self.folder, stdout=subprocess.PIPE, stderr=subprocess.STDOUT)
        shutil.copytree(TOP / "extras", self.folder / "extras")
        pip = ("-m", "pip", "--disable-pip-version-check", "install", "--no-index", "--no-build-isolation", "--target", "fresh")
        installed = run([sys.executable, *pip, "./extras"])
        self.assertEqual(installed.returncode, 0, installed.stdout)
        shutil.rmtree(self.folder / "extras")
        self.assertTrue((self.folder / "fresh" / "autbis" / "py.typed").exists())
        self.assertTrue((self.folder / "fresh" / f"autbis-{autbis.__version__}.dist-info").is_dir())
        (self.folder / "autbis").symlink_to(shutil.which(PROGRAM))
        shown = "import autbis; print(autbis.minimise('des (0, 2, 3)\\n(0, coin, 1)\\n(0, coin, 2)\\n'), end='')"
        answer = run([sys.executable, "-c", shown], env={**os.environ, "PATH": str(self.folder), "PYTHONPATH": "fresh"})
        self.assertEqual(answer.stdout, b"des (0, 1, 2)\n(0, coin, 1)\n")


if __name__ == "__main__":
    unittest.main()
