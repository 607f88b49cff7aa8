"""Tests of `ready`: kinds of real files, and what else can go wrong. AUTBIS names the program that has to accept the answers."""

import gzip
import os
import pathlib
import re
import subprocess
import sys

from test_autbis import PROGRAM, InFolder

READY = pathlib.Path(__file__).resolve().parent / "ready"
TEXT = 'des (0, 2, 3)\n(0, "a 1", 1)\n(1, b, 2)\n'
ENDS = "des (0, 2, 3)\n(0, {}, 1)\n(1, b, 2)\n"
LONG = "x" * 8000
STATES = "headers and transitions with states"

# Files that have the format: each is copied.
ACCEPTED = {
    "quoted labels of mCRL2": 'des (0,2,3)\n(0,"put(1, [2])",1)\n(1,"tau",2)\n',
    "multi-actions of LTSmin, without a last line feed": 'des (0,1,2)\n(0,"a|b",1)',
    "escapes of CADP": ENDS.format('"GATE !1 !\\"x\\""'),
    "rates of CADP": ENDS.format('"PUT; rate 1.0"'),
    "probabilities of CADP": ENDS.format('"prob 0.5"'),
    "tabs between tokens": "des\t(0,\t1,\t2)\n\t(0\t,\ta,1)\t\n",
    "line ends of DOS": TEXT.replace("\n", "\r\n"),
    "carriage returns between tokens": "des (0,\r 1, 2)\r\r\n(0, a,\r1)\n",
    "a first state above 0": TEXT.replace("0,", "2,", 1),
    "a label of 8,000 bytes": ENDS.format(LONG),
    "a line of 8192 bytes": "des (0, 1, 1)\n(0, a, 0" + " " * 8183 + ")\n",
    "no transitions": "des (0, 0, 1)\n",
    "plain labels": ENDS.format("_a9"),
    "repeated transitions": "des (0, 2, 1)\n(0, a, 0)\n(0, a, 0)\n",
    "unreachable states, sources in any order": "des (1, 2, 9)\n(3, a, 2)\n(1, a, 0)\n",
    "commas and parentheses in a label": ENDS.format('"a, 1) (b, "'),
    "quotation marks in a label": ENDS.format('"a"b"'),
    "blanks at the ends of a label": ENDS.format('" a "'),
    "comment marks in a label": ENDS.format('"a, 1) # %, 1) // 2"'),
    "several transitions that are one by the format": 'des (0, 1, 3)\n(0, "a", 1) (1, "b", 2)\n',
}
# Files that are repaired: the options, the file, the answer, and the kind, the number and the first line of the repairs.
REPAIRED = {
    "a byte order mark": ("", b"\xef\xbb\xbf" + TEXT.encode(), TEXT, "byte order marks: 1, the first in line 1"),
    "UTF-16": ("", TEXT.encode("utf-16"), TEXT, "files in UTF-16: 1, the first in line 1"),
    "UTF-16 of big-endian machines": ("", b"\xfe\xff" + TEXT.encode("utf-16-be"), TEXT, "files in UTF-16: 1"),
    "UTF-16 without a mark": ("", TEXT.encode("utf-16-le"), TEXT, "files in UTF-16: 1"),
    "gzip": ("", gzip.compress(TEXT.encode()), TEXT, "files packed by gzip: 1, the first in line 1"),
    "gzip of UTF-16": ("", gzip.compress(TEXT.encode("utf-16")), TEXT, "files packed by gzip: 1"),
    "carriage returns alone": ("", TEXT.replace("\n", "\r"), TEXT, "carriage returns alone that end a line: 2, the first in line 1"),
    "Ctrl-Z": ("", TEXT + "\x1a", TEXT, "Ctrl-Z at line ends: 1, the first in line 4"),
    "Ctrl-Z in the last line": ("", TEXT[:-1] + "\x1a\r\n", TEXT, "Ctrl-Z at line ends: 1, the first in line 3"),
    "blank lines": ("", TEXT.replace("\n", "\n \r\n"), TEXT, "blank lines: 3, the first in line 2"),
    "comment lines": ("", "# x\n%\n // (0, a, 1)\n" + TEXT, TEXT, "comment lines: 3, the first in line 1"),
    "comments at line ends": ("", TEXT.replace("\n", ' # "a, b"\n'), TEXT, "comments at line ends: 3, the first in line 1"),
    "comments of two forms": ("", TEXT.replace('1)', '1) # "').replace("2)", "2) #"), TEXT, "comments at line ends: 2, the first in line 2"),
    "DES": ("", TEXT.replace("des", "DES"), TEXT, "headers with DES: 1, the first in line 1"),
    "Des": ("", TEXT.replace("des", " Des"), TEXT, "headers with Des: 1, the first in line 1"),
    "semicolons": ("", TEXT.replace(")\n", ") ;\n"), TEXT, "semicolons at line ends: 3, the first in line 1"),
    "unquoted labels": ("", ENDS.format("a 1\t"), TEXT, "labels without quotation marks: 1, the first in line 2"),
    "offers of CADP": ("", ENDS.format('GATE !1 !"x, 1)"'), ENDS.format('"GATE !1 !"x, 1)""'), "labels without"),
    "data of mCRL2": ("", ENDS.format("put(1, 2)"), ENDS.format('"put(1, 2)"'), "labels without quotation marks: 1"),
    "question marks": ("", ENDS.format("a?"), ENDS.format('"a?"'), "labels without quotation marks: 1"),
    "a prime": ("", ENDS.format("'a"), ENDS.format('"\'a"'), "labels without quotation marks: 1"),
    "digits first, and a star": ("", ENDS.format("1*"), ENDS.format('"1*"'), "labels without quotation marks: 1"),
    "single quotation marks": ("", ENDS.format("'a 1'"), TEXT, "labels in single quotation marks: 1, the first in line 2"),
    "several on a line": ("--several", 'des (0, 2, 3) (0, "a 1", 1); (1,b,2)\n', TEXT, "lines with several transitions: 1, the"),
    "states by name": ("--names", 'des (s0, 2, 3)\n(s0, "a 1", s.1)\n(s.1, b, 7)\n', TEXT, f"{STATES} by name: 3, the first in line 1"),
    "states from 1": ("--from-one", 'des (1, 2, 3)\n(1, "a 1", 2)\n(2, b, 3)\n', TEXT, f"{STATES} numbered from 1: 3, the first in line 1"),
    "unknown counts": ("--counts", TEXT.replace("2, 3", "-1, ?"), TEXT, "headers with wrong counts: 1, the first in line 1"),
    "wrong counts": ("--counts", "\n" + TEXT.replace("2, 3", "9, 2"), TEXT, "headers with wrong counts: 1, the first in line 2"),
    "no header": ("--first=0", TEXT[14:], TEXT, "headers added: 1, the first in line 1"),
    "tau": ("--tau-to-i", ENDS.format('"tau"'), ENDS.format("i"), "labels tau that became i: 1, the first in line 2"),
    "i": ("--i-to-tau", ENDS.format("'i'"), ENDS.format("tau"), "labels i that became tau: 1, the first in line 2"),
    "UTF-8": ("--map=MAP", ENDS.format('"a\t\u00fc 1"'), ENDS.format("a_1_9541b8b3a7d522fd"), "labels replaced by names: 1"),
    "a long label": ("--map=MAP", ENDS.format(LONG + "y"), ENDS.format(f"{LONG[:40]}_2b91df2e93b9339c"), "labels replaced by names: 1"),
    "an empty label": ("--map=MAP", ENDS.format('""'), ENDS.format("e3b0c44298fc1c14"), "labels replaced by names: 1, the first in line 2"),
}
# Files that are refused: the options, the file, and the reason.
REFUSED = {
    "a file that was cut off": ("--counts", TEXT[:-2], "line 3: this is not a transition"),
    "probabilities of mCRL2": ("", TEXT.replace(", 2)", ", 1 1/2 2)"), "line 3: this is not a transition"),
    "the FSM format": ("", 's(2) Bool\n---\n0\n1\n---\n1 2 "a"\n', "line 1: this is not a header"),
    "a binary file": ("", b"\x7fELF\0\1\2\3", "line 1: this is not a header"),
    "too many states": ("", TEXT.replace("3", "1000001"), "line 1: there are 1,000,001 states"),
    "fewer transitions than the header has": ("", TEXT[:-10], "line 1: the header has 2 transitions, and the file 1: --counts"),
    "more transitions than the header has": ("", TEXT + "(1, b, 2)\n" * 9, "line 1: the header has 2 transitions, and there are more: --counts"),
    "unknown counts": ("", TEXT.replace("2, 3", "-1, 3"), "line 1: a count of the header is not a number, or there are 0 states: --counts"),
    "a state out of range": ("", TEXT.replace(" 2)", " 3)"), "line 3: there is a state that is not among 3 states: --counts"),
    "the states 0 to 3, numbered from 1": ("--from-one", TEXT, "line 1: there is a state 0"),
    "more states than the header has, by name": ("--names", TEXT.replace("2, 3", "2, 2"), "line 3: there is a state that is not among 2"),
    "states by name": ("", TEXT.replace("(1", "(s1"), "line 3: this is not a transition: --names numbers states that have names"),
    "numbers with zeros first": ("", TEXT.replace("(1", "(01"), "line 3: this is not a transition"),
    "no header": ("", TEXT[14:], "line 1: this is not a header: --first"),
    "a header that is not expected": ("--first=0", TEXT, "line 1: there is a header, but none"),
    "two files in one": ("", TEXT.replace("2, 3", "4, 3") + TEXT, "line 4: there is a header, but none"),
    "several on a line": ("", TEXT + "(1, b, 2) (1, c, 2)\n", "line 4: there are several transitions: --several"),
    "several on a line, or a label": ("", ENDS.format("f(1, 2) (3, x)"), "line 2: there are several transitions: --several"),
    "a comment, or a label": ("", ENDS.format("a, 1) # (0, b"), "line 2: this transition can be read in several ways"),
    "a comment with quotation marks": ("", TEXT.replace("2)", '2) # "c", 1) # d'), "line 3: this transition can be read in several ways"),
    "a quotation mark that is missing": ("", ENDS.format('"a'), "line 2: the quotation marks of the label do not pair"),
    "a quotation mark within": ("", ENDS.format('a"'), "line 2: the quotation marks of the label do not pair"),
    "single quotation marks within": ("", ENDS.format("'a' !'b'"), "line 2: the quotation marks of the label do not pair"),
    "no label": ("", ENDS.format(""), "line 2: this is not a transition"),
    "an empty label": ("", ENDS.format('""'), "line 2: the label is empty: --map FILE"),
    "UTF-8": ("", ENDS.format("gr\u00fcn"), "line 2: the label is not printable ASCII: --map FILE"),
    "a label of over 8,000 bytes": ("", ENDS.format(LONG + "y"), "line 2: the label has over 8,000 bytes: --map FILE"),
    "i beside tau": ("--tau-to-i", TEXT.replace("b", "tau").replace("a 1", "i"), "line 2: there is a label i already: --tau-to-i and --i-to-tau"),
    "nothing": ("--first=0", "\n# x\n", "there is no header, since there is nothing in this file"),
    "gzip that was cut off": ("", gzip.compress(TEXT.encode())[:-9], "is damaged or cut off"),
    "gzip with other bytes behind": ("", gzip.compress(TEXT.encode()) + b"x", "is damaged or cut off"),
    "half a character of UTF-16": ("", TEXT.encode("utf-16") + b"x", "is damaged or cut off"),
}


class Ready(InFolder):
    def called(self, options, given=b"", **more):
        """The status of `ready`, its output, and what is on standard error."""
        given = given if isinstance(given, bytes) else given.encode()
        words = [sys.executable, "-B", str(READY), *options]
        done = subprocess.run(words, input=given, stdout=subprocess.PIPE, stderr=subprocess.PIPE, cwd=self.folder, **more)
        return done.returncode, done.stdout.decode(), done.stderr.decode()

    def check_refused(self, status, why, options, given=b"", **more):
        ended, written, said = self.called(options, given, **more)
        self.assertEqual((ended, written), (status, ""), said)
        self.assertRegex(said, rf"^ready: .*{re.escape(why)}.*\n$" if status != 3 else re.escape(why))

    def check_accepted(self, answer):
        done = subprocess.run([PROGRAM, "min"], input=answer.encode(), stdout=subprocess.DEVNULL, stderr=subprocess.PIPE)
        self.assertEqual((done.returncode, done.stderr), (0, b""))

    def check_copied(self, text):
        self.assertEqual(self.called([], text), (0, text, ""))
        self.check_accepted(text)

    def check_repaired(self, options, given, wanted, repair):
        status, written, said = self.called(options.split(), given)
        self.assertEqual((status, written), (0, wanted), said)
        self.assertIn(f"ready: {repair}", said)
        self.check_accepted(written)

    def shell(self, command):
        """The status of a shell command, in which $READY is the script, its output, and what is on standard error."""
        known = {**os.environ, "READY": f"{sys.executable} -B {READY}", "TMPDIR": str(self.folder)}
        done = subprocess.run(["bash", "-c", command], stdout=subprocess.PIPE, stderr=subprocess.PIPE, cwd=self.folder, env=known)
        return done.returncode, done.stdout.decode(), done.stderr.decode()

    def test_all_repairs_of_a_file(self):
        given = "\ufeff# x\nDES (0, 2, 3);\n\n(0, 'a 1', 1) % y\n(1,b,2)\n\n"
        repairs = [
            "byte order marks: 1, the first in line 1",
            "comment lines: 1, the first in line 1",
            "headers with DES: 1, the first in line 2",
            "semicolons at line ends: 1, the first in line 2",
            "blank lines: 2, the first in line 3",
            "comments at line ends: 1, the first in line 4",
            "labels in single quotation marks: 1, the first in line 4",
        ]
        self.assertEqual(self.called([], given), (0, TEXT, "".join(f"ready: {repair}\n" for repair in repairs)))

    def test_options_together(self):
        given = 'des (1, ?, ?)\n(1, tau, 2) (2, "i", 3)\n(3,\u00fc,1)\n'
        options = ["--several", "--from-one", "--counts", "--tau-to-i", "--i-to-tau", "--map", "MAP"]
        answer = "des (0, 3, 3)\n(0, i, 1)\n(1, tau, 2)\n(2, _607474ca475a9724, 0)\n"
        self.assertEqual(self.called(options, given)[:2], (0, answer))
        self.check_accepted(answer)
        named = 'des (x, ?, ?)\n(x, "f(1, 2) (3, y)", y)\n'
        self.assertEqual(self.called(["--names", "--counts", "--several"], named)[1], 'des (0, 1, 2)\n(0, "f(1, 2) (3, y)", 1)\n')

    def test_long_files(self):
        count = 120_000
        lines = [f"({k}, {'a' * (k % 9 + 1)}, 0)" for k in range(count)]
        text = "\n".join([f"des (0, {count}, {count})", *lines, ""])
        for given in text, text.replace("\n", "\r\n"), text.replace("(7,", " (7,"):
            self.assertEqual(self.called([], given), (0, given, ""))
        for given in text.replace("\n", "\r"), text.encode("utf-16"), gzip.compress(text.encode()), text.replace("\n", ";\r\n"):
            status, written, said = self.called([], given)
            self.assertEqual((status, written), (0, text))
            self.assertRegex(said, r": (1|120001|120000), the first in line 1\n$")
        pairs = re.sub(r"\)\n(\(\d*[13579], )", r") \1", text)
        status, written, said = self.called(["--several"], pairs)
        self.assertEqual((status, written, said), (0, text, "ready: lines with several transitions: 60000, the first in line 2\n"))
        wrong = pairs.replace("(60000, ", "(120000, ")
        self.check_refused(2, "standard input: line 30002: there is a state that is not among 120,000", ["--several"], wrong)
        for k in 2, 60_000, count:
            wrong = text.replace(f"\n({k - 1},", "\n(x,")
            self.check_refused(2, f"standard input: line {k + 1}: this is not a transition", [], wrong)
            many = text.replace(f"\n({k - 1},", f"\n({count},")
            self.check_refused(2, f"standard input: line {k + 1}: there is a state that is not among 120,000", [], many)
            bare = text.replace(f"\n({k - 1}, ", f"\n({k - 1}, ?")
            self.assertIn(f"labels without quotation marks: 1, the first in line {k + 1}\n", self.called([], bare)[2])

    def test_the_first_of_several_faults(self):
        faults = "(0, a, 9)", '(0, "a, 1)', '(0, "", 1)', "(0, a, 1), (0, b, 1)", "x"
        for k, fault in enumerate(faults):
            given = "\n".join(["des (0, 6, 2)", "(0, a b, 1)", *faults[k:], *faults[:k], ""])
            self.check_refused(2, "standard input: line 3: ", [], given)
        given = given.replace("(0, a b, 1)", '(0, a b, 1) (1, "a" , 2)')
        self.check_refused(2, "standard input: line 2: there is a state that is not among 2 states", ["--several"], given)

    def test_maps(self):
        for label in "gr\u00fcn", "rot\t", "gr\u00fcn":
            text = ENDS.format(f'"{label}"').replace("b,", '"gr\u00fcn",')
            status, written, _ = self.called(["--map", "MAP"], text)
            self.assertEqual((status, written.count("gr_n_")), (0, 2 - (label == "rot\t")))
        listed = (self.folder / "MAP").read_text("utf-8")
        self.assertEqual([line.split("\t", 1)[1] for line in listed.splitlines()], ["gr\u00fcn", "rot\t"])
        self.check_refused(5, "none/MAP: cannot be written", ["--map", "none/MAP"], text)
        self.check_refused(5, ".: is not a file", ["--map", "."], text)
        self.check_refused(5, "/dev/full: is not a file", ["--map", "/dev/full"], text)
        for wrong in "x\tgr\u00fcn\n", listed[:-1], "\n":
            (self.folder / "wrong").write_text(wrong, "utf-8")
            self.check_refused(2, f"wrong: line {listed[:-1].count(chr(10)) * (wrong == listed[:-1]) + 1}: ", ["--map=wrong"], text)
            self.assertEqual((self.folder / "wrong").read_text("utf-8"), wrong)
        labels = "".join(f"(0, {n}\u00fc, 0)\n" for n in range(100))
        (self.folder / "many.aut").write_text(f"des (0, 100, 1)\n{labels}", "utf-8")
        status, written, said = self.shell("ulimit -f 1; $READY --map MAP many.aut")
        self.assertEqual((status, written, (self.folder / "MAP").read_text("utf-8")), (5, "", listed))
        self.assertIn("MAP: cannot be written", said)

    def test_usage(self):
        for options in ["--loud"], ["a", "b"], ["--first"], ["--several=x"]:
            self.check_refused(3, "usage: ready [--several] ", options)
        self.check_refused(3, "--names is for states with names", ["--names", "--from-one"])
        self.check_refused(3, "x y: is not a state", ["--first=x y"])
        self.assertIn("usage: ready [--several] ", self.called(["--help"])[1])

    def test_files_that_cannot_be_read_or_written(self):
        self.check_refused(5, "none.aut: cannot be read", ["none.aut"])
        self.check_refused(5, ".: cannot be read", ["."])
        (self.folder / "-x").write_text(TEXT)
        self.assertEqual(self.called(["--", "-x"]), (0, TEXT, ""))
        self.assertEqual(self.shell("$READY -- -x 2>&-"), (0, TEXT, ""))
        self.assertEqual(self.shell("sed s/des/DES/ ./-x | $READY 2>/dev/full"), (0, TEXT, ""))
        output = "standard output: cannot be written"
        for command, why in ("<&-", "standard input: cannot be read"), ("-- -x >/dev/full", output), ("-- -x >&-", output):
            status, written, said = self.shell(f"$READY {command}")
            self.assertEqual((status, written, said.count("\n")), (5, "", 1), command)
            self.assertIn(f"ready: {why}", said)

    def test_streams_without_end(self):
        limit = "set -o pipefail; ulimit -f 4000;"
        lines = "{ echo 'des (0, 9000000, 1)'; yes '(0, a, 0)'; }"
        for command, status, why in (
            ("yes | $READY", 2, "standard input: line 1: this is not a header"),
            ("cat /dev/zero | $READY", 2, "standard input: line 1: the line has over 16,777,216 bytes"),
            ("{ echo 'des (0, 9, 1)'; yes '(0, a, 0)'; } | $READY", 2, "line 1: the header has 9 transitions, and there are more"),
            (f"{lines} | $READY", 5, f"the output cannot be kept in TMPDIR ({self.folder}): File too large"),
        ):
            _, written, said = self.shell(f"{limit} {command}; echo ${{PIPESTATUS[-1]}}")
            self.assertEqual((written, said.count("\n")), (f"{status}\n", 1), said)
            self.assertIn(why, said)


def add_tests(kind, files, check):
    for name, file in files.items():
        setattr(Ready, f"test_{kind}_{name}", lambda self, file=file: check(self, file))


add_tests("accepted", ACCEPTED, lambda self, text: self.check_copied(text))
add_tests("repaired", REPAIRED, lambda self, file: self.check_repaired(*file))
add_tests("refused", REFUSED, lambda self, file: self.check_refused(2, f"standard input: {file[2]}", file[0].split(), file[1]))
