#!/usr/bin/env python3
"""Lists all that has to be read to believe a contract: the definitions in specs/ that the clauses of the contract cite,
the definitions that these definitions cite in turn, and the definitions that give the variables of the contract their
meaning. The lists are made from the sources.
usage: tools/reading.py            prints the page docs/reading.md with new lists
       tools/reading.py --write    writes this page to docs/reading.md
The lists are between two marked lines of the page. The script keeps the other text of the page."""
import os
import re
import sys
import textwrap
from pathlib import Path

TOP = Path(__file__).resolve().parent.parent
MODULES = {}  # the modules, by their names
# The public functions whose contracts are listed: for each, its crate, its name, and other functions of this list, the
# definitions of which are not listed again.
CONTRACTS = [
    ("autbis", "run_min", []),
    ("autbis", "run_cmp", []),
    ("arguments", "command", []),
    ("autbis", "main_program", ["command"]),
]
TRAITS = [("autfmt", "Source"), ("autfmt", "Sink"), ("lts", "Meter"), ("autbis", "Opener")]
VIEWS = [("autfmt", "Limits"), ("autfmt", "Hidden")]
USE = re.compile(r"\s*(?:pub )?(?:ghost )?use Rattle\.([\w.]+)(?:\.\{(.*?)\}| as (\S+))?;?$")
HEAD = re.compile(r"(?:abbrev|unfoldable|data|record|pub)\s+(?:(?:pub|data|record)\s+)*(\S+)")
# A pattern for the beginning of a declaration of a type or a constant.
ITEM = r"(?:pub(?:\(crate\))? )?(?:enum|struct|const)"


def place(path):
    return f"`{path.relative_to(TOP)}`"


class Scope:
    """The names that a file can use: the names that it imports, and the names of its own definitions."""

    def __init__(self, lines, own="", definitions=()):
        self.names, self.modules = {name: (own, name) for name in definitions}, {}
        for use in filter(None, map(USE.match, lines)):
            module, items, alias = use.groups()
            if items is None:
                self.modules[alias or module.rsplit(".", 1)[1]] = module
            for item in items.split(",") if items else []:
                item, _, local = item.strip().partition(" as ")
                self.names[local or item] = (module, item)

    def cited(self, text):
        """The definitions that a text of an .antt file cites, as pairs (name of the module, name of the definition)."""
        for word in re.split(r"[\s(){}\[\];,\\]+", re.sub(r'"[^"]*"', " ", text)):
            first, *rest = word.split(".")
            if first in self.modules:
                yield self.modules[first], rest[0] if rest else ""
            elif first in self.names:
                yield self.names[first]


class Module:
    """A file in specs/: its definitions in the order of the file, each with its comment and its lines."""

    def __init__(self, crate, path):
        self.path, self.name, self.definitions = path, f"{crate}.specs.{path.stem}", {}
        front, _, rest = path.read_text().partition("\nuse ")
        self.title = " ".join(line[3:] for line in front.splitlines() if line.startswith("-- "))
        lines, comment, name = f"use {rest}".splitlines(), [], None
        for line in lines:
            head = HEAD.match(line)
            if line.startswith("-- "):
                comment, name = (comment if not name else []) + [line[3:]], None
            elif head and not USE.match(line):
                name = head.group(1)
                self.definitions[name] = (" ".join(comment), [line])
            elif line.strip() and name and not line.lstrip().startswith("--"):
                self.definitions[name][1].append(line)
            elif not line.strip():
                comment, name = [], None
        self.scope = Scope(lines, self.name, self.definitions)


def read_modules():
    """The modules of the crates in crates.txt. Each crate comes after the crates on which it depends."""
    lines = (TOP / "crates.txt").read_text().splitlines()
    needs = {line.split(":")[0]: line.split(":")[1].split() for line in lines if ":" in line and line[0] != "#"}
    below = lambda name: [crate for other in needs[name] if other in needs for crate in below(other)] + [name]
    for crate in dict.fromkeys(crate for name in needs for crate in below(name)):
        library = TOP / "crates" / crate / "specs" / "Lib.antt"
        for stem in re.findall(r"mod (\w+)", library.read_text()) if library.exists() else []:
            yield Module(crate, library.with_name(f"{stem}.antt"))


def closure(roots):
    """The definitions `roots` and all definitions on which they depend, and the types and constants that these cite."""
    seen, code, waiting = set(), {}, list(roots)
    while waiting:
        module, name = waiting.pop()
        declared = re.match(r"(\w+)\.specs\.declared\.([\w.]+)$", module)
        if declared and (TOP / "crates" / declared.group(1)).exists():
            path = declared.group(2).split(".")
            at = next((k for k, part in enumerate(path) if part[0].isupper()), len(path))
            item = name if path[at:] == ["TheConstants"] or at == len(path) else path[at]
            code[(declared.group(1), "/".join(path[:at]), item)] = None
        elif module in MODULES and name in MODULES[module].definitions and (module, name) not in seen:
            seen.add((module, name))
            own = MODULES[module]
            waiting += own.scope.cited("\n".join(own.definitions[name][1]))
    return seen, sorted(code)


class Item:
    """An item of the code: its file, the first paragraph of its comment, its lines, and the names that it can use."""

    def __init__(self, crate, name, kind, end="}"):
        for path in sorted((TOP / "crates" / crate / "src").rglob("*.rt")):
            lines = path.read_text().splitlines()
            at = next((k for k, line in enumerate(lines) if re.match(rf"\s*{kind} {name}\b", line)), None)
            if at is not None:
                break
        else:
            sys.exit(f"tools/reading.py: crates/{crate}/src has no `{kind} {name}`")
        above = re.search(r"((?: *///.*\n)*)(?: *#\[.*\n)*$", "\n".join([*lines[:at], ""])).group(1)
        self.said = " ".join(line.strip()[3:].strip() for line in above.splitlines()).split("  ")[0]
        self.lines = lines[at : lines.index(end, at)] if end in lines[at:] else lines[at:]
        self.place, self.scope = place(path), Scope(lines)


def wrapped(text, indent=""):
    return textwrap.wrap(text, 118, subsequent_indent=indent, break_long_words=False, break_on_hyphens=False)


def table(heads, rows):
    escaped = ([cell.replace("|", "\\|") for cell in row] for row in rows)
    return [f"| {' | '.join(heads)} |", "|---" * len(heads) + "|", *(f"| {' | '.join(row)} |" for row in escaped), ""]


def table_of(definitions, code):
    out = []
    for module in MODULES.values():
        here = [(name, said) for name, (said, _) in module.definitions.items() if (module.name, name) in definitions]
        if here:
            listed = table(("Definition", "What it says"), [(f"`{name}`", said) for name, said in here])
            out += [f"### {place(module.path)}", "", *wrapped(module.title), "", *listed]
    items = [(name, Item(crate, name, ITEM)) for crate, _, name in code]
    if items:
        said = [(f"`{name}`", f"{item.said} ({item.place})") for name, item in items]
        out += ["### Types and constants of the code", "", *table(("Item", "What it is"), said)]
    return out


def count(definitions):
    lines, files = sum(len(MODULES[m].definitions[d][1]) for m, d in definitions), len({m for m, _ in definitions})
    return f"{len(definitions)} definitions, {lines} lines in {files} {'file' if files == 1 else 'files'}"


def above(definitions, code):
    """The lines of a list of those definitions and items that earlier lists of the page contain."""
    for module in MODULES.values():
        here = [f"`{name}`" for name in module.definitions if (module.name, name) in definitions]
        if here:
            yield from wrapped(f"- {place(module.path)}: {', '.join(here)}", "  ")
    if code:
        yield from wrapped(f"- of the code: {', '.join(f'`{name}`' for _, _, name in code)}", "  ")


def lists():
    out, known, known_code, words_of = [], set(), [], {}
    for crate, name, others in CONTRACTS:
        call = Item(crate, name, "pub fn", "{")
        lines = "\n".join(line for line in call.lines if not line.strip().startswith("//"))
        clauses = lines[re.search(r"^    (?:requires|ensures) ", lines, re.M).start() :]
        definitions, code = closure(call.scope.cited(clauses))
        words_of[name] = definitions
        definitions = definitions.difference(*(words_of[other] for other in others))
        said = f"The contract in {call.place} uses {count(definitions)}. Comments and empty lines are not counted"
        said += "".join(f". It also uses the definitions of `{other}`" for other in others)
        out += [f"## `{name}`", "", *wrapped(said + ".")]
        if known:
            shared = above(definitions & known, [item for item in code if item in known_code])
            out += ["", "These definitions are in the lists above:", "", *shared, "", "These definitions are new:"]
        new_code = [item for item in code if item not in known_code]
        out += ["", *table_of(definitions - known, new_code)]
        known, known_code = known | definitions, known_code + new_code
    return out, known


def variables(known):
    """The clauses of the traits over which contracts are generic, and the views that values in clauses stand for."""
    out, roots = ["## What the variables stand for", ""], []
    for crate, name in TRAITS:
        item = Item(crate, name, "pub trait")
        roots += item.scope.cited("\n".join(item.lines))
        shown = [line for line in item.lines if line.strip() and not line.strip().startswith("///")]
        out += [*wrapped(f"`{name}` ({item.place}): {item.said}"), "", "```text", *shown, "}", "```", ""]
    for crate, name in VIEWS:
        item = Item(crate, name, "impl Model for")
        ghosts = re.findall(r"ghost (Value|view|invariant) = \{ (.*?) \};", "\n".join(item.lines), re.S)
        roots += item.scope.cited("\n".join(text for _, text in ghosts))
        said = "; ".join(f"{what.lower()} `{text}`" for what, text in ghosts)
        out += [*wrapped(f"In a clause, a value of the type `{name}` ({item.place}) means its view: {said}."), ""]
    definitions, _ = closure(roots)
    return [*out, "These definitions are used above, and are in none of the lists below:", "", *table_of(definitions - known, [])]


def fault():
    item = Item("autfmt", "Fault", "pub enum")
    found, said = [], []
    for line in map(str.strip, item.lines[1:]):
        if line.startswith("///"):
            said.append(line[3:].strip())
        elif not line.startswith("#["):
            found.append((f"`{line.rstrip(',')}`", " ".join(said)))
            said = []
    return [*wrapped(f"`Fault` ({item.place}): {item.said}"), "", *table(("Variant", "When"), found)]


def made():
    """The lines between the two marked lines of the page."""
    MODULES.update((module.name, module) for module in read_modules())
    listed, known = lists()
    return [*variables(known), *fault(), *listed]


def publish(tool, page, writes, made):
    """Puts the lines that `made` returns between the two marked lines of the page, and prints or writes the page."""
    begin, end = f"<!-- made by {tool} -->", "<!-- up to here -->"
    beside = page.with_suffix(".new")
    try:
        lines, text = made(), page.read_text()
        if text.count(begin) != 1 or text.count(end) != 1:
            sys.exit(f"{tool}: {page} wants one line {begin} and one line {end}")
        front, back = text[: text.index(begin)], text[text.index(end) :]
        text = front + "\n".join([begin, "", *lines]).rstrip() + "\n\n" + back
        if writes:
            beside.write_text(text)
            os.replace(beside, page)
        else:
            print(text, end="", flush=True)
    except (OSError, ValueError, KeyboardInterrupt) as error:
        if beside.is_file():
            beside.unlink()
        print(f"{tool}: {str(error) or 'stopped'}", file=sys.stderr, flush=True)
        # The rest of the buffer cannot be written, so Python must not try to write it when the script ends.
        os._exit(1)


def main():
    if sys.argv[1:] not in ([], ["--write"]):
        sys.exit(__doc__)
    publish("tools/reading.py", TOP / "docs" / "reading.md", sys.argv[1:], made)


if __name__ == "__main__":
    main()
