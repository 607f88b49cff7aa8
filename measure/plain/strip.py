#!/usr/bin/env python3
"""Strips the contracts from the crates up to `quotient`, and builds them as plain Rust with the reader and writer of the
baseline. So a change can be tried in half a minute, before anything is proved.

usage: measure/plain/strip.py                   writes measure/out/plain from the crates, and builds it
       measure/plain/strip.py --keep            builds measure/out/plain as it is: edit measure/out/plain/CRATE/src
then:  measure/out/plain/target/release/tool min --relation branching FILE

docs/measuring.md lists what the tool cannot do.
"""

import os
import re
import shutil
import subprocess
import sys
from pathlib import Path

HERE = Path(__file__).resolve().parent
TOP, OUT = HERE.parents[1], HERE.parent / "out" / "plain"
CRATES = "memory", "theory", "lts", "buckets", "signatures", "inert", "partition", "refine_core", "quotient_core", "quotient"
# Each pattern of Rattle, and its replacement in Rust with the shim `kit`.
REPLACED = (
    (r"^\s*ghost use [^;]*;\n", ""),
    (r"^\s*ghost \w+: \{[^{}]*\}\n", ""),
    (r"^\s*ghost [^;]*;\n", ""),
    (r"^ *#!?\[(tactic\(.*|derive\(Drop\))\]\n", ""),
    (r"\b(derive\([^)]*), Drop\b", r"\1"),
    (r"\b(derive\()Drop, ", r"\1"),
    (r"(<\w+|\btrait \w+): Drop\b", r"\1"),
    (r"vec!\[in alloc; ([^;\]]*)\]", r"kit::vec_in(\1, 1)"),
    (r"vec!\[in alloc; ([^;]*); ([^\]]*)\]", r"kit::vec_in(\1, \2)"),
    (r"\buse std::(alloc|rc)::", "use kit::"),
    (r"\buse indexmap::", "use kit::"),
    (r"\buse std::collections::", "use kit::"),
    (r"\buse std::marker::Model;\n", ""),
    (r"\buse std::marker::\{Model, (\w+)\};", r"use std::marker::\1;"),
)
BLOCKS = r"^\s*impl[^\n{]*\b(Model|Drop) for [^\n{]*\{", r"^\s*(requires|ensures)( \w+)? \{"


def without_blocks(text, pattern):
    """The text without the blocks that the pattern begins. A semicolon after the closing brace is kept."""
    while found := re.search(pattern, text, re.M):
        end, depth = found.end(), 1
        while depth:
            depth += {"{": 1, "}": -1}.get(text[end], 0)
            end += 1
        text = text[: found.start()] + text[end:]
    return text


def stripped(text):
    for pattern in BLOCKS:
        text = without_blocks(text, pattern)
    for pattern, plain in REPLACED:
        text = re.sub(pattern, plain, text, flags=re.M)
    # After the comments and the attributes of the file.
    head = re.match(r"((//!.*|#!\[.*|\s*)\n)*", text).end()
    return f"{text[:head]}#[allow(unused_imports)]\nuse kit::Vec;\n{text[head:]}"


def make():
    """Writes a package for each crate, for the shim and for the tool, and a workspace with all of them."""
    lines = [line.split(":") for line in (TOP / "crates.txt").read_text().splitlines() if ":" in line and line[0] != "#"]
    needs = {name: ["kit", *(other for other in rest.split() if other in CRATES)] for name, rest in lines}
    packages = {"kit": [], **{name: needs[name] for name in CRATES}, "tool": ["kit", *CRATES]}
    shutil.rmtree(OUT, ignore_errors=True)
    for name, others in packages.items():
        sources = OUT / name / "src"
        sources.mkdir(parents=True)
        others = "".join(f'{other} = {{ path = "../{other}" }}\n' for other in others)
        manifest = f'[package]\nname = "{name}"\nedition = "2021"\n\n[dependencies]\n{others}'
        sources.with_name("Cargo.toml").write_text(manifest)
        for file in (TOP / "crates" / name / "src").glob("*.rt"):
            (sources / f"{file.stem}.rs").write_text(stripped(file.read_text()))
    shutil.copy(HERE / "kit.rs", OUT / "kit" / "src" / "lib.rs")
    shutil.copy(HERE / "tool.rs", OUT / "tool" / "src" / "main.rs")
    shutil.copy(HERE.parent / "yardstick" / "src" / "text.rs", OUT / "tool" / "src")
    members = ", ".join(f'"{name}"' for name in packages)
    profile = 'opt-level = 3\nlto = true\ncodegen-units = 1\npanic = "abort"\ndebug = 1\n'
    (OUT / "Cargo.toml").write_text(f'[workspace]\nresolver = "2"\nmembers = [{members}]\n\n[profile.release]\n{profile}')


def main():
    if sys.argv[1:] not in ([], ["--keep"]):
        sys.exit(__doc__)
    try:
        if not sys.argv[1:]:
            make()
        cargo = "cargo", "build", "--release", "--offline", "--quiet", "--manifest-path", OUT / "Cargo.toml"
        sys.exit(subprocess.run(cargo, env={**os.environ, "RUSTFLAGS": "-Awarnings"}).returncode)
    except OSError as error:
        sys.exit(f"measure/plain/strip.py: {error}")
    except (KeyError, IndexError) as error:
        sys.exit(f"measure/plain/strip.py: crates.txt or a crate has an unexpected form: {error!r}")


if __name__ == "__main__":
    main()
