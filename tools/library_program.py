#!/usr/bin/env python3
"""Writes the static library crates/juqhanep as a program that calls each of its exports, so that the kit makes code of them without a proof.

    tools/library_program.py TOP FOLDER    makes FOLDER a repository of TOP's sources, in which the crate juqhanep is that program (run by library.sh)
"""
import pathlib
import re
import shutil
import sys

EXPORT = re.compile(r'^pub extern "C" fn (\w+)\(\s*(.*?),?\s*\) -> (\w+)', re.M | re.S)
RECORD = re.compile(r"^#\[repr\(C\)\]\n(?:#.*\n)*pub struct (\w+) \{\n(.*?)^\}", re.M | re.S)
FIELD = re.compile(r"^    pub (\w+): (\w+),", re.M)
# What stands for a parameter, by its type; a handle is none, and another record has zeros.
GIVEN = {"Global": "alloc", "&[u8]": 'b""', "&mut [u8]": "&mut room", "bool": "false"}
MAIN = """
/// Calls each export, so that code is made of it.
fn main(rt: HostRuntime) {{
    let alloc = rt.alloc();
    let mut room = [0u8; 1];
{lines}}}
"""


def exports(crate):
    """The exports of a crate: the module, the name, the parameters with their types, and the type of the answer."""
    for path in sorted((crate / "src").glob("*.rt")):
        for name, parameters, answer in EXPORT.findall(path.read_text()):
            yield path.stem, name, [tuple(it.split(": ", 1)) for it in re.split(r",\s+", parameters)], answer


def records(crates):
    """The records that C sees: of each the crate and the fields with their types; where these aren't public it is a handle, and has none."""
    return {
        name: (crate.name, FIELD.findall(fields))
        for crate in crates.iterdir()
        for path in (crate / "src").glob("*.rt")
        for name, fields in RECORD.findall(path.read_text())
    }


def made(of, known):
    """A value of a type."""
    if of in GIVEN or not of.startswith("&mut "):
        return GIVEN.get(of, "0")
    crate, fields = known[of.removeprefix("&mut ")]
    name = f"{crate}::{of.removeprefix('&mut ')}"
    if not fields:
        return f"&mut {name}::none(alloc)"
    return f"&mut {name} {{ {', '.join(f'{field}: 0' for field, _ in fields)} }}"


def main(top, folder):
    crates = pathlib.Path(top) / "crates"
    folder = pathlib.Path(folder)
    for crate in crates.iterdir():
        if (crate / "src").is_dir():
            shutil.copytree(crate / "src", folder / "crates" / crate.name / "src")
    shutil.copy(crates.parent / "HANDLES", folder)
    rows = (crates.parent / "crates.txt").read_text()
    (folder / "crates.txt").write_text(rows.replace("\njuqhanep staticlib:", "\njuqhanep:"))
    known = records(crates)
    lines = [
        f"    let _answer = {module}::{name}({', '.join(made(of, known) for _, of in parameters)});\n"
        for module, name, parameters, _ in exports(crates / "juqhanep")
    ]
    if not lines:
        sys.exit("tools/library_program.py: crates/juqhanep exports nothing")
    root = folder / "crates" / "juqhanep" / "src" / "lib.rt"
    root.with_name("main.rt").write_text(root.read_text() + MAIN.format(lines="".join(lines)))
    root.unlink()


if __name__ == "__main__":
    main(*sys.argv[1:])
