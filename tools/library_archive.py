#!/usr/bin/env python3
"""Makes crates/juqhanep/out/libjuqhanep.a over the libraries that a gate left in crates/*/out which has just passed. The crate's own functions are proved
again while code is made of all; what stands below isn't, as `rt lib` would.

    tools/library_archive.py TOP KIT    run by library.sh
"""
import pathlib
import subprocess
import sys


def crates_of(top):
    """The crates of crates.txt, each with those that it cites itself, libraries of the kit among them."""
    lines = (line.split("#")[0].partition(":") for line in (top / "crates.txt").read_text().splitlines())
    return {name.split()[0]: cited.split() for name, _, cited in lines if name.strip()}


def below(crates, name):
    """The crates below one, each once."""
    found = {}
    for cited in crates[name]:
        if cited in crates:
            found.update(dict.fromkeys(below(crates, cited)))
            found[cited] = None
    return found


def words(top, kit, name):
    """The compiler's words for a static library, as the gate has them for a program."""
    crates = crates_of(top)
    folder = lambda crate: top / "crates" / crate / "out" / "rlib"
    own = ["std", *(it for it in crates[name] if it not in crates)]
    return [
        "--crate-name", name, "src/lib.rt", *(it for lib in own for it in ("--extern", f"{lib}={kit}/rlibs/{lib}.rlib")), "-L", f"dependency={kit}/rlibs",
        *(it for crate in crates[name] if crate in crates for it in ("--extern", f"{crate}={folder(crate)}/{crate}.rlib")),
        *(it for crate in below(crates, name) for it in ("-L", f"dependency={folder(crate)}")),
        "--antt-project", f"{kit}/rattle/logic/antt-project.json", "--logic-built", f"{kit}/logic_built", "--jobs", "2", "--links", f"{name}=",
        "--crate-type", "staticlib", "--toolchain", f"{kit}/toolchain", "--backend", "llvm", "-o", f"out/lib{name}.a",
    ]  # fmt: skip


def main(top, kit):
    crate = pathlib.Path(top) / "crates" / "juqhanep"
    (crate / "out").mkdir(exist_ok=True)
    return subprocess.run([f"{kit}/bin/rattle", "build", *words(pathlib.Path(top), kit, crate.name)], cwd=crate, check=False).returncode


if __name__ == "__main__":
    sys.exit(main(*sys.argv[1:]))
