#!/usr/bin/env python3
"""Tries the library for applications: its exports against the header and the bindings, the Python package with logs that the program in $STACKC judges,
the Rust crate where cargo is, the examples in C and Python, and wrong calls.

The library is the one in the folder $LIBRARY (tools/library.sh makes it); without that nothing is tried.
"""
import json
import os
import pathlib
import re
import shutil
import signal
import subprocess
import sys
import tempfile
import time

sys.path.insert(0, os.path.join(os.path.dirname(os.path.abspath(__file__)), ".."))
import library_program
from journals import free_ports
from program import runs
from tree import TOP

TOP = pathlib.Path(TOP)
PACKAGE = TOP / "bindings" / "python"
# The records of the header, as the crates have them.
RECORDS = {"juq_t": "Handle", "juq_fault": "ToldFault", "juq_event": "ToldEvent"}
# A parameter or field of the exports, as C has it: a slice is a pointer and a length.
IN_C = {
    **{f"&mut {record}": [f"{name} *"] for name, record in RECORDS.items()}, "Global": [], "&[u8]": ["const uint8_t *", "size_t"],
    "&mut [u8]": ["uint8_t *", "size_t"], "bool": ["bool"], "u8": ["uint8_t"], "u32": ["uint32_t"], "u64": ["uint64_t"], "usize": ["size_t"],
}
IN_RUST = {
    "juq_t *": "*mut Handle", "juq_fault *": "*mut Fault", "juq_event *": "*mut Event", "const uint8_t *": "*const u8", "uint8_t *": "*mut u8", "size_t": "usize",
    "bool": "bool", "uint8_t": "u8", "uint32_t": "u32", "const char *": "*const c_char",
}
IN_PYTHON = {
    "juq_t *": "LP_Handle", "juq_fault *": "LP_Fault", "juq_event *": "LP_Event", "const uint8_t *": "c_char_p", "uint8_t *": "c_void_p", "size_t": "c_ulong",
    "bool": "c_bool", "uint8_t": "c_ubyte", "uint32_t": "c_uint", "const char *": "c_char_p",
}


def header():
    """The calls of the header: each with the types of its answer and of its parameters; and the fields of its records."""
    text = re.sub(r"/\*.*?\*/", "", (TOP / "include" / "juqhanep.h").read_text(), flags=re.S)
    typed = lambda it: " ".join(re.sub(r"\w+$", "", it.strip()).split()) if it.strip() != "void" else None
    calls = {
        name: [answer.strip(), *filter(None, map(typed, given.split(",")))]
        for answer, name, given in re.findall(r"^((?:const )?\w+ \*?)(juq_\w+)\(([^;]*)\);", text, re.M)
    }
    records = {name: [tuple(field.split()) for field in fields.split(";") if field.strip()] for fields, name in re.findall(r"typedef struct \w+ \{(.*?)\} (\w+);", text, re.S)}
    return calls, records


def signatures(made, folder):
    """The header has the exports of the crate, each with its types, and the library has no others; so have Python and Rust."""
    calls, records = header()
    exported = {
        name: IN_C[answer] + [kind for _, of in parameters for kind in IN_C[of]]
        for _, name, parameters, answer in library_program.exports(TOP / "crates" / "juqhanep")
    }
    made.compare("the header's calls", {name: types for name, types in calls.items() if name != "juq_version"}, exported)
    made.compare("juq_version", calls.get("juq_version"), ["const char *"])
    known = library_program.records(TOP / "crates")
    for name in ("juq_fault", "juq_event"):
        fields = [(IN_C[of][0], field) for field, of in known[RECORDS[name]][1]]
        made.compare(f"the fields of {name}", [(" ".join(kind), field) for *kind, field in records[name]], fields)
    named = subprocess.run(["nm", "-D", "--defined-only", folder / "libjuqhanep.so"], stdout=subprocess.PIPE, check=True).stdout.decode()
    made.compare("what the library defines", sorted(line.split()[-1] for line in named.splitlines()), sorted(calls))
    wrapped = subprocess.run(
        [sys.executable, "-c", "import json; from juqhanep.library import SIGNATURES; print(json.dumps({n: [t.__name__ for t in ts] for n, ts in SIGNATURES.items()}))"],
        stdout=subprocess.PIPE, check=True, env=with_package(folder),
    )
    made.compare("Python's calls", json.loads(wrapped.stdout), {name: [IN_PYTHON[it] for it in types] for name, types in calls.items()})
    rust = (TOP / "bindings" / "rust" / "src" / "calls.rs").read_text()
    wrapped = {
        name: [answer, *(it.split(": ")[1] for it in given.split(", ") if it)] for name, given, answer in re.findall(r"pub fn (\w+)\((.*)\) -> (.*);", rust)
    }
    made.compare("Rust's calls", wrapped, {name: [IN_RUST[it] for it in types] for name, types in calls.items()})


def layouts(made, folder, place):
    """The records have the sizes and places that C gives them, in Python too."""
    _, records = header()
    asked = [(name, field) for name, fields in records.items() if name != "juq_t" for *_, field in fields]
    source = place / "layout.c"
    prints = "".join(f'printf("%zu ", offsetof({name}, {field}));\n' for name, field in asked)
    source.write_text(f'#include <stdio.h>\n#include "juqhanep.h"\nint main(void) {{\n{prints}printf("%zu %zu %zu\\n", sizeof(juq_t), sizeof(juq_fault), sizeof(juq_event));\n}}\n')
    compile_c(made, folder, source, place / "layout")
    told = subprocess.run([place / "layout"], stdout=subprocess.PIPE, check=True).stdout.decode().split()
    code = "import ctypes; from juqhanep.library import Event, Fault, Handle; print(*[getattr(r, f).offset for r in (Fault, Event) for f, _ in r._fields_], *map(ctypes.sizeof, (Handle, Fault, Event)))"
    ran = subprocess.run([sys.executable, "-c", code], stdout=subprocess.PIPE, check=True, env=with_package(folder))
    made.compare("the layout of records in C and in Python", told, ran.stdout.decode().split())


def with_package(folder, **more):
    """The environment in which Python finds the package, and that the library."""
    return {**os.environ, "PYTHONPATH": str(PACKAGE), "JUQHANEP_LIBRARY": str(folder / "libjuqhanep.so"), "PYTHONDONTWRITEBYTECODE": "1", **more}


def compile_c(made, folder, source, program, *more):
    """Compiles a program without a warning, over the archive."""
    words = ["cc", "-std=c11", "-D_GNU_SOURCE", "-O1", "-Wall", "-Wextra", "-Werror", "-pedantic", "-I", folder, "-I", source.parent, source, folder / "libjuqhanep.a", *more, "-o", program]
    ran = subprocess.run(words, stderr=subprocess.PIPE, check=False)
    made.compare(f"{source.name} compiles", (ran.returncode, ran.stderr.decode()), (0, ""))


def in_c(made, folder, place):
    """The header is C++ too; the chat of two processes; and hostile datagrams, wrong calls and memory at small counts (bench/library_c makes more)."""
    source = place / "plus.cc"
    source.write_text('#include "juqhanep.h"\nint main() { juq_t none = JUQ_NONE; return juq_close(&none) != JUQ_CLOSED; }\n')
    ran = subprocess.run(["c++", "-std=c++17", "-Wall", "-Wextra", "-Werror", "-pedantic", "-I", folder, source, folder / "libjuqhanep.a", "-o", place / "plus"], check=False)
    made.compare("the header in C++", (ran.returncode, subprocess.run([place / "plus"], check=False).returncode), (0, 0))
    compile_c(made, folder, TOP / "examples" / "chat.c", place / "chat")
    chat(made, place)
    layers = place / "small.layers"
    layers.write_text("stack { bottom; mnak; pt2pt; pt2ptw; local; total; suspect; elect; sync; intra; top; }\n")
    compile_c(made, folder, TOP / "bench" / "library_c" / "hostile.c", place / "hostile")
    made.compare("hostile datagrams and wrong calls", subprocess.run([place / "hostile", layers, "20000", "20000", "1"], stdout=subprocess.DEVNULL, check=False).returncode, 0)
    compile_c(made, folder, TOP / "bench" / "library_c" / "memory.c", place / "memory", "-Wl,--wrap=malloc,--wrap=realloc,--wrap=free")
    ran = subprocess.run([place / "memory", layers, "50000", "600"], stdout=subprocess.PIPE, check=True).stdout.decode().split()
    made.compare("allocations after open", ran[ran.index("allocations") + 1], "0")


def chat(made, place):
    """Two chats: a line of the first arrives at both, and so does that the second leaves."""
    ports = [str(port) for port in free_ports(2)]
    with_input = lambda me: subprocess.Popen([place / "chat", TOP / "examples" / "chat.layers", me, *ports], stdin=subprocess.PIPE, stdout=subprocess.PIPE)
    one, two = with_input("0"), with_input("1")
    try:
        one.stdin.write(b"hello\n")
        one.stdin.flush()
        made.compare("a line of a chat", (one.stdout.readline(), two.stdout.readline()), (b"0: hello\n", b"0: hello\n"))
        two.communicate(timeout=20)
        made.compare("a view of a chat", (one.stdout.readline(), two.returncode), (b"view 1: 0x1\n", 0))
    finally:
        for process in (one, two):
            process.kill()
            process.wait()


def in_python(made, folder, place):
    """The package's own tests, its installation, and the counter of three processes, of which one is killed."""
    ran = subprocess.run([sys.executable, "-m", "unittest", "discover", "-s", PACKAGE / "tests"], stderr=subprocess.PIPE, env=with_package(folder, STACKC=os.environ["STACKC"]), check=False)
    made.compare("the package's tests", (ran.returncode, ran.stderr.decode().splitlines()[-1]), (0, "OK"))
    if ran.returncode:
        print(ran.stderr.decode())
    shutil.copytree(PACKAGE, place / "package")
    pip = [sys.executable, "-m", "pip", "install", "--quiet", "--no-build-isolation", "--no-deps", "--no-index", "--target", place / "installed", place / "package"]
    if subprocess.run([sys.executable, "-c", "import pip, setuptools"], check=False, stderr=subprocess.DEVNULL).returncode == 0:
        subprocess.run(pip, check=True)
        ran = subprocess.run([sys.executable, "-c", "import juqhanep.udp, juqhanep.log; print(juqhanep.version())"], stdout=subprocess.PIPE, check=True,
                             env=with_package(folder, PYTHONPATH=str(place / "installed")), cwd=place)
        made.compare("what is installed", ran.stdout.startswith(b"juqhanep "), True)
    counters(made, folder)


def shown(made):
    """What the tutorial shows of the counter stands in it."""
    chapter = (TOP / "docs" / "TUTORIAL.md").read_text().partition("## A counter that processes keep together")[2]
    lines = [line.strip() for line in re.findall(r"^    (.*)$", chapter, re.M)]
    counter = (TOP / "examples" / "counter.py").read_text()
    code = [line for line in lines if not line.startswith(("$ ", "counter ", "view "))]
    made.compare("the tutorial's lines of the counter", [line for line in code if line not in counter], [])


def counters(made, folder):
    """Three counters end alike, and all that each added is in; so do two where the first of three is killed. A busy machine may part a group, so it is tried again."""
    for killed in (None, 0):
        ends = next((ends for ends in (count(folder, killed) for _ in range(3)) if len({counter for counter, _, _ in ends}) == 1), [])
        made.compare(f"counters, {killed} killed: alike, with all additions", [mine == asked for _, mine, asked in ends], [True] * (3 if killed is None else 2))


def count(folder, killed):
    """What the counters of three processes end with: the counter, how many additions of the process are in it, and how many it wanted."""
    ports = [str(port) for port in free_ports(3)]
    words = lambda me: [sys.executable, TOP / "examples" / "counter.py", str(me), "3", *ports]
    processes = [subprocess.Popen(words(me), stdout=subprocess.PIPE, env=with_package(folder)) for me in range(3)]
    if killed is not None:
        time.sleep(1.5)
        processes[killed].send_signal(signal.SIGKILL)
    ends = [process.communicate(timeout=120)[0].decode().splitlines() for process in processes]
    return [re.findall(r"\d+", end[-1]) for me, end in enumerate(ends) if me != killed]


def judged(made, folder, place):
    """A log agrees with its replay by the program and by the reading, until a digit of it is changed; and random scripts are the same in all three."""
    layers, name = place / "order.layers", place / "log"
    layers.write_text("stack { bottom; mnak; local; total; }\n")
    code = "import sys; from juqhanep import log\nwith log.open(sys.argv[2], open(sys.argv[1]).read(), members=2, me=0) as m: m.cast(b'hi'); m.tick(100); m.cast(b'')"
    subprocess.run([sys.executable, "-c", code, layers, name], check=True, env=with_package(folder))
    words = [sys.executable, TOP / "tools" / "judge.py", "--stackc", os.environ["STACKC"]]
    judge = lambda *more: subprocess.run([*words, *more, layers, name], stdout=subprocess.PIPE, env=with_package(folder), check=False).returncode
    made.compare("a log is judged", [judge(), judge("--reading"), judge("--layered")], [0, 0, 1])
    report = name.with_suffix(".report")
    report.write_text(report.read_text().replace("6869", "6868", 1))
    made.compare("a changed log is judged", [judge(), judge("--reading")], [1, 1])
    ran = subprocess.run([sys.executable, TOP / "diff" / "library.py", "library", "10", "1"], stdout=subprocess.PIPE, env=with_package(folder), check=False)
    made.compare("random scripts", (ran.returncode, ran.stdout.decode().splitlines()[-1].endswith(" 0 differences")), (0, True))


def in_rust(made, folder, place):
    """The crate's tests and its example, where cargo is."""
    if not shutil.which("cargo"):
        return
    shutil.copytree(TOP / "bindings" / "rust", place / "rust", ignore=shutil.ignore_patterns("target", "Cargo.lock"))
    how = {"cwd": place / "rust", "env": {**os.environ, "JUQHANEP_FOLDER": str(folder)}, "stdout": subprocess.PIPE, "stderr": subprocess.PIPE, "check": False}
    ran = subprocess.run(["cargo", "test", "--quiet", "--offline", "--tests"], **how)
    made.compare("cargo test", (ran.returncode, ran.stderr.decode() if ran.returncode else ""), (0, ""))
    ran = subprocess.run(["cargo", "run", "--quiet", "--offline", "--example", "three"], **how)
    made.compare("the example in Rust", (ran.returncode, ran.stdout.decode().count(": a cast of 0: hi"), "file: unknown 1:9" in ran.stdout.decode()), (0, 3, True))


def main():
    if not os.environ.get("LIBRARY"):
        print("library: LIBRARY names no folder, so none was tried")
        return
    folder = pathlib.Path(os.environ["LIBRARY"]).resolve()
    with runs("library") as made, tempfile.TemporaryDirectory(prefix="juqhanep-") as place:
        place = pathlib.Path(place)
        signatures(made, folder)
        layouts(made, folder, place)
        in_c(made, folder, place)
        shown(made)
        in_python(made, folder, place)
        judged(made, folder, place)
        in_rust(made, folder, place)


if __name__ == "__main__":
    main()
