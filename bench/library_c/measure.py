#!/usr/bin/env python3
"""Measures the library for applications, in the folder $LIBRARY or the one that tools/library.sh makes (proved where the crate juqhanep is built).

    bench/library_c/measure.py WHAT..    each of these, or all

    steps          steps a second of the processor's time and the times of casts and receives, three members in one process: the median of five runs
    instructions   instructions of a step with its outputs, by callgrind
    rounds         a cast and the cast that answers it among three processes over UDP, beside bare datagrams: the median of five runs
    memory         allocations in a million calls after open, and the memory that is resident after 100 and after 10,000 opens and closes
    hostile        a million hostile datagrams and 100,000 wrong calls; and a twentieth of these under valgrind
    python         calls a second and their times in one process of Python, and rounds among three

Each line says what was measured over which stack; the last one has the load of the machine.
"""
import os
import pathlib
import statistics
import subprocess
import sys
import tempfile

HERE = pathlib.Path(__file__).resolve().parent
TOP = HERE.parents[1]
STACKS = {
    "fifteen": "stack { bottom; mnak; pt2pt; pt2ptw; mflow; frag; collect; stable; local; total; suspect; elect; sync; intra; top; }",
    "five": "stack { bottom; mnak; pt2pt; local; total; }",
}
# In rounds over UDP what is lost is to be sent again soon, and nobody is to be given up.
PATIENT = {
    "fifteen": STACKS["fifteen"].replace("mnak;", "mnak(gap = 20);").replace("pt2pt;", "pt2pt(gap = 10);").replace("suspect;", "suspect(every = 1000, after = 60000);"),
    "five": STACKS["five"].replace("mnak;", "mnak(gap = 20);").replace("pt2pt;", "pt2pt(gap = 10);"),
}
MODES = ("bypass", "layered")


def library():
    if "LIBRARY" in os.environ:
        return pathlib.Path(os.environ["LIBRARY"]).resolve()
    archive = TOP / "crates" / "juqhanep" / "out" / "libjuqhanep.a"
    ran = subprocess.run([TOP / "tools" / "library.sh", *([] if archive.exists() else ["--unproved"])], stdout=subprocess.PIPE, check=True)
    return pathlib.Path(ran.stdout.decode().splitlines()[-1])


class Bench:
    def __init__(self, place, folder):
        self.place, self.folder, self.port = place, folder, 47000
        for names, texts in (("", STACKS), ("patient-", PATIENT)):
            for name, text in texts.items():
                (place / f"{names}{name}.layers").write_text(text)

    def made(self, name, *more):
        """The program of a source of this folder."""
        words = ["cc", "-std=c11", "-D_GNU_SOURCE", "-O2", "-I", self.folder, "-I", HERE, HERE / f"{name}.c", self.folder / "libjuqhanep.a", *more, "-o", self.place / name]
        subprocess.run(words, check=True)
        return self.place / name

    def told(self, words, **more):
        """What a program prints: numbers by the word before each."""
        words = [str(word) for word in words]
        out = subprocess.run(words, stdout=subprocess.PIPE, stderr=subprocess.STDOUT, check=True, env={**os.environ, **more}).stdout.decode()
        return out, lambda word, line=0: float(out.splitlines()[line].split(f"{word} ")[1].split()[0])

    def steps(self):
        program = self.made("steps")
        for stack in STACKS:
            for mode in MODES:
                runs = [self.told([program, self.place / f"{stack}.layers", mode, 20000])[1] for _ in range(5)]
                seen = {
                    "open_us": [run("open_us") for run in runs], "steps_s": [run("steps_s", 1) for run in runs],
                    **{f"{what} {percent}": [run(percent, line) for run in runs] for line, what in ((2, "cast"), (3, "receive")) for percent in ("p50_ns", "p99_ns")},
                }
                print(f"steps, {stack}, {mode}: " + ", ".join(f"{name} {statistics.median(values):.0f} ({min(values):.0f} to {max(values):.0f})" for name, values in seen.items()), flush=True)

    def instructions(self):
        program = self.made("steps")
        for stack in STACKS:
            for mode in MODES:
                seen = []
                for casts in (1000, 3000):
                    words = ["valgrind", "--tool=callgrind", "--callgrind-out-file=/dev/null", program, self.place / f"{stack}.layers", mode, casts]
                    out, _ = self.told(words, ONCE="1")
                    seen.append([int(out.split(word)[1].split()[0]) for word in ("Collected :", "\nsteps ")])
                (few, some), (many, more) = seen
                print(f"instructions, {stack}, {mode}: {(many - few) / (more - some):.0f} a step with its outputs", flush=True)

    def rounds(self):
        program = self.made("round")
        for stack, mode in (("-", "bypass"), *((f"patient-{stack}", mode) for stack in STACKS for mode in MODES)):
            runs = []
            for _ in range(5):
                self.port += 3
                layers = stack if stack == "-" else self.place / f"{stack}.layers"
                runs.append(self.told([program, layers, mode, 2000, self.port])[1])
            seen = {word: [run(word) for run in runs] for word in ("lost", "p50_us", "p99_us")}
            what = "bare datagrams" if stack == "-" else f"{stack.removeprefix('patient-')}, {mode}"
            print(f"rounds, {what}: " + ", ".join(f"{name} {statistics.median(values):.1f} ({min(values):.1f} to {max(values):.1f})" for name, values in seen.items()), flush=True)

    def memory(self):
        program = self.made("memory", "-Wl,--wrap=malloc,--wrap=realloc,--wrap=free")
        for stack in STACKS:
            print(f"memory, {stack}: " + "; ".join(self.told([program, self.place / f"{stack}.layers", 1000000, 10000])[0].splitlines()), flush=True)

    def hostile(self):
        program = self.made("hostile")
        for stack in STACKS:
            words = [program, self.place / f"{stack}.layers"]
            print(f"hostile, {stack}: " + "; ".join(self.told([*words, 1000000, 100000, 1])[0].splitlines()), flush=True)
            words = ["valgrind", "--quiet", "--error-exitcode=9", "--leak-check=full", *words, 50000, 5000, 2]
            print(f"hostile, {stack}, under valgrind: " + "; ".join(self.told(words)[0].splitlines()), flush=True)

    def python(self):
        how = {"PYTHONPATH": str(TOP / "bindings" / "python"), "JUQHANEP_LIBRARY": str(self.folder / "libjuqhanep.so")}
        for stack in STACKS:
            runs = [self.told([sys.executable, HERE / "calls.py", self.place / f"{stack}.layers"], **how)[1] for _ in range(3)]
            seen = {word: [run(word) for run in runs] for word in ("calls_s", "cast_p50_us", "cast_p99_us", "receive_p50_us", "receive_p99_us")}
            print(f"python, {stack}: " + ", ".join(f"{name} {statistics.median(values):.1f}" for name, values in seen.items()), flush=True)
        for stack in (None, *STACKS):
            self.port += 3
            words = [sys.executable, HERE / "rounds.py", "-" if stack is None else self.place / f"patient-{stack}.layers", 1000, self.port]
            print(f"python rounds, {stack or 'bare datagrams'}: {self.told(words, **how)[0].strip()}", flush=True)


def main():
    folder = library()
    with tempfile.TemporaryDirectory(prefix="juqhanep-") as place:
        bench = Bench(pathlib.Path(place), folder)
        for what in sys.argv[1:] or ("steps", "instructions", "rounds", "memory", "hostile", "python"):
            getattr(bench, what)()
    print(f"load {os.getloadavg()[0]:.1f} on {os.cpu_count()} processors")


if __name__ == "__main__":
    main()
