#!/usr/bin/env python3
"""Refuses each call for memory of a run in turn, and compares what comes of it with the run that has all memory.

Run it from any folder: diff/memory.py [PROGRAM]. It takes `cc`. The calls of malloc, calloc, realloc and posix_memalign are counted by a small library that
stands in front of the system's; call number N fails, or N and all after it, for each N. Where that is told, the status is 7, what was
written is the beginning of the whole report, in whole lines, and what is said is `no memory` or its beginning; else all is as it was. Its runs are a
check, an audit, an explanation, and in both modes a replay with each further word whose views change and loads of one and of four members. It prints how many calls each run has, how many of them were refused
in vain, and each difference; and ends with 1 where there is one.
"""
import os
import subprocess
import sys
import tempfile

TOP = os.path.dirname(os.path.dirname(os.path.abspath(__file__)))

SHIM = r"""
#define _GNU_SOURCE
#include <dlfcn.h>
#include <errno.h>
#include <stdio.h>
#include <stdlib.h>
#include <string.h>
#include <unistd.h>
#include <fcntl.h>

static long at = -1, calls;
static int all;
static const char *count;

__attribute__((constructor)) static void begin(void) {
    const char *word = getenv("REFUSED");
    at = word ? atol(word) : 0;
    all = getenv("REFUSED_ALL") != 0;
    count = getenv("COUNTED");
    calls = 0;
}

__attribute__((destructor)) static void end(void) {
    char text[32];
    if (!count) return;
    int file = open(count, O_WRONLY | O_CREAT | O_TRUNC, 0600);
    int length = snprintf(text, sizeof text, "%ld", calls);
    if (file >= 0 && write(file, text, length) != length) abort();
}

static int refused(void) {
    if (at < 0) return 0;
    calls++;
    return at > 0 && (all ? calls >= at : calls == at);
}

extern void *__libc_malloc(size_t), *__libc_calloc(size_t, size_t), *__libc_realloc(void *, size_t), *__libc_memalign(size_t, size_t);

void *malloc(size_t size) { return refused() ? (errno = ENOMEM, (void *)0) : __libc_malloc(size); }
void *calloc(size_t n, size_t size) { return refused() ? (errno = ENOMEM, (void *)0) : __libc_calloc(n, size); }
void *realloc(void *old, size_t size) { return refused() ? (errno = ENOMEM, (void *)0) : __libc_realloc(old, size); }
void *aligned_alloc(size_t align, size_t size) { return refused() ? (errno = ENOMEM, (void *)0) : __libc_memalign(align, size); }
int posix_memalign(void **to, size_t align, size_t size) {
    if (refused()) return ENOMEM;
    void *block = __libc_memalign(align, size);
    if (!block) return ENOMEM;
    *to = block;
    return 0;
}
"""

LIBRARY = "bottom mnak pt2pt pt2ptw mflow frag collect stable local total suspect elect sync intra top".split()


class Runs:
    def __init__(self, program, folder):
        self.program, self.folder, self.differences = program, folder, 0
        source, self.library = f"{folder}/refuse.c", f"{folder}/refuse.so"
        with open(source, "w", encoding="ascii") as file:
            file.write(SHIM)
        subprocess.run(["cc", "-shared", "-fPIC", "-O1", "-o", self.library, source], check=True)

    def run(self, words, refused, all_after):
        counted = f"{self.folder}/counted"
        told = {"LD_PRELOAD": self.library, "REFUSED": str(refused), "COUNTED": counted}
        if all_after:
            told["REFUSED_ALL"] = "1"
        ended = subprocess.run([self.program, *words], stdout=subprocess.PIPE, stderr=subprocess.PIPE, env=told, check=False)
        with open(counted, encoding="ascii") as file:
            return ended.stdout, ended.stderr, ended.returncode, int(file.read())

    def judge(self, name, words):
        out, err, status, calls = self.run(words, 0, False)
        vain = 0
        for refused in range(1, calls + 1):
            for all_after in (False, True):
                got_out, got_err, got_status, _ = self.run(words, refused, all_after)
                if (got_out, got_err, got_status) == (out, err, status):
                    vain += not all_after
                    continue
                whole_lines = got_out == b"" or got_out.endswith(b"\n")
                if got_status != 7 or not out.startswith(got_out) or not whole_lines or not b"no memory\n".startswith(got_err):
                    self.differences += 1
                    print(f"{name}: call {refused}{' and all after it' if all_after else ''}: status {got_status}, said {got_err!r}, wrote {got_out[-60:]!r}")
        print(f"{name}: status {status}, {calls} calls, {vain} of them refused in vain", flush=True)


def main():
    program = sys.argv[1] if len(sys.argv) > 1 else f"{TOP}/crates/stackc/out/stackc"
    if len(sys.argv) <= 1:
        subprocess.run([f"{TOP}/stackc"], stderr=subprocess.DEVNULL, check=False)
    with tempfile.TemporaryDirectory() as folder:
        runs = Runs(program, folder)
        library, report = f"{folder}/library.layers", f"{folder}/report"
        with open(library, "w", encoding="ascii") as file:
            file.write("stack { " + "".join(f"{word}; " for word in LIBRARY) + "}\n")
        views = [f"{TOP}/examples/views.layers", f"{TOP}/examples/views.script"]
        with open(report, "wb") as file:
            file.write(runs.run(["replay", *views], 0, False)[0])
        runs.judge("check", ["check", views[0]])
        for mode in ("layered", "bypass"):
            runs.judge(f"replay, {mode}", ["replay", *views, "--run", mode, "--events", "--wire", "--count"])
            for members in ("1", "4"):
                runs.judge(f"load of {members}, {mode}", ["load", library, "--seed", "3", "--events", "60", "--members", members, "--run", mode, "--raw"])
        runs.judge("explain", ["explain", f"{TOP}/examples/mended.layers", f"{TOP}/examples/behind.script"])
        runs.judge("audit", ["audit", report, "--law", "same"])
    sys.exit(1 if runs.differences else 0)


main()
