"""A tree in which the script ./stackc runs the program in $STACKC, and ways to run it with and without a terminal."""
import contextlib
import os
import pty
import shutil
import subprocess
import sys
import tempfile

TOP = os.path.dirname(os.path.dirname(os.path.dirname(os.path.abspath(__file__))))


@contextlib.contextmanager
def tree(program=None):
    """A folder with the script, and what it reads beside it; with a program it is as built."""
    with tempfile.TemporaryDirectory(prefix="stackc-") as top:
        shutil.copy(os.path.join(TOP, "stackc"), top)
        for name in ("tools", "diff", "bench", "README.md", "crates.txt", "examples"):
            os.symlink(os.path.join(TOP, name), os.path.join(top, name))
        os.makedirs(os.path.join(top, "crates", "stackc", "out"))
        os.symlink(os.path.join(TOP, "crates", "file_library"), os.path.join(top, "crates", "file_library"))
        if program:
            os.symlink(os.path.abspath(program), os.path.join(top, "crates", "stackc", "out", "stackc"))
        os.mkdir(os.path.join(top, "work"))
        yield top


# The Python that runs this comes first, so that no other one is looked for.
os.environ["PATH"] = os.path.dirname(sys.executable) + os.pathsep + os.environ["PATH"]


def apart(words, folder, **how):
    """A run without a terminal: its status, output and what it said."""
    ran = subprocess.run(words, cwd=folder, stdin=subprocess.DEVNULL, stdout=subprocess.PIPE, stderr=subprocess.PIPE, **how)
    return ran.returncode, ran.stdout, ran.stderr


def at_terminal(words, folder):
    """A run whose standard error is a terminal, and nothing else: its status, output and what the terminal got."""
    mine, its = pty.openpty()
    with subprocess.Popen(words, cwd=folder, stdin=subprocess.DEVNULL, stdout=subprocess.PIPE, stderr=its) as run:
        os.close(its)
        shown = read_all(mine)
        out = run.stdout.read()
    os.close(mine)
    return run.returncode, out, shown.replace(b"\r\n", b"\n")


def read_all(end):
    """All bytes that a terminal gets until none has it open."""
    got = b""
    while True:
        try:
            part = os.read(end, 65536)
        except OSError:
            return got
        if not part:
            return got
        got += part
