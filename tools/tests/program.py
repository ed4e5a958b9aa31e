"""Runs of the program in $STACKC over files in a folder of their own, compared with what is wanted of them."""
import contextlib
import os
import subprocess
import sys
import tempfile

PROGRAM = os.environ["STACKC"]


class Runs:
    def __init__(self, folder):
        self.folder, self.many, self.wrong = folder, 0, 0

    def put(self, name, text):
        with open(os.path.join(self.folder, name), "w", encoding="ascii", newline="") as file:
            file.write(text)

    def run(self, words):
        """What a run leaves: its status, its output, and what it says."""
        ran = subprocess.run([PROGRAM, *words], cwd=self.folder, stdin=subprocess.DEVNULL, stdout=subprocess.PIPE, stderr=subprocess.PIPE, timeout=60)
        return ran.returncode, ran.stdout.decode(), ran.stderr.decode()

    def compare(self, what, got, wanted):
        self.many += 1
        if got != wanted:
            self.wrong += 1
            print(f"{what}: {got!r}, and not {wanted!r}"[:1000])


@contextlib.contextmanager
def runs(name):
    """Runs of a test; at its end it is told how many there were, and this ends with 1 where one wasn't as wanted."""
    with tempfile.TemporaryDirectory(prefix="stackc-") as folder:
        made = Runs(folder)
        yield made
    print(f"{name}: {made.many} runs, {made.wrong} not as wanted")
    sys.exit(made.wrong != 0)
