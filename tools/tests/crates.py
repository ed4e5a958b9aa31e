#!/usr/bin/env python3
"""Says whether crates/README.md is what tools/crates.py makes of the crates, and whether pages name crates, files and modules that are there."""
import os
import subprocess
import sys

MAKER = os.path.join(os.path.dirname(os.path.abspath(__file__)), "..", "crates.py")


def main():
    stale = subprocess.run([sys.executable, MAKER, "--check"]).returncode
    print("crates: a page is stale: run tools/crates.py, or mend what it names" if stale else "crates: the index is what the crates say, and pages name what is there")
    return stale


if __name__ == "__main__":
    sys.exit(main())
