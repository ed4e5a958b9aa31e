#!/usr/bin/env python3
"""Says whether the sources keep to the rules of the house: what tools/house.py counts is within the bounds at its head."""
import os
import subprocess
import sys

COUNTER = os.path.join(os.path.dirname(os.path.abspath(__file__)), "..", "house.py")


def main():
    passed = subprocess.run([sys.executable, COUNTER, "--check"]).returncode
    print("house: a bound of tools/house.py is passed" if passed else "house: the sources are within the bounds")
    return passed


if __name__ == "__main__":
    sys.exit(main())
