# shellcheck shell=bash
# Read by unproved.sh and library.sh: a folder of links that stands for the kit. Before it is read, `kit` is the kit's folder and `away` the one
# that is to stand for it.

# Links each file of a folder of the kit into another one.
link_all() {
  mkdir -p "$2"
  for file in "$1"/*; do ln -s "$file" "$2/"; done
}

# A file of the folder that stands for the kit, in place of a link.
in_place() {
  rm -f "$away/$1"
  cat >"$away/$1"
  chmod +x "$away/$1"
}

# rt finds its kit by its own path, so its scripts are copied and not linked.
stand_for_kit() {
  link_all "$kit" "$away"
  rm "$away/bin" "$away/toolchain"
  link_all "$kit/bin" "$away/bin"
  link_all "$kit/toolchain" "$away/toolchain"
  rm "$away/toolchain/bin"
  link_all "$kit/toolchain/bin" "$away/toolchain/bin"
  for script in rt rtlib.py; do in_place "bin/$script" <"$kit/bin/$script"; done
  # (beside a trial rt asks the prover for a hint, which nobody reads here)
  in_place bin/rattle <<<$'#!/bin/sh\nexit 0'
}
