#!/usr/bin/env bash
# Makes a program of the same sources that is not proved: tools/unproved.sh NAME FOLDER leaves it as FOLDER/NAME. Run by ./stackc.
#
# `rt try` reads the sources and hands a module with its checks (bounds, overflows, unwraps) to the compiler of its kit. Here it is run
# in a folder of links that stands for the kit, whose compiler makes of this module a program without the sanitizer, optimized; the trial itself
# then ends. Where that doesn't work, the trial goes on, and what it links, with the sanitizer, is taken.
# Half of the processor time is the trial's own reading, half the compiler's. At -O0 the compiler takes a third, and what it makes runs thirty times slower.
set -eu
top=$(dirname "$(dirname "$(readlink -f "$0")")")
name=$1 folder=$(readlink -f "$2")
kit=$(dirname "$(dirname "$(readlink -f "$(command -v rt)")")")
away="$folder/kit"

# shellcheck source=tools/standing_kit.sh
. "$top/tools/standing_kit.sh"

# The compiler of the module makes an object, and refuses it to the trial, which then ends.
take_module() {
  in_place toolchain/bin/clang <<END
#!/usr/bin/env bash
words=() wanted=""
for word in "\$@"; do
  case "\$word" in
  -fsanitize=address) wanted=1 ;;
  module.o) words+=("$folder/module.o") ;;
  -O0) words+=(-O1) ;;
  *) words+=("\$word") ;;
  esac
done
[ -n "\$wanted" ] || exec "$kit/toolchain/bin/clang" "\$@"
"$kit/toolchain/bin/clang" "\${words[@]}"
exit 1
END
}

# What the trial links is kept.
take_program() {
  rm "$away/toolchain/bin/clang"
  ln -s "$kit/toolchain/bin/clang" "$away/toolchain/bin/clang"
  in_place toolchain/bin/ld.lld <<END
#!/usr/bin/env bash
"$kit/toolchain/bin/ld.lld" "\$@" || exit
cp program "$folder/$name"
END
}

# A trial without words: what it says of them is nothing to this. Where it refuses the sources, nothing more is tried.
try() {
  local status=0
  mkdir -p "$folder/tmp"
  (cd "$top/crates/$name" && TMPDIR="$folder/tmp" exec "$away/bin/rt" try --steps 1 --seconds 60) || status=$?
  if [ "$status" -eq 1 ]; then exit 1; fi
}

# Whether the program is there, and refuses to be run without words.
works() {
  local status=0
  [ -f "$folder/$name" ] || return 1
  "$folder/$name" 2>"$folder/said" || status=$?
  [ "$status" -eq 2 ] && grep -q '^words: refused' "$folder/said"
}

optimized() {
  take_module
  try
  [ -s "$folder/module.o" ] || return 1
  "$kit/bin/rattle-link" --target x86_64-unknown-linux-gnu --toolchain "$kit/toolchain" -o "$folder/$name" \
    "$folder/module.o" "$kit/c/libos_c.a" "$kit/c/liblibc_c.a" && works
}

with_sanitizer() {
  rm -f "$folder/$name"
  echo "no optimized build came of it, so the trial's own is taken"
  take_program
  try
  works
}

stand_for_kit
optimized || with_sanitizer
rm -rf "$away" "$folder/tmp" "$folder/module.o" "$folder/said"
