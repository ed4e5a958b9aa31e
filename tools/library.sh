#!/usr/bin/env bash
# Makes the library for applications: libjuqhanep.a, libjuqhanep.so, juqhanep.h and juqhanep.pc.
#
#   tools/library.sh               of the proved crate juqhanep, under build/library; its proof and those below it are made where they aren't kept
#   tools/library.sh --gate        the same over what a gate proved which has just passed (.ci/run)
#   tools/library.sh --unproved    of the same sources without a proof, under build/unproved/library, in some minutes; it is kept until code changes
#
# The text that juq_version gives says which it is. The last line names the folder.
set -eu
top=$(dirname "$(dirname "$(readlink -f "$0")")")
crate="$top/crates/juqhanep"
kit=$(dirname "$(dirname "$(readlink -f "$(command -v rt)")")") || { echo "tools/library.sh: the kit's command rt isn't on the path" >&2; exit 70; }
clang="$kit/toolchain/bin/clang"
# As the kit makes code of what is proved.
made=(-O3 -march=x86-64-v2 -fPIC)

# Whether a file is there, and nothing of a list of files and folders is newer.
is_fresh() {
  local file=$1
  shift
  [ -f "$file" ] && [ -z "$(find "$@" -path '*/out' -prune -o -type f -newer "$file" -print -quit)" ]
}

# The text of juq_version.
version() {
  local number commit
  number=$(sed -n 's/^#define JUQ_VERSION "\(.*\)"$/\1/p' "$top/include/juqhanep.h")
  commit=$(git -C "$top" describe --always --dirty --abbrev=12 2>/dev/null) || commit=unknown
  echo "juqhanep $number, $1, commit $commit, kit $(rt version)"
}

# Puts what an application takes into a folder: objects go into one archive with the kit's heap and the version, and into one shared object.
pack() {
  local folder=$1
  shift
  (cd "$folder" && "$kit/toolchain/bin/llvm-ar" x "$kit/c/liblibc_c.a" heap.pic.o)
  printf 'const char *juq_version(void) { return "%s"; }\n' "$(version "$proved")" >"$folder/version.c"
  "$clang" --target=x86_64-unknown-linux-gnu "${made[@]}" -c "$folder/version.c" -o "$folder/version.o"
  rm -f "$folder/libjuqhanep.a"
  "$kit/toolchain/bin/llvm-ar" rcs "$folder/libjuqhanep.a" "$@" "$folder/heap.pic.o" "$folder/version.o"
  echo '{ global: juq_*; local: *; };' >"$folder/exports"
  "$kit/toolchain/bin/ld.lld" -shared -soname libjuqhanep.so --version-script "$folder/exports" --whole-archive "$folder/libjuqhanep.a" -o "$folder/libjuqhanep.so"
  cp "$top/include/juqhanep.h" "$folder/"
  cat >"$folder/juqhanep.pc" <<END
prefix=\${pcfiledir}

Name: juqhanep
Description: a member of a group as a library, $proved
Version: $(sed -n 's/^#define JUQ_VERSION "\(.*\)"$/\1/p' "$top/include/juqhanep.h")
Cflags: -I\${prefix}
Libs: -L\${prefix} -ljuqhanep
END
  rm -f "$folder"/*.o "$folder/version.c" "$folder/exports"
}

# The objects of the proved archive are packed; a command makes it where it isn't there.
of_proved() {
  local archive="$crate/out/libjuqhanep.a" folder="$top/build/library.new"
  is_fresh "$archive" "$top/crates" "$top/crates.txt" || (cd "$crate" && "$@" >&2)
  rm -rf "$folder"
  mkdir -p "$folder/objects"
  (cd "$folder/objects" && "$kit/toolchain/bin/llvm-ar" x "$archive")
  pack "$folder" "$folder"/objects/*
  rm -rf "$folder/objects" "$top/build/library"
  mv "$folder" "$top/build/library"
  echo "$top/build/library"
}

# In a folder that stands for the kit its compiler of a trial keeps the module, and refuses it to the trial, which then ends.
module_of() {
  local folder=$1 away="$1/kit"
  # shellcheck source=tools/standing_kit.sh
  . "$top/tools/standing_kit.sh"
  stand_for_kit
  in_place toolchain/bin/clang <<END
#!/usr/bin/env bash
for word in "\$@"; do
  case "\$word" in
  -fsanitize=address) wanted=1 ;;
  *.bc) module=\$word ;;
  esac
done
[ -n "\${wanted:-}" ] || exec "$clang" "\$@"
cp "\$module" "$folder/module.bc"
exit 1
END
  mkdir -p "$folder/tmp"
  (cd "$folder/program/crates/juqhanep" && TMPDIR="$folder/tmp" exec "$away/bin/rt" try --steps 1 --seconds 60) || true
  [ -s "$folder/module.bc" ]
}

# The module's exports get the names that C calls, and its main is nobody's.
object_of() {
  local folder=$1
  "$clang" -S -emit-llvm -Xclang -disable-llvm-passes "$folder/module.bc" -o "$folder/module.ll"
  sed -E -i -e 's/@"juqhanep::([a-z_]+::)*(juq_[a-z]+)"/@\2/g' -e 's/^define internal ([^@]*@juq_)/define \1/' \
    -e 's/^define ([^@]*@main\()/define internal \1/' "$folder/module.ll"
  "$clang" "${made[@]}" -c "$folder/module.ll" -o "$folder/module.o"
}

# Not proved: kept until code changes.
of_unproved() {
  local kept="$top/build/unproved/library" folder="$top/build/unproved/library.new"
  mkdir -p "$top/build"
  exec 9>"$top/build/library.lock"
  flock 9
  if ! is_fresh "$kept/begun" "$top"/crates/*/src "$top/crates.txt" "$top/include" "$top/tools/library.sh"; then
    rm -rf "$folder"
    mkdir -p "$folder"
    touch "$folder/begun"
    echo "tools/library.sh: making a library that is not proved, once, which takes some minutes" >&2
    python3 -B "$top/tools/library_program.py" "$top" "$folder/program"
    module_of "$folder" >"$top/build/library.unproved.log" 2>&1 || { echo "tools/library.sh: not built; see $top/build/library.unproved.log" >&2; exit 70; }
    object_of "$folder"
    pack "$folder" "$folder/module.o"
    rm -rf "$folder/kit" "$folder/tmp" "$folder/program" "$folder"/module.* "$kept"
    mv "$folder" "$kept"
  fi
  echo "$kept"
}

case "${1:-} $#" in
" 0") proved=proved && of_proved rt lib ;;
"--gate 1") proved=proved && of_proved python3 -B "$top/tools/library_archive.py" "$top" "$kit" ;;
"--unproved 1") proved="not proved" && of_unproved ;;
*) echo "tools/library.sh [--gate | --unproved]" >&2 && exit 70 ;;
esac
