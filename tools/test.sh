#!/usr/bin/env bash
# Tries the program's statuses, its causes of refusal, whole runs, nodes and their sockets, the script ./stackc, its words, files of traces, what a terminal shows, the completions and pages,
# the editors' grammars, how journals are put together, reports with their events, the tutorial, the index of crates, the rules of the house and a minute of diff/,
# over the program in $STACKC, a built one or a trial of it, and the formatter in $LAYERFMT, the charts of $RUNCHART, the hunts of $STACKHUNT, the checks of $STACKCHECK and the library for applications in the folder $LIBRARY,
# if these are set: STACKC=crates/stackc/out/stackc tools/test.sh.
# Ends with 1 where something differs.
set -u
if [ ! -x "${STACKC:-}" ]; then
  echo "tools/test.sh: STACKC names no program" >&2
  exit 70
fi
STACKC=$(readlink -f "$STACKC")
LAYERFMT=${LAYERFMT:+$(readlink -f "$LAYERFMT")}
RUNCHART=${RUNCHART:+$(readlink -f "$RUNCHART")}
STACKHUNT=${STACKHUNT:+$(readlink -f "$STACKHUNT")}
LIBRARY=${LIBRARY:+$(readlink -f "$LIBRARY")}
STACKCHECK=${STACKCHECK:+$(readlink -f "$STACKCHECK")}
export STACKC LAYERFMT RUNCHART STACKHUNT STACKCHECK LIBRARY PYTHONDONTWRITEBYTECODE=1
failed=0
for test in launcher table statuses refusals runs fragments datagrams nodes sockets packs traces terminal sentences script grammars journals told tutorial library layouts charts hunts checks layers store crates house differences; do
  python3 "$(dirname "$(readlink -f "$0")")/tests/$test.py" || failed=1
done
exit "$failed"
