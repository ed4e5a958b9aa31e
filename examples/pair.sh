#!/usr/bin/env bash
# Two processes of one group over the loopback, one member each: 0 runs by bypasses and casts `hi`, 1 runs layer by layer and casts `yo`, and each
# delivers what the other cast. Prints what the two wrote but for their ticks; ends with 0 where both delivered.
set -eu
here=$(dirname "$(readlink -f "$0")")
room=$(mktemp -d)
trap 'rm -rf "$room"' EXIT
"$here/../stackc" check "$here/counter.layers" >/dev/null
mode=(bypass layered)
for member in 0 1; do
  "$here/../stackc" node "$here/counter.layers" "$here/pair.plan" --turns 1000 --me "$member" --patience 1000 --run "${mode[member]}" >"$room/$member" &
done
wait
for member in 0 1; do
  echo "member $member:"
  grep -v '^> tick' "$room/$member" | sed 's/^/  /'
done
grep -q '^deliver 0 cast 1 796f$' "$room/0" && grep -q '^deliver 1 cast 0 6869$' "$room/1"
