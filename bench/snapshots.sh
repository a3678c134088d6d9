#!/usr/bin/env bash
# Measures snapshots: snapshots.sh [PROGRAM]. Without a program it proves and builds that first: snapshots.patch adds it to
# a copy of the crates, since it is no part of the gate. Where no check left proved libraries in crates/*/out, this proves
# all from nothing, which takes an hour. See docs/BENCHMARKS.md.
set -eu
here=$(cd "$(dirname "$0")" && pwd)
if [ $# -gt 0 ]; then
  exec python3 "$here/snapshots.py" "$1"
fi
work=$(mktemp -d)
trap 'rm -rf "$work"' EXIT
cp -r "$here/../crates" "$here/../crates.txt" "$here/../HANDLES" "$work"
(cd "$work" && git apply "$here/snapshots.patch")
echo "snapshots: df_value df_ops df_plan df_state df_catalogue df_versions df_hall" >> "$work/crates.txt"
(cd "$work/crates/snapshots" && rt run < /dev/null >&2)
python3 "$here/snapshots.py" "$work/crates/snapshots/out/snapshots"
