#!/usr/bin/env bash
# Runs a program over a document with each allocation, read, write and start of a thread refused in turn:
# refusals.sh PROGRAM DOCUMENT WORDS.., where DOCUMENT.stdout is its whole output with these words and DOCUMENT.status, if
# it is there, the status that goes with it. A refused allocation ends in
# `dfviews: memory` or leaves the output as it is; a refused read of the document is V10, one of a frame's file F1
# and a refused write, or one that takes no byte, `write`, with nothing or a prefix of the output written. A thread that does
# not start leaves the output as it is: the kit's library does its work in the thread that would have started it. At least
# nine of ten refused allocations have to end in `memory`, and at least a hundred: else nothing is refused here. Prints
# what went otherwise, and ends with a count.
set -u
program=$1
document=$2
words=("${@:3}")
want=$document.stdout
want_status=$(cat "$document.status" 2> /dev/null || echo 0)
here=$(cd "$(dirname "$0")" && pwd)
work=$(mktemp -d)
trap 'rm -rf "$work"' EXIT
compiler=${CC:-$(command -v cc || echo "$(dirname "$(rt doc)")/toolchain/bin/clang")}
"$compiler" -O1 -shared -fPIC -nostdlib -o "$work/failing.so" "$here/failing.c" || exit 2

# Runs the program with these variables set; the status, output and error go to files.
run() {
  env LD_PRELOAD="$work/failing.so" "$@" "$program" "${words[@]}" < "$document" > "$work/out" 2> "$work/err"
  status=$?
}

whole() { [ "$status" -eq "$want_status" ] && cmp -s "$work/out" "$want" && [ ! -s "$work/err" ]; }

# The fault of this pattern, with at most a prefix of the output written.
faulted() {
  [ "$status" -eq 2 ] && [[ "$(cat "$work/err")" == "dfviews: "$1 ]] &&
    cmp -s "$work/out" <(head -c "$(stat -c %s "$work/out")" "$want")
}

wrong=0
other() {
  echo "otherwise at $1: status $status, $(cat "$work/err")"
  wrong=$((wrong + 1))
}

run COUNTS="$work/counts"
whole || other "no refusal"
read -r allocs reads file_reads writes threads < "$work/counts"
memory=0
for n in $(seq 1 "$allocs"); do
  run FAIL_ALLOC="$n"
  if faulted memory && [ ! -s "$work/out" ]; then
    memory=$((memory + 1))
  else
    whole || other "allocation $n"
  fi
done
[ "$memory" -ge 100 ] && [ $((10 * memory)) -ge $((9 * allocs)) ] || other "$memory faults of memory"
[ "$writes" -ge 1 ] && [ "$reads" -ge 1 ] || other "no read and no write to refuse"
for n in $(seq 1 "$reads"); do
  run FAIL_READ="$n"
  { faulted V10 && [ ! -s "$work/out" ]; } || other "read $n"
done
for n in $(seq 1 "$file_reads"); do
  run FAIL_FILE_READ="$n"
  { faulted "*: F1" && [ ! -s "$work/out" ]; } || other "read $n of a file"
done
for n in $(seq 1 "$writes"); do
  run FAIL_WRITE="$n"
  faulted write || other "write $n"
  run EMPTY_WRITE="$n"
  faulted write || other "write $n, which takes no byte"
done
for n in $(seq 1 "$threads"); do
  run FAIL_THREAD="$n"
  whole || other "thread $n"
done
run FAIL_EVERY_THREAD=1
whole || other "no thread"
run SHORT=1 COUNTS="$work/counts"
whole || other "short reads and writes"
read -r _ reads file_reads writes _ < "$work/counts"
for n in $(seq 1 "$reads"); do
  run SHORT=1 FAIL_READ="$n"
  { faulted V10 && [ ! -s "$work/out" ]; } || other "short read $n"
done
for n in $(seq 1 "$file_reads"); do
  run SHORT=1 FAIL_FILE_READ="$n"
  { faulted "*: F1" && [ ! -s "$work/out" ]; } || other "short read $n of a file"
done
for n in $(seq 1 "$writes"); do
  run SHORT=1 FAIL_WRITE="$n"
  faulted write || other "short write $n"
  run SHORT=1 EMPTY_WRITE="$n"
  faulted write || other "short write $n, which takes no byte"
done
echo "$document ${words[*]}: $allocs allocations, of which $memory end in memory, $reads reads, $file_reads of files, $writes writes and $threads threads refused in turn, $wrong otherwise"
[ "$wrong" -eq 0 ]
