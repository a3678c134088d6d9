#!/usr/bin/env bash
# The cases and the sessions over programs that `rt try` builds, without a proof: quick.sh. A first look at a change,
# before ./test. Leaves out what needs a file beside the program, a refused resource or a terminal.
set -u
cd "$(dirname "$0")/.." || exit 2
work=$(mktemp -d)
trap 'rm -rf "$work"' EXIT

# try CRATE FOLDER WORDS..: builds the crate and runs it on each case of the folder, and tells those that differ.
try() {
  local crate=$1 folder=$2
  shift 2
  (cd "crates/$crate" && rt try --cases "$folder" "$@") > "$folder.said" 2>&1
  echo $? > "$folder.status"
}

# The long sessions stay out.
sessions=()
for session in examples/shell/*.session tests/sessions/*.session; do
  case "$session" in */full.session | */load_full.session | */records.session | */blocks.session | */leaves.session) ;; *) sessions+=("$session") ;; esac
done
documents=()
for session in "${sessions[@]}"; do
  document=${session%.session}.toml
  [ ! -f "$document" ] || documents+=(--data "${document##*/}=$PWD/$document")
done
for file in tests/sessions/*.commands tests/sessions/*.csv; do
  documents+=(--data "${file##*/}=$PWD/$file")
done
tests/sessions.py --export "$work/sessions" "${sessions[@]}"
tests/sessions.py --export "$work/sessions-in-a-hall" --hall "${sessions[@]}"
# The cases in three parts, side by side.
files=(tests/cases/*.toml)
for part in 0 1 2; do
  mine=()
  for at in "${!files[@]}"; do
    [ $((at % 3)) -ne "$part" ] || mine+=("${files[$at]}")
  done
  tests/cases.py --export "$work/cases-$part" "${mine[@]}"
done

runs=(cases-0 cases-1 cases-2 sessions sessions-in-a-hall)
for name in "${runs[@]}"; do
  case "$name" in
    cases-*) try dfviews "$work/$name" & ;;
    *) try dfshell "$work/$name" "${documents[@]}" & ;;
  esac
done
wait

passed=0 failed=0
for name in "${runs[@]}"; do
  if [ "$(cat "$work/$name.status")" = 0 ]; then
    echo "passed: $name: $(tail -n 1 "$work/$name.said")"
    passed=$((passed + 1))
  else
    cat "$work/$name.said"
    echo "failed: $name"
    failed=$((failed + 1))
  fi
done
echo "$passed passed, $failed failed; nothing was proved"
[ "$failed" -eq 0 ]
