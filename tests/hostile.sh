#!/usr/bin/env bash
# Runs a program in hostile hands: hostile.sh PROGRAM. Limits are met exactly and passed by one; bytes are no text, or
# end anywhere; names are of any characters; streams are closed, full, or end early; memory has a real limit. Each
# case has its status, its standard output and its standard error, written by hand or by model.py, never taken from the
# program. Prints what went otherwise, and ends with a count.
set -u
export LC_ALL=C
program=$(realpath "$1")
here=$(cd "$(dirname "$0")" && pwd)
work=$(mktemp -d)
trap 'rm -rf "$work"' EXIT
cd "$work" || exit 2
compiler=${CC:-$(command -v cc || echo "$(dirname "$(rt doc)")/toolchain/bin/clang")}
"$compiler" -O1 -shared -fPIC -nostdlib -o failing.so "$here/failing.c" || exit 2

cases=0 wrong=0

# ended NAME STATUS OUTPUT FAULT: how the last command ended (so its words run none); FAULT is a text, or nothing.
ended() {
  local status=$?
  cases=$((cases + 1))
  printf '%s' "$3" > want
  printf '%s' "${4:+dfviews: $4$'\n'}" > want_err
  if [ "$status" -ne "$2" ] || ! cmp -s want out || ! cmp -s want_err err; then
    echo "otherwise at $1: status $status"
    head -c 1000 out
    head -c 1000 err
    wrong=$((wrong + 1))
  fi
}

# answers NAME STATUS OUTPUT [FAULT]: the file `document` as standard input ends so.
answers() {
  "$program" < document > out 2> err
  ended "$1" "$2" "$3" "${4-}"
}

faults() { answers "$1" 2 "" "$2"; }

# frame NAME COLUMNS SOURCE and view NAME FROM STEPS: the tables of a document.
frame() { printf '[[frame]]\nname = "%s"\ncolumns = [%s]\n%s\n' "$1" "$2" "$3"; }
view() { printf '[[view]]\nname = "%s"\nfrom = "%s"\nsteps = [%s]\n' "$1" "$2" "$3"; }

# filled SIZE BYTE: so many bytes.
filled() { head -c "$1" /dev/zero | tr '\0' "$2"; }

# listed COUNT TEXT: the text so often, commas between; N in it is the place, from 1.
listed() {
  local place
  for place in $(seq 1 "$1"); do
    printf '%s' "${2//N/$place}"
    [ "$place" -eq "$1" ] || printf ', '
  done
}

number='["x", "Int"]'
text='["x", "Text"]'
mark=$'\xef\xbb\xbf'
sales='["region", "Text"], ["qty", "Int"]'
totals='["group_by", ["region"], ["n", "len"], ["total", "sum", "qty"]]'
csv='region,qty
north,3
south,
north,-1
'
by_region='by_region (2 x 3)
region  n  total
north   2      2
south   1      0
'
seven='v (1 x 1)
x
7
'
{ frame sales "$sales" "text = \"\"\"
$csv\"\"\""; view by_region sales "$totals"; } > by_region.toml
{ frame sales "$sales" 'path = "sales.csv"'; view by_region sales "$totals"; } > of_file.toml
cp by_region.toml document
answers "the first example" 0 "$by_region"

# The most bytes of a document, and of a file.
commented() { { cat by_region.toml; yes '# a comment'; } 2> /dev/null | head -c "$1"; }
commented 1048576 > document
answers "a document of the most bytes" 0 "$by_region"
"$program" document > out 2> err
ended "a document of the most bytes by its path" 0 "$by_region" ""
commented 1048577 > document
faults "a document of one byte more" V9
"$program" document > out 2> err
ended "a document of one byte more by its path" 2 "" V9
filled 1048577 '\377' > document
faults "a document of one byte more, no text" V9
"$program" < /dev/zero > out 2> err
ended "a document without an end" 2 "" V9

{ printf 'x\n'; filled 67108861 a; printf '\n'; } > t.csv
{ frame t "$text" 'path = "t.csv"'
  view v t '["select", ["none", ["is_null", ["col", "x"]]], ["low", ["<", ["col", "x"], "aab"]]]'; } > document
answers "a file of the most bytes" 0 'v (1 x 2)
 none   low
false  true
'
printf '\xff' >> t.csv
faults "a file of one byte more, no text" "t: F2"
{ frame t "$text" 'path = "/dev/zero"'; } > document
faults "a file without an end" "t: F2"

# The most records.
{ frame t "$number" 'path = "t.csv"'; view none t '["filter", false]'; view all t '["group_by", ["x"], ["n", "len"]]'
} > document
{ printf 'x\n'; yes 1 | head -n 1048576; } > t.csv
answers "the most records" 0 'none (0 x 1)
x

all (1 x 2)
x        n
1  1048576
'
printf '1,1\n' >> t.csv
faults "one record more, of another length" "t: F4 1048577"
{ printf 'x\n'; yes 1 | head -n 1048577; } > t.csv
faults "one record more" "t: F7"
{ printf 'x\n'; yes 1 | head -n 1048575; printf '1x\n'; } > t.csv
frame t "$number" 'path = "t.csv"' > document
answers "a bad cell in the last record" 1 'refused t 1048000: record 1048576, column x
'

# Bytes that are no text, in a file, in a document, in a comment and in a name.
for bytes in '\xff' '\xc0\x80' '\xed\xa0\x80' '\xf4\x90\x80\x80' '\xe6\x97'; do
  frame t "$text" 'path = "t.csv"' > document
  printf '%b' "$bytes" > t.csv
  faults "a file of $bytes" "t: F3"
  printf 'x\na%b' "$bytes" > t.csv
  faults "a file that ends in $bytes" "t: F3"
  printf '%b' "$bytes" > document
  faults "a document of $bytes" V1
  { cat by_region.toml; printf '# %b' "$bytes"; } > document
  faults "a comment with $bytes" V1
  sed "s/sales/a$bytes/" by_region.toml > document
  faults "a name with $bytes" V1
done

# Byte order marks, and line ends.
cp of_file.toml document
printf '%s' "$mark$mark$csv" > sales.csv
answers "two marks before a file" 0 "$by_region"
printf '%s' "$mark" > sales.csv
faults "a file of a mark" "sales: F5 region"
printf '%s' "${csv/qty/${mark}qty}" > sales.csv
faults "a mark before the second name" "sales: F5 qty"
printf '%s' "${csv//$'\n'/$'\r\n'}" > sales.csv
answers "a file with line ends of two characters" 0 "$by_region"
sed "s/^region/$mark$mark&/" by_region.toml > document
answers "two marks before a text" 0 "$by_region"
sed '5s/"""/"""\\uFEFF\\uFEFF\\uFEFF\\/' by_region.toml > document
answers "three marks, written as escapes" 0 "$by_region"
{ printf '%s' "$mark"; cat by_region.toml; } > document
answers "a mark before a document" 0 "$by_region"
{ printf '%s' "$mark$mark"; cat by_region.toml; } > document
faults "two marks before a document" V1
sed 's/$/\r/' by_region.toml > document
answers "a document with line ends of two characters" 0 "$by_region"
tr '\n' '\r' < by_region.toml > document
faults "a document with line ends of a carriage return" V1
{ printf '\xff\xfe'; sed 's/./&\x00/g' by_region.toml; } > document
faults "a document in UTF-16" V1

# The most frames, views, columns and steps, and the deepest expression.
frames() { for place in $(seq 1 "$1"); do frame "f$place" "$number" 'text = "x\n7\n"'; done; }
views() { for place in $(seq 1 "$1"); do view "v$place" f1 ""; done; }
{ frames 8; view v f8 ""; } > document
answers "8 frames" 0 "$seven"
{ frames 9; views 33; } > document
faults "9 frames, 33 views" "V5 frame"
{ frames 1; views 32; } > document
printed=$(for place in $(seq 1 32); do printf '%s\n' "${seven/v/v$place}"; done)
answers "32 views" 0 "$printed"$'\n'
{ frames 1; views 33; } > document
faults "33 views" "V5 view"
of_columns() {
  frame t "$(listed "$1" '["cN", "Int"]')" "text = \"$(listed "$1" cN | tr -d ' ')\""
  view v t "$2"
}
of_columns 32 "" > document
answers "32 columns" 0 "v (0 x 32)
$(listed 32 cN | sed 's/,/ /g')
"
of_columns 32 '["with_columns", ["c33", 1]]' > document
faults "a column beside 32" "v: P8"
of_columns 33 "" > document
faults "33 columns" "V7 frame 0 S2"

# negated COUNT: so many words `~` above false.
negated() { printf '%s' "$(filled "$1" '~' | sed 's/~/["~", /g')false$(filled "$1" ']')"; }
of_steps() { { frame t "$number" 'text = "x\n7\n"'; view v t "$1"; } > document; }
of_steps "[\"filter\", $(negated 31)]"
answers "an expression of 32 levels" 0 "$seven"
of_steps "[\"filter\", $(negated 32)]"
faults "an expression of 33 levels" "v: P2 E3"
of_steps "$(listed 11 '["filter", true]')"
answers "11 steps" 0 "$seven"
for count in 12 64; do
  of_steps "$(listed "$count" '["filter", true]')"
  faults "$count steps" "v: P5"
done
of_steps "$(listed 65 '["filter", true]')"
faults "65 steps" "V2 view 0"
for step in '[]' '["filter"]' '["filter", true, true]' '[1]' '"filter"' 'true' '{}' '[["filter"], true]' \
  '["filter", []]' '["filter", [true]]' '["filter", 1.5]' '["filter", 1979-05-27]' '["filter", {}]'; do
  of_steps "$step"
  faults "the step $step" "V2 view 0"
done
while read -r levels fault; do
  { printf 'frame = '; filled "$levels" '['; filled "$levels" ']'; } > document
  faults "an array of $levels levels" "$fault"
done <<< $'80 V2 top\n81 V1\n500000 V1'

# Control bytes stand in a document as escapes only, and in a file as they are.
of_steps '["with_columns", ["y", "'$'\x1b''"]]'
faults "the byte 1B in a document" V1
of_steps '["with_columns", ["y", "'$'\x7f''"]]'
faults "the byte 7F in a document" V1
{ frame t "$text" 'path = "t.csv"'; view v t ""; } > document
printf 'x\n\x1b[2J\x7f\n\x00\n' > t.csv
answers "the bytes 1B, 7F and 00 in a file" 0 'v (2 x 1)
x          
\x1b[2J\x7f
\x00       
'

# named NAME SHOWN WIDTH: a name, as a document writes it, in each place where a name is printed. In CSV it stands in
# quotes, in which a quote stands twice.
named() {
  local name=$1 shown=$2 width=$3 quoted=${1//\\\"/\\\"\\\"} fault step
  local column="[\"$name\", \"Int\"]" most=$((width > 1 ? width : 1))
  { frame "$name" "$column, $text" "text = \"x,\\\"$quoted\\\"\\n\\\"[$quoted]\\\",7\""; view "$name" "$name" ""
  } > document
  answers "a title, a header and a cell of $name" 0 "$shown (1 x 2)
$(printf '%*s%s  x%*s' $((most - width)) '' "$shown" $((width + 1)) '')
$(printf '%*s  [%s]' "$most" 7 "$shown")
"
  frame "$name" "$column" "text = \"\\\"$quoted\\\"\\nbad\"" > document
  answers "a refused line of $name" 1 "refused $shown 0: record 1, column $shown
"
  frame "$name" "$column" 'path = "no/such"' > document
  faults "F1 of $name" "$shown: F1"
  frame "$name" "$column" 'path = "ff.csv"' > document
  faults "F3 of $name" "$shown: F3"
  frame "$name" "$column" "text = \"\\\"$quoted\\\"\\n1,2\"" > document
  faults "F4 of $name" "$shown: F4 1"
  frame "$name" "$column" 'text = "other"' > document
  faults "F5 of $name" "$shown: F5 $shown"
  frame "$name" "$column" "text = \"\\\"$quoted\\\",\\\"$quoted\\\"\"" > document
  faults "F6 of $name" "$shown: F6 $shown"
  while IFS='|' read -r fault step; do
    { frame t "$text" 'text = "x"'; view "$name" t "$step"; } > document
    faults "$fault of $name" "$shown: $fault"
  done << END
P2 E1 $shown|["cum_sum", "s", "$name"]
P2 E2|["filter", "$name"]
P3 $shown|["with_columns", ["$name", 1], ["$name", 2]]
P4|["join", "left", ["x"], "t"], ["join", "left", ["x"], "t"], ["join", "left", ["x"], "t"]
P5|$(listed 12 '["filter", true]')
P6|["rolling_sum", "$name", "$name", 0]
P7|["group_by", []]
P9 $shown|["select", ["$name", 1]]
P10 $shown|["with_columns", ["$name", "a"]], ["cum_sum", "s", "$name"]
END
}
printf '\xff' > ff.csv
named '日本' '日本' 4
named 'ａｱ' 'ａｱ' 3
named 'e\u0301' $'e\xcc\x81' 1
named '\u0301' $'\xcc\x81' 0
named '👩\u200d🚀' $'👩\xe2\x80\x8d🚀' 2
named '\ufeff\u202e' $'\xef\xbb\xbf\xe2\x80\xae' 0
named '\u0085\u009b' $'\xc2\x85\xc2\x9b' 2
named '\u001b[31m\u007f' '\x1b[31m\x7f' 12
named '\u0000\t\r\n\u001f' '\x00\x09\x0d\x0a\x1f' 20
named 'a\\b\\x1b' 'a\\b\\x1b' 9
named '\",\"' '","' 3
named '' '' 0
long=$(filled 50000 n)
named "$long" "$long" 50000
for path in '' 'a\u0000b' '.' '\u001b'; do
  frame t "$number" "path = \"$path\"" > document
  faults "the path $path" "t: F1"
done

# Streams that are closed, full, of another kind, or end early.
cp by_region.toml document
: > out
"$program" < document >&- 2> err
ended "standard output closed" 2 "" write
"$program" document >&- 2> err
ended "standard output closed, a document by its path" 2 "" write
"$program" < document > /dev/full 2> err
ended "standard output full" 2 "" write
"$program" 2> err 1< by_region.toml < document
ended "standard output for reading" 2 "" write
mkfifo pipe
exec 3<> pipe; exec 4> pipe; exec 3>&-
"$program" < document >&4 2> err
ended "a pipe that nobody reads" 2 "" write
exec 4>&-
"$program" < /dev/null >&- 2> err
ended "standard output closed, nothing to write" 0 "" ""
for closed in '>&-' '> /dev/full'; do
  eval '"$program" --help 2> err '"$closed"
  ended "help with $closed" 2 "" write
done
: > err
for closed in '2>&-' '2> /dev/full'; do
  eval '"$program" < /dev/zero > out '"$closed"
  ended "a fault with $closed" 2 "" ""
  eval '"$program" < document > out '"$closed"
  ended "standard error not needed with $closed" 0 "$by_region" ""
done

{ frame t "$text" "text = \"x\\n$(filled 500000 a)\""; view v t ""; } > document
"$program" 2> err < document | head -c 11 > out
(exit "${PIPESTATUS[0]}")
ended "a reader that ends early" 2 $'v (1 x 1)\nx' write
start=$(printf 'v (1 x 1)\nx%1013s' '')
(
  trap '' XFSZ
  ulimit -f 1
  "$program" < document > out 2> err
)
ended "a file that may not grow" 2 "$start" write

mkdir folder
"$program" < folder > out 2> err
ended "a folder as standard input" 2 "" V10
"$program" <&- > out 2> err
ended "standard input closed" 2 "" V10
"$program" 0> unread > out 2> err
ended "standard input for writing" 2 "" V10

# piped NAME STATUS OUTPUT FAULT BYTES..: a writer gives these one by one through `pipe`, and ends.
piped() {
  (for bytes in "${@:5}"; do printf '%s' "$bytes"; done) > pipe &
  timeout 60 "$program" < "$input" > out 2> err
  local status=$?
  kill $! 2> /dev/null
  wait
  (exit "$status")
  ended "${@:1:4}"
}
input=pipe
document=$(cat by_region.toml)
piped "a writer of nothing" 0 "" ""
piped "a writer that ends within the text" 2 "" V1 "${document:0:100}"
piped "a writer that ends before the views" 0 "" "" "${document%%\[\[view*}"
piped "a writer of parts" 0 "$by_region" "" "${document:0:1}" "${document:1:99}" "${document:100}"
sed 's/sales.csv/pipe/' of_file.toml > of_pipe.toml
input=of_pipe.toml
piped "a file whose writer ends within a record" 2 "" "sales: F4 2" 'region,qty
nor' 'th,3
sou'
piped "a file whose writer ends within a number" 1 'by_region (0 x 3)
region  n  total

refused sales 0: record 1, column qty
' "" 'region,qty
north,-'
piped "a file whose writer writes nothing" 2 "" "sales: F5 region"

# shrinks NAME STATUS OUTPUT FAULT SIZE: the file is cut to this size when one byte of it was read.
shrinks() {
  printf '%s' "$csv" > sales.csv
  env LD_PRELOAD="$work/failing.so" SHORT=1 SHRINK=sales.csv SHRINK_TO="$5" "$program" < of_file.toml \
    > out 2> err
  ended "${@:1:4}"
}
shrinks "a file that loses its last record" 0 'by_region (2 x 3)
region  n  total
north   1      3
south   1      0
' "" 26
shrinks "a file that is cut within a record" 2 "" "sales: F4 2" 22
shrinks "a file that is emptied" 2 "" "sales: F5 region" 0

# A real limit of memory, in kilobytes: a run ends in its output or in `memory`, and never by a signal.
limited() {
  (ulimit -v "$1" && exec "$program" < document > out 2> err)
  local status=$?
  if [ "$status" -eq 0 ]; then
    ended "a limit of $1 kilobytes" 0 "$2"
  else
    (exit "$status")
    ended "a limit of $1 kilobytes" 2 "" memory
  fi
}
{
  frame sales "$sales" "text = '''
region,qty
$(yes north,3 | head -n 20000)
'''"
  view by_region sales "$totals"
} > document
for kilobytes in 5000 10000 20000 50000 100000 150000 200000 300000 400000 1000000; do
  limited "$kilobytes" 'by_region (1 x 3)
region      n  total
north   20000  60000
'
done

# Each prefix of documents, and of a frame's file.
modelled() {
  local runs otherwise
  "$here/prefixes.py" "$program" "$@" > modelled || echo "0 1" >> modelled
  read -r runs otherwise < <(tail -n 1 modelled)
  head -n -1 modelled
  cases=$((cases + runs))
  wrong=$((wrong + otherwise))
}
for name in by_region windows joins aggregates expressions steps; do modelled "$here/../examples/$name.toml"; done
modelled "$here/sums_of_a_join.toml"
printf '%s' "$csv" > sales.csv
modelled of_file.toml
modelled of_file.toml sales.csv
for document in ../examples/windows sums_of_a_join; do
  "$here/as_files.py" "$here/$document.toml" .
  name=${document##*/}
  modelled "$name.toml"
  for place in 0 1; do modelled "$name.toml" "${name}_$place.csv"; done
done

echo "hostile hands: $cases runs, $wrong otherwise"
[ "$wrong" -eq 0 ]
