#!/usr/bin/env bash
# Runs a program with words and files: program.sh PROGRAM. Each case has its words, its standard input, its
# status, its standard output and its standard error. Prints each case that differs, and ends with a count.
set -u
program=$(realpath "$1")
work=$(mktemp -d)
trap 'rm -rf "$work"' EXIT
cd "$work" || exit 2

cases=0
wrong=0

# ended NAME STATUS OUTPUT ERROR: how the last run ended. An ERROR of `any` is clap's own text.
ended() {
  cases=$((cases + 1))
  printf '%s' "$3" > want
  if [ "$4" = any ]; then
    [ -s err ]
  else
    printf '%s' "$4" | cmp -s - err
  fi
  local same_error=$?
  if [ "$status" -ne "$2" ] || ! cmp -s want out || [ "$same_error" -ne 0 ]; then
    echo "differs at $1: status $status"
    cat out err
    wrong=$((wrong + 1))
  fi
}

# with DOCUMENT WORDS..: a run with this file as standard input.
with() {
  local document=$1
  shift
  "$program" "$@" < "$document" > out 2> err
  status=$?
}

# unwritten DOCUMENT WORDS..: the same, with standard output on a device that is always full.
unwritten() {
  local document=$1
  shift
  "$program" "$@" < "$document" > /dev/full 2> err
  status=$?
  : > out
}

mkdir folder
cat > listed.toml << 'END'
[[frame]]
name = "t"
columns = [["x", "Int"]]
path = "t.csv"
[[view]]
name = "t"
from = "t"
END
printf 'x\n5\n12x\n7\n' > t.csv
sed 's/t.csv/nosuch.csv/' listed.toml > unopened.toml
sed 's/t.csv/folder/' listed.toml > of_folder.toml
cp listed.toml ./-dash.toml
cp listed.toml ./-
mkdir apart
sed 's/t.csv/here.csv/' listed.toml > apart/of_here.toml
sed 's/t.csv/there.csv/' listed.toml > apart/of_there.toml
cp t.csv here.csv
cp t.csv apart/there.csv
cp unopened.toml unopened_and_unchecked.toml
echo 'steps = [["filter", ["col", "y"]]]' >> unopened_and_unchecked.toml
whole='t (0 x 1)
x

refused t 0: record 2, column x
'
single='t (2 x 1)
x
5
7

refused t 1: record 2, column x
'

# The view document.
with /dev/null
ended "an empty document" 0 "" ""
with /dev/null listed.toml
ended "a document by its path" 1 "$whole" ""
with listed.toml
ended "a document from standard input" 1 "$whole" ""
with unopened.toml listed.toml
ended "a document by its path, beside standard input" 1 "$whole" ""
with /dev/null -- -dash.toml
ended "a path that begins with a dash" 1 "$whole" ""
with unopened.toml -
ended "a file named -" 1 "$whole" ""
with unopened.toml -- -
ended "a file named - behind --" 1 "$whole" ""
with listed.toml nosuch.toml
ended "a document that is not there" 2 "" "dfviews: V10
"
with listed.toml folder
ended "a folder in the place of a document" 2 "" "dfviews: V10
"
with listed.toml ""
ended "an empty path" 2 "" "dfviews: V10
"

# The files of frames.
with unopened.toml
ended "a file that is not there" 2 "" "dfviews: t: F1
"
with of_folder.toml
ended "a folder in the place of a file" 2 "" "dfviews: t: F1
"
with /dev/null apart/of_here.toml
ended "a file in the folder that the program runs in" 1 "$whole" ""
with /dev/null apart/of_there.toml
ended "a file in the folder of the document alone" 2 "" "dfviews: t: F1
"
with unopened_and_unchecked.toml
ended "a file that is not there, beside a plan's fault" 2 "" "dfviews: t: P2 E1 y
"

# Standard output that takes nothing.
unwritten listed.toml
ended "an output that cannot be written" 2 "" "dfviews: write
"
unwritten /dev/null --help
ended "a help that cannot be written" 2 "" "dfviews: write
"
unwritten unopened.toml
ended "a fault before an output that cannot be written" 2 "" "dfviews: t: F1
"

# Chunks and workers.
for workers in 1 2 16; do
  with listed.toml --workers "$workers" --chunk 3
  ended "chunks of 3, $workers workers" 1 "$whole" ""
  with listed.toml --chunk=1 --workers="$workers"
  ended "chunks of 1, $workers workers" 1 "$single" ""
done
with listed.toml --chunk 65536
ended "chunks of 65536" 1 "$whole" ""

# The numbers from 1 to 400 with a bad cell at 200, in chunks of 4, of which several enter in one change.
cat > many.toml << 'END'
[[frame]]
name = "t"
columns = [["k", "Text"], ["x", "Int"]]
path = "many.csv"
[[view]]
name = "sums"
from = "t"
steps = [["group_by", ["k"], ["n", "len"], ["total", "sum", "x"]]]
END
{ echo k,x; seq -f 'a,%g' 199; echo a,200x; seq -f 'a,%g' 201 400; } > many.csv
printf -v sums '%s\n' "sums (1 x 3)" "k    n  total" "a  396  79406" "" "refused t 196: record 200, column x"
for workers in 1 2 16; do
  with many.toml --chunk 4 --workers "$workers"
  ended "many chunks, $workers workers" 1 "$sums" ""
done

# A file of three segments and more, each of which another thread may read: as it is, with other line ends, with a first
# byte of a byte order mark at the start of each line, with a segment of blank lines before the header, with a quote in
# the last record, and with a record that is too short. Two other columns are passed over.
cat > long.toml << 'END'
[[frame]]
name = "t"
columns = [["g", "Text"], ["x", "Int"]]
path = "long.csv"
[[view]]
name = "sums"
from = "t"
steps = [["group_by", ["g"], ["n", "len"], ["total", "sum", "x"]]]
END
{ echo k,g,x,y; seq -f 'a,b,%.0f,' 30000; } > lines
printf -v sums '%s\n' "sums (1 x 3)" "g      n      total" "b  30000  450015000"
long_file() {
  case $1 in
    lines) cat lines ;;
    "carriage returns") sed 's/$/\r/' lines ;;
    marks) sed 's/^a/\xef\xbc\xa1/' lines ;;
    "blank lines") yes '' | head -n 70000 && cat lines ;;
    quote) sed '$s/b/"b"/' lines ;;
    "short record") sed '20001s/,$//' lines ;;
  esac
}
for kind in lines "carriage returns" marks "blank lines" quote; do
  long_file "$kind" > long.csv
  for workers in 1 2 16; do
    with long.toml --workers "$workers"
    ended "a long file, $kind, $workers workers" 0 "$sums" ""
  done
done

# A view of as many rows, which several threads print: the widest text is in one of the last parts.
cat > rows.toml << 'END'
[[frame]]
name = "t"
columns = [["g", "Text"], ["x", "Int"]]
path = "long.csv"
[[view]]
name = "rows"
from = "t"
END
sed '29001s/b/日本/' lines > long.csv
rows=$(awk 'BEGIN {
  print "rows (30000 x 2)"
  print "g         x"
  for (x = 1; x <= 30000; x++) printf "%s  %5d\n", x == 29000 ? "日本" : "b   ", x
}')
for workers in 1 2 16; do
  with rows.toml --workers "$workers"
  ended "a long view, $workers workers" 0 "$rows"$'\n' ""
done

long_file "short record" > long.csv
for workers in 1 2 16; do
  with long.toml --workers "$workers"
  ended "a long file with a short record, $workers workers" 2 "" "dfviews: t: F4 20000
"
done

# Words that are refused.
for words in "--workers 17" "--workers 0" "--workers" "--chunk 0" "--chunk 65537" "--chunk x" "--chunk -1" \
  "listed.toml t.csv" "--threads 2" "--chunk 1 --chunk 1" "-x"; do
  # shellcheck disable=SC2086
  with listed.toml $words
  ended "$words" 2 "" any
done
with listed.toml $'\xff'
ended "an argument that is not UTF-8" 2 "" "error: an argument is not UTF-8
"

# Help names each word and each status, and ends with a document that runs.
for words in --help -h; do
  with /dev/null "$words"
  cases=$((cases + 1))
  if [ "$status" -ne 0 ] || [ -s err ] || ! grep -q '\[VIEWS\]' out || ! grep -q -e '--workers' out ||
    ! grep -q -e '--chunk' out || [ "$(grep -c '^  [012]  ' out)" -ne 3 ]; then
    echo "differs at $words: status $status"
    cat out err
    wrong=$((wrong + 1))
  fi
done
sed '1,/^A document:$/d' out > of_help.toml
for words in --version -V; do
  with /dev/null "$words"
  ended "$words" 0 "dfviews 1.0.0
" ""
done
with of_help.toml
ended "the document of the help" 0 "sums (1 x 2)
k  total
a      3
" ""

echo "words and files: $cases runs, $wrong differ"
[ "$wrong" -eq 0 ]
