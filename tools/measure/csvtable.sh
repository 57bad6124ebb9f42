#!/bin/sh
# Measures a built csvtable and other programs on five files: a ledger, a benchmark, a listing, names and messages. It prints
# millions of instructions, seconds of processor time, and megabytes. The instructions of mlr and csvlook aren't counted, because
# mlr doesn't run under valgrind, and csvlook would take minutes. It needs valgrind, GNU time, miller and csvkit.
#
# usage: tools/measure/csvtable.sh CSVTABLE [RECORDS]
set -eu
if [ $# -eq 0 ]; then
  sed -n 's/^# usage: //p' "$0" >&2
  exit 2
fi
. "$(dirname "$0")/csv_inputs.sh"
csvtable=$1
records=${2:-100000}
work=$(mktemp -d)
trap 'rm -rf "$work"' EXIT

# timed FILE PROGRAM [WORD]..: prints $count, then the seconds and the memory of the program on the file.
timed() {
  file=$1
  shift
  /usr/bin/time -f '%U %S %M' -o "$work/time" "$@" < "$file" > /dev/null 2> "$work/reported"
  awk -v name="$1" -v count="$count" '{ printf "  %s: %s%.2f seconds, %.0f MB\n", name, count, $1 + $2, $3 / 1000 }' "$work/time"
}

# measured FILE PROGRAM [WORD]..: does the same, after counting the program's instructions.
measured() {
  file=$1
  shift
  valgrind --tool=callgrind --callgrind-out-file="$work/counts" "$@" < "$file" > /dev/null 2> "$work/reported"
  count=$(sed -n 's/.*Collected : //p' "$work/reported" | awk '{ printf "%.0f million instructions, ", $1 / 1e6 }')
  timed "$file" "$@"
}

for kind in ledger benchmark listing names messages; do
  csv_of "$kind" "$records" > "$work/$kind"
  echo "$kind, $records records, $(wc -c < "$work/$kind") bytes"
  measured "$work/$kind" "$csvtable"
  measured "$work/$kind" column -t -s, -R 5
  count=
  timed "$work/$kind" mlr --icsv --opprint --barred --right cat
  timed "$work/$kind" csvlook -I
done
