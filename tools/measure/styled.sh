#!/bin/sh
# Counts the instructions of programs that draw 10,000 rows of 6 cells with styles, and prints their eight costliest
# functions. This needs valgrind, and takes about a minute.
#
# usage: tools/measure/styled.sh colours|sequences PROGRAM..
# With `colours`, every second cell has a colour and an attribute. With `sequences`, every second cell has escape sequences, which
# take no columns. There the columns are as wide as their contents, and in further runs 12, 20 and 40 wide, including paddings.
#
# A PROGRAM draws as tools/measure/styled/main.rt.txt does. To build this program, copy the file to crates/styled/src/main.rt, add
# the line `styled: comfy_table anyhow simdutf8` to crates.txt, and call `rt run` in crates/styled. tools/measure/original has such
# a program that uses the original. Build the latter by `cargo build --release --features tty`. For `sequences`, the feature is
# custom_styling. All programs have to write the same. The ratio of a program is the first program's instructions divided by its
# own.
set -eu
if [ $# -lt 2 ]; then
  sed -n 's/^# usage: //p' "$0" >&2
  exit 2
fi
. "$(dirname "$0")/inputs.sh"
. "$(dirname "$0")/counting.sh"
work=$(mktemp -d)
trap 'rm -rf "$work"' EXIT
kind=$1
shift

if [ "$kind" = colours ]; then
  short_cells 10000 6 cell > "$work/input"
  compare "$work/input" colours 8 "$@"
  exit
fi
sentences_with_sequences > "$work/input"
for width in '' 12 20 40; do
  echo "${width:+columns of }${width:-as wide as the contents}"
  compare "$work/input" "$width" 8 "$@"
done
