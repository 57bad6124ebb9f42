#!/bin/sh
# Runs the checks and tools of docs/TESTING.md that a release has to pass, and makes the packages. The last lines name the
# checks that passed, those that failed, and those that were skipped, with the reasons. The outputs of the checks are in OUT/logs.
#
# usage: tools/release.sh OUT [ORIGINAL]
# OUT is a folder for the packages and logs. ORIGINAL is a folder with the sources of comfy-table, as tools/try/drop_in.sh needs it.
# If the variable ALL is set, each mutation of a function is tried too, which takes about ten hours.
set -u
if [ $# -lt 1 ]; then
  echo "usage: $0 OUT [ORIGINAL]" >&2
  exit 2
fi
mkdir -p "$1/logs" || exit 2
out=$(cd "$1" && pwd)
original=${2-}
cd "$(dirname "$0")/.." || exit 2
summary=$out/logs/summary
: > "$summary"

# Runs a command, and notes its status and seconds: try NAME COMMAND..
try() {
  name=$1
  shift
  began=$(date +%s)
  if "$@" > "$out/logs/$name" 2>&1; then word=passed; else word=failed; fi
  echo "$word $name, $(($(date +%s) - began)) s: $(tail -n 1 "$out/logs/$name")" | tee -a "$summary"
}

# Notes a command that isn't run: skip NAME REASON
skip() {
  echo "skipped $1: $2" | tee -a "$summary"
}

# Runs a command if a program that it needs is there: try_with PROGRAM NAME COMMAND..
try_with() {
  program=$1
  shift
  if command -v "$program" > /dev/null; then try "$@"; else skip "$1" "$program isn't installed"; fi
}

try pages tools/check/check_proved.py
try gate rt ci
if [ -n "${ALL-}" ]; then
  try wrong_bodies tools/check/mutations.py --must-fail
else
  skip wrong_bodies "ALL isn't set; the gate tries those of must-fail/"
fi
try library tools/make/c_library.py
try install tools/install.sh "$out/installed"
csvtable=crates/csvtable/out/csvtable
try edges_of_ctable tools/try/edges.sh crates/ctable/out/ctable
try edges_of_csvtable tools/try/edges.sh "$csvtable"
try refused_requests tools/try/refused_requests.sh
try outliving_line tools/try/outliving_line.sh
try terminal tools/try/terminal.py "$out/installed/bin/csvtable"
try real_files tools/try/real_files.py "$csvtable"
try_with cmark-gfm markdown tools/try/markdown.py "$csvtable"
try c_library tools/try/c_library.sh
if [ -n "$original" ]; then
  try_with cargo drop_in tools/try/drop_in.sh "$original" 300000
else
  skip drop_in "no ORIGINAL is given"
fi
try packages tools/package.sh "$out/packages"
echo
cat "$summary"
! grep -q '^failed' "$summary"
