#!/bin/sh
# Runs a built ctable or csvtable with too little memory, with inputs and outputs that end or are closed, and with arguments that
# aren't text. The status and standard error are compared with the values below. In these runs standard output must be empty. For
# csvtable, the output for a file is compared with the output for standard input. A line is printed for each run. The status is 1
# if a run differs.
#
# usage: tools/try/edges.sh PROGRAM, for example tools/try/edges.sh crates/ctable/out/ctable
set -u
if [ $# -ne 1 ] || [ ! -x "$1" ]; then
  echo "usage: $0 PROGRAM" >&2
  exit 2
fi
program=$1
name=$(basename "$program")
work=$(mktemp -d) || exit 2
trap 'rm -rf "$work"' EXIT
ended=0

# The messages of each program about arguments that aren't text, and about a pipe that has no reader any more.
case $name in
  csvtable)
    misused="csvtable: an argument isn't UTF-8"
    misused_status=2
    unread=
    unreadable="csvtable: standard input: can't be read"
    folder='csvtable: standard input: is a directory'
    ;;
  *)
    misused='ctable: out of memory'
    misused_status=1
    unread="$name: the output can't be written"
    unreadable="$name: the input can't be read"
    folder=$unreadable
    ;;
esac

line='one text\tanother text\ta third text'
printf "$line\n" > "$work/small"
yes "$(printf "$line")" | head -c 1000000 > "$work/large"
yes "$(printf "$line")" | head -c 50000000 > "$work/huge"

# Compares a run with the expected status and line on standard error: compare NAME STATUS EXPECTED LINE. An empty line means none.
compare() {
  if [ "$2" -eq "$3" ] && [ "$(cat "$work/err")" = "$4" ] && [ ! -s "$work/out" ]; then
    echo "$1: status $2, ${4:-no message}"
  else
    echo "$1: BROKEN: status $2, $(wc -c < "$work/out") bytes on standard output, and on standard error:"
    cat "$work/err"
    ended=1
  fi
}

# Runs the program with a limit of memory in kilobytes, on a file: run_limited LIMIT FILE.
run_limited() {
  (ulimit -v "$1" && exec "$program" < "$2" > "$work/out" 2> "$work/err")
}

# A small input shows that the program starts within a limit.
for limit in 5000 20000 50000 75000 100000 200000; do
  if run_limited $limit "$work/small"; then
    run_limited $limit "$work/huge"
    compare "50 MB within a limit of $limit kB" $? 1 "$name: out of memory"
  else
    echo "a limit of $limit kB: BROKEN: the program doesn't start"
    ended=1
  fi
done
: > "$work/out"

# The status is written to a file, because a pipe has the status of its last command.
{
  "$program" < "$work/large" 2> "$work/err"
  echo $? > "$work/status"
} | head -c 10 > "$work/begun"
compare 'a reader that ends after 10 bytes' "$(cat "$work/status")" 1 "$unread"

"$program" < "$work/small" > /dev/full 2> "$work/err"
compare 'a full disk' $? 1 "$name: the output can't be written"

"$program" < "$work/small" >&- 2> "$work/err"
compare 'a closed standard output' $? 1 "$name: the output can't be written"

"$program" <&- > "$work/out" 2> "$work/err"
compare 'a closed standard input' $? 1 "$unreadable"

"$program" < "$work" > "$work/out" 2> "$work/err"
compare 'a folder as input' $? 1 "$folder"

"$program" < "$work" > "$work/out" 2>&-
status=$?
: > "$work/err"
compare 'a folder as input, and a closed standard error' $status 1 ''

# Arguments that aren't UTF-8: a byte that no text has, such a byte after letters, and a character that ends too early. The input
# is a folder, which has another message. So these runs show that the arguments are checked before the input is read.
byte=$(printf '\377')
after=$(printf 'dynamic\377')
early=$(printf 'UTF8_FULL\342\202')
misuse() {
  run=$1
  shift
  "$program" "$@" < "$work" > "$work/out" 2> "$work/err"
  compare "$run" $? $misused_status "$misused"
}
misuse 'a width that is no text' "$byte"
misuse 'an arrangement that is no text' 40 "$after"
misuse 'a style that is no text' 40 dynamic "$early"
misuse 'a fourth argument that is no text' 40 dynamic UTF8_FULL "$byte"

[ "$name" = csvtable ] || exit $ended

# The rest is for csvtable only: its files, and inputs that it refuses.
refused() {
  run=$1
  line=$2
  shift 2
  "$program" "$@" < "$work/input" > "$work/out" 2> "$work/err"
  compare "$run" $? 1 "csvtable: $line"
}
printf 'a,b\nx,y\n' > "$work/input"
refused 'a file that is not there' "$work/none: no such file" "$work/none"
refused 'a folder as a file' "$work: is a directory" "$work"
: > "$work/closed"
chmod 000 "$work/closed"
# The superuser can read this file, so the run is left out then.
[ -r "$work/closed" ] || refused 'a file that may not be read' "$work/closed: permission denied" "$work/closed"
refused 'a column that is not there' "standard input: no column '09'; there are 'a' and 'b'" -c 09
refused 'all columns left out' 'standard input: no column is left' --drop 1-
refused 'a column at two sides' "standard input: column 'b' can't be aligned both left and right" -r b --left 2
printf 'a,b\nx,\377\n' > "$work/input"
refused 'a line that is not UTF-8' "standard input: line 2 isn't UTF-8; try -e cp1252, or iconv -f ENCODING FILE | csvtable"
refused 'such a line in a file' "$work/input: line 2 isn't UTF-8; try -e cp1252, or iconv -f ENCODING FILE | csvtable" "$work/input"
refused 'such a line with an encoding' "standard input: line 2 isn't UTF-8" -e utf-8
printf 'a,b\nx,"\n' > "$work/input"
refused 'a quote that is never closed' 'standard input: a quote that opens in line 2 is never closed; try --no-quotes'

# Compares two outputs, which have to be equal and not empty: same NAME.
same() {
  if [ -s "$work/first" ] && cmp -s "$work/first" "$work/second"; then
    echo "$1: equal outputs"
  else
    echo "$1: BROKEN: the outputs differ"
    ended=1
  fi
}
printf 'a,b\nx,y\n' > "$work/input"
"$program" < "$work/input" > "$work/first"
"$program" "$work/input" > "$work/second" < /dev/null
same 'a file, and standard input'
"$program" - < "$work/input" > "$work/second"
same 'a hyphen, and no file'
COLUMNS=5 "$program" < "$work/input" > "$work/second"
same 'COLUMNS if standard output is no terminal'
"$program" -h > "$work/first"
"$program" --help > "$work/second"
same '-h and --help'
"$program" -V > "$work/first"
echo 'csvtable 0.1.0' > "$work/second"
same '-V'

# With --limit the input is only read as far as needed.
yes 1,2,3 | timeout 20 "$program" --limit 3 > "$work/first" 2> "$work/err"
printf '╭───┬───┬───╮\n│ 1 ┆ 2 ┆ 3 │\n╞═══╪═══╪═══╡\n' > "$work/second"
printf '│ 1 ┆ 2 ┆ 3 │\n│ 1 ┆ 2 ┆ 3 │\n│ 1 ┆ 2 ┆ 3 │\n╰───┴───┴───╯\nfirst 3 records; there are more\n' >> "$work/second"
same 'three records of an input that never ends'
yes 1,2 | timeout 20 "$program" --limit 3 -c 3 > "$work/out" 2> "$work/err"
compare 'a column that is not there in an input that never ends' $? 1 \
  "csvtable: standard input: no column '3'; there are '1' and '2'"
yes 1,2,3 | head -n 50000 > "$work/input"
"$program" --limit 3 --count "$work/input" | tail -n 1 > "$work/first"
echo '3 of 49999 records' > "$work/second"
same 'all records counted'
{ echo a,b; yes 1,2 | head -n 20; echo '3,"'; yes long | head -n 50000; echo '"'; yes 1,2 | head -n 50000; } > "$work/input"
"$program" --limit 2 "$work/input" | tail -n 1 > "$work/first"
echo 'first 2 records; there are more' > "$work/second"
same 'a quote that is closed after the first 64 kB'
{ yes 1,2 | head -n 50000; printf '\377\n'; } > "$work/input"
"$program" --limit 2 "$work/input" | tail -n 1 > "$work/first"
same 'a byte that is no text, after the part that is read'
"$program" --limit 2 --count "$work/input" > "$work/out" 2> "$work/err"
compare 'such a byte if all records are counted' $? 1 "csvtable: $work/input: line 50001 isn't UTF-8; try -e cp1252, or iconv -f ENCODING FILE | csvtable"

# An output that accepts no more bytes for the moment: a pipe in nonblocking mode, from which nothing is read.
if command -v python3 > /dev/null; then
  python3 - "$program" "$work/input" > "$work/status" 2> "$work/err" << 'END'
import fcntl, os, subprocess, sys
reader, writer = os.pipe()
fcntl.fcntl(writer, fcntl.F_SETFL, fcntl.fcntl(writer, fcntl.F_GETFL) | os.O_NONBLOCK)
run = [sys.argv[1], "-e", "cp1252", sys.argv[2]]
print(subprocess.run(run, stdin=subprocess.DEVNULL, stdout=writer).returncode)
END
  : > "$work/out"
  compare 'a full pipe in nonblocking mode' "$(cat "$work/status")" 1 \
    'csvtable: the output takes no more for now; is it nonblocking?'
fi

# Reads and writes that are interrupted by signals.
if command -v strace > /dev/null; then
  "$program" "$work/input" -e cp1252 --limit 3 --count > "$work/first"
  strace -o "$work/trace" -P "$work/input" -e trace=read -e inject=read:error=EINTR:when=1+2 \
    "$program" "$work/input" -e cp1252 --limit 3 --count > "$work/second"
  same 'each second read interrupted'
  strace -o "$work/trace" -e trace=write -e inject=write:error=EINTR:when=1 \
    "$program" "$work/input" -e cp1252 --limit 3 --count > "$work/second"
  same 'the first write interrupted'
fi

# Missing fields take no memory: 4,000 commas before a name, and 2,000 records of one field; and 1 MB of such an input.
ragged() {
  { head -c "$2" /dev/zero | tr '\0' ,; echo z; yes a | head -n "$3"; } > "$work/input"
  (ulimit -v "$4" && exec timeout 20 "$program" -w 80 "$work/input" > "$work/first" 2> "$work/err")
  echo "$? records: $(grep -c '^record' "$work/first")" > "$work/first.counted"
  mv "$work/first.counted" "$work/first"
  echo "0 records: $3" > "$work/second"
  same "$1"
}
ragged '8 kB of missing fields within 50 MB' 4000 2000 50000
ragged '1 MB of missing fields within 250 MB' 500000 250000 250000

: > "$work/out"
"$program" --wide < "$work/small" > "$work/out" 2> "$work/err"
compare 'an argument that is not known' $? 2 "$(cat "$work/err")"

exit $ended
