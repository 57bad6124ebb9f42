#!/bin/sh
# Refuses each request for memory of four programs in turn, and checks how each run ends:
#  - ctable and csvtable on their stored inputs, with and without arguments, and test_cases on two of its cases. A run must end
#    with status 1, no output and a message that memory ran out. Or it must print as many bytes as with enough memory. The latter
#    is allowed because `collect` first asks for room for all values, and if this is refused, for room for one value.
#  - test_refused on each of its calls. A run must print that the call was refused as promised. If the refused request isn't made
#    by the call, the run must end with status 3 and no output. After a call that adds three rows, it must also print the number of
#    rows that the table still has: 0 if an early request is refused, and 1 or 2 if a later request is refused.
#
# format_row must make fewer than 250 requests for 100 pieces, also of wide texts, of styled cells and of cut cells. There are two
# requests for each piece and its line or cell, and a few more. arrange_content must make the same number of requests for 1,000
# rows as for one row.
#
# usage: tools/try/refused_requests.sh
# Programs that aren't built yet are proved and built first. CC is the compiler for C, by default cc. It compiles refuse.c, which
# runs the programs, with the GNU C library. The programs are linked with that library too.
set -u
tools=$(cd "$(dirname "$0")" && pwd) || exit 2
crates=$(cd "$tools/../../crates" && pwd) || exit 2
work=$(mktemp -d) || exit 2
trap 'rm -rf "$work"' EXIT
${CC:-cc} -O2 -Wall -Wextra -Werror "$tools/refuse.c" -o "$work/refuse" || exit 2
${CC:-cc} -O2 -Wall -Wextra -Werror -shared -fPIC "$tools/refusing.c" -o "$work/refuse.so" || exit 2

# Builds a program, and runs it on its stored input, or with arguments: build NAME [WORD].. It must print its stored output.
build() {
  name=$1
  shift
  input=$crates/$name/stdin
  if [ $# -gt 0 ]; then
    input=/dev/null
  fi
  (cd "$crates/$name" && rt run ${1:+--} "$@" < "$input" > "$work/printed") || exit 2
  if ! cmp "$work/printed" "$crates/$name/stdout"; then
    echo "$0: the output of $name differs even with enough memory" >&2
    exit 1
  fi
}

# Refuses each request of a program on an input. A run must end with the message: refuse NAME INPUT MESSAGE [WORD].. The words
# are arguments of the program.
refuse() {
  name=$1
  input=$2
  message=$3
  shift 3
  whole=$(($("$crates/$name/out/$name" "$@" < "$input" | wc -c)))
  reported=$("$work/refuse" "$input" "$crates/$name/out/$name" "$@") || exit 2
  called=$name${*:+" $*"}
  printf '%s\n' "$reported" | sed "s/^/$called: /"
  if ! printf '%s\n' "$reported" | grep -q "^request 1: status 1, 0 bytes, $message *\$"; then
    echo "$0: the first request of $called was not refused" >&2
    exit 1
  fi
  if printf '%s\n' "$reported" | grep '^request ' \
    | grep -v -e ": status 1, 0 bytes, $message *\$" -e ": status 0, $whole bytes, *\$"; then
    echo "$0: a refused request of $called ended in another way" >&2
    exit 1
  fi
}

# Refuses each request of a call, which must fail as promised: refuse_call CALL. Status 3 means a request outside of the call.
refuse_call() {
  call=$1
  printf '%s\n' "$call" > "$work/call"
  reported=$("$work/refuse" "$work/call" "$crates/test_refused/out/test_refused") || exit 2
  bytes=$(($(printf '%s: refused, as promised\n' "$call" | wc -c)))
  case $call in
    Table::*add_rows*) words='rows kept: [0-9]*' ;;
    *) words= ;;
  esac
  if printf '%s\n' "$reported" | grep '^request ' \
    | grep -v -e ": status 0, $bytes bytes, $words *\$" -e ': status 3, 0 bytes, *$'; then
    echo "$0: a refused request of $call ended in another way" >&2
    exit 1
  fi
  kept=$(printf '%s\n' "$reported" | sed -n 's/^request .* rows kept: \([0-9]*\) *$/\1/p' | uniq | tr '\n' ' ')
  if [ -n "$words" ] && [ "$kept" != '0 1 2 ' ]; then
    echo "$0: the numbers of rows that $call kept, by request: $kept" >&2
    exit 1
  fi
  own=$(printf '%s\n' "$reported" | sed -n 's/^refused in turn://p' | tr ';' '\n' \
    | awk -v bytes="$bytes" '$2 == "status" && $3 == "0," && $4 == bytes { own += $1 } END { print own + 0 }')
  if [ "$own" -eq 0 ]; then
    echo "$0: no request of $call was refused" >&2
    exit 1
  fi
  echo "test_refused: $call: refused in turn: $own, as promised"
}

build ctable
refuse ctable "$crates/ctable/stdin" 'ctable: out of memory'
refuse ctable "$crates/ctable/stdin" 'ctable: out of memory' 40 dynamic UTF8_FULL
build csvtable -w 60 data/ledger.csv
refuse csvtable "$crates/csvtable/data/ledger.csv" 'csvtable: out of memory'
refuse csvtable "$crates/csvtable/data/ledger.csv" 'csvtable: out of memory' -w 40 -c 2,1 --right 1 --limit 1 --rows
refuse csvtable "$crates/csvtable/data/ledger.csv" 'csvtable: out of memory' -c 2,1 --right 1 --limit 1 --markdown
refuse csvtable "$crates/csvtable/data/ledger.csv" 'csvtable: out of memory' -x -w 30 --limit 1
build test_cases
awk '/^case\theight-(0-is-1-line|with-an-indicator-of-three-dots)$/, /^end$/' "$crates/test_cases/stdin" > "$work/two.cases"
refuse test_cases "$work/two.cases" 'Error: out of memory'
build test_refused
formatted=0
while IFS= read -r call; do
  refuse_call "$call"
  case $call in
    utils::format_row*) formatted=$((own > formatted ? own : formatted)) ;;
    'utils::arrange_content of 1 row') one=$own ;;
    'utils::arrange_content of 1000 rows') thousand=$own ;;
  esac
done < "$crates/test_refused/stdin"
if [ "$formatted" -ge 250 ] || [ "$one" -ne "$thousand" ]; then
  echo "$0: format_row or arrange_content makes wrong numbers of requests: $formatted, $one, $thousand" >&2
  exit 1
fi
