# A function that counts the instructions of programs, for the scripts that read this file. These scripts set the variable `work`
# to a folder.

# compare INPUT WORDS SHARES PROGRAM..
# Counts the instructions of each program with the arguments WORDS on the file INPUT, and prints its SHARES costliest
# functions. All programs have to write the same.
compare() {
  input=$1
  words=$2
  shares=$3
  shift 3
  first=
  for program in "$@"; do
    valgrind --tool=callgrind --callgrind-out-file="$work/counts" "$program" $words < "$input" > "$work/drawn" 2> "$work/reported"
    count=$(sed -n 's/.*Collected : //p' "$work/reported")
    [ "$first" ] || cp "$work/drawn" "$work/first"
    first=${first:-$count}
    cmp "$work/drawn" "$work/first"
    awk -v count="$count" -v first="$first" -v program="$program" 'BEGIN {
      printf "  %.1f million instructions, ratio %.3f: %s\n", count / 1e6, first / count, program
    }'
    [ "$shares" = 0 ] || callgrind_annotate "$work/counts" | grep '%) .*:' | head -n "$shares"
  done
}
