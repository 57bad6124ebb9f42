#!/bin/sh
# Compares the original with each way to draw by the package for Rust, in one program, on the inputs below. For each way it counts
# the instructions of one call, and prints the best time of 20 calls. These calls take turns in one process. All drawings of an
# input have to be the same. This needs cargo and valgrind.
#
# usage: tools/measure/calls.sh ORIGINAL
# ORIGINAL is a folder with the sources of comfy-table and its Cargo.toml, in which cargo can build it. The variable COMFY_C can
# name a folder with libcomfy_c.a and liblibc_c.a. If it isn't set, these files are built.
set -eu
if [ $# -ne 1 ]; then
  echo "usage: $0 ORIGINAL" >&2
  exit 2
fi
original=$(cd "$1" && pwd)
cd "$(dirname "$0")/../.."
. tools/measure/inputs.sh
work=$(mktemp -d)
trap 'rm -rf "$work"' EXIT
if [ -z "${COMFY_C-}" ]; then
  tools/make/c_library.py > /dev/null
  cp crates/comfy_c/out/libcomfy_c.a "$(dirname "$(rt doc)")/c/liblibc_c.a" "$work"
  export COMFY_C="$work"
fi
cp -r packages/rust "$work/proved"
mkdir -p "$work/calls/src"
cp tools/measure/calls/main.rs "$work/calls/src"
cat > "$work/calls/Cargo.toml" <<END
[package]
name = "calls"
version = "0.1.0"
edition = "2024"

[dependencies]
comfy-table = { path = "$original" }
comfy_table_proved = { path = "../proved" }

[profile.release]
lto = true
codegen-units = 1
END
(cd "$original" && CARGO_TARGET_DIR="$work/calls/target" cargo build -q --release --manifest-path "$work/calls/Cargo.toml")
calls=$work/calls/target/release/calls

# Prints the instructions of the first call of a way to draw, including those of called functions: count WAY INPUT WORDS.
count() {
  ONLY=$1 valgrind --tool=callgrind --callgrind-out-file=/dev/null --toggle-collect="by_$1" "$calls" $3 < "$work/$2" 2>&1 > /dev/null | sed -n 's/.*Collected : //p'
}

# Measures these ways to draw on an input, with arguments for the program: measure INPUT WORDS WAY..
measure() {
  input=$1 words=$2
  shift 2
  first=$(count original "$input" "$words")
  echo "$input $words: the original $(awk -v count="$first" 'BEGIN { printf "%.3f", count / 1e6 }') million instructions"
  for way in "$@"; do
    awk -v way="$way" -v count="$(count "$way" "$input" "$words")" -v first="$first" 'BEGIN {
      printf "  %s %.3f, ratio %.2f\n", way, count / 1e6, count / first
    }'
  done
  TIMES=20 "$calls" $words < "$work/$input"
}

cp crates/ctable/stdin "$work/three rows of 3 cells"
short_cells 100 6 cell > "$work/100 rows of 6 short cells"
short_cells 10000 6 cell > "$work/10,000 rows of 6 short cells"
sentences 11 9 'a b c d e f g h i j k l m n o p q r s t u v w x y z' > "$work/2,000 rows of 6 sentences"
sentences 6 6 '年 快 乐 新 春 节 日 本 語 漢 字 仮 名 交 文 表 計 算 機 時 間 東 京 大' > "$work/2,000 rows of 6 wide sentences"
for input in 'three rows of 3 cells' '100 rows of 6 short cells' '10,000 rows of 6 short cells' '2,000 rows of 6 sentences' '2,000 rows of 6 wide sentences'; do
  measure "$input" '' table rows csv
done
measure '10,000 rows of 6 short cells' '- styled' table
measure 'three rows of 3 cells' 40 table rows csv
measure '2,000 rows of 6 sentences' 120 table rows csv
measure '2,000 rows of 6 wide sentences' 120 table rows csv
