#!/bin/sh
# Proves and builds the static library of comfy_c and the program csvtable, and tests the library:
#  - Programs in C call it with bad and extreme arguments, with each request for memory refused in turn, and with random bytes
#    and arguments. The result of each call must agree with packages/c/comfy_table.h. If valgrind is installed, it must find no
#    error in these programs except the last one, in which clang's AddressSanitizer must find none.
#  - The packages for C, Rust and Python must draw as csvtable does (tools/try/package_test.sh).
#
# usage: tools/try/c_library.sh
# CC is the compiler for C, by default cc. liblibc_c.a comes from the Rattle toolchain, whose `rt` is on the PATH.
set -eu
cd "$(dirname "$0")/../.."
top=$PWD
crate=$top/crates/comfy_c
libc=$(dirname "$(rt doc)")/c/liblibc_c.a
work=$(mktemp -d)
trap 'rm -rf "$work"' EXIT

tools/make/c_library.py > "$work/log" || { cat "$work/log"; exit 1; }
(cd "$top/crates/csvtable" && rt run -- --version > /dev/null 2> "$work/log") || { cat "$work/log"; exit 1; }
cp "$crate/out/libcomfy_c.a" "$libc" "$work"

# Compiles a C file of the crate, and links the library: compile NAME [WORD].. The words are for the linker.
compile() {
  name=$1
  shift
  ${CC:-cc} -O2 -Wall -Wextra -Werror -I packages/c "$crate/$name.c" "$work/libcomfy_c.a" "$work/liblibc_c.a" "$@" -o "$work/$(basename "$name")"
}
compile tests/calls -pthread
compile tests/cells
compile tests/refused -Wl,--wrap=malloc,--wrap=realloc,--wrap=free
if echo 'int main(void) { return 0; }' | clang -fsanitize=address -x c - -o "$work/sanitized" 2> /dev/null; then
  (CC=clang && compile tests/random_calls -pthread -fsanitize=address)
  echo "random_calls: with AddressSanitizer"
else
  compile tests/random_calls -pthread
fi
"$work/random_calls"
for program in calls cells refused; do
  "$work/$program"
  if command -v valgrind > /dev/null; then
    valgrind -q --leak-check=full --error-exitcode=9 "$work/$program" > /dev/null
    echo "$program: valgrind finds nothing"
  fi
done

tools/try/package_test.sh
