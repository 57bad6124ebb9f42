#!/bin/sh
# Tries the libraries for C of other targets that tools/package.sh made, as far as this machine can run them:
#  - Linux on aarch64 by qemu-user, Linux with musl by musl-gcc, and Windows by wine; the shared libraries of these wheels are
#    tried too
#  - the shared libraries for macOS by a loader of this project, which tests nothing of macOS; the library for arm64 needs
#    qemu-user too
# Each library must make the same drawings as the library for Linux on x86-64 in 3,000 random calls, byte for byte. It must pass
# the tests for C, except tests whose system calls its system lacks. The package for Rust must pass its tests on aarch64, if the
# compiler RUSTC, by default rustc, has that target. Systems that can't be run here are left out. The last line names the systems
# that were tried.
#
# usage: tools/try/other_targets.sh PACKAGES
set -eu
packages=$(cd "$1" && pwd)
cd "$(dirname "$0")/../.."
tests=crates/comfy_c/tests
work=$(mktemp -d)
trap 'rm -rf "$work"' EXIT
tried=

has() {
  command -v "$1" > /dev/null
}

# Unpacks a system's archive for C or its wheel, if there is such a file: unpack SYSTEM FILE.
unpack() {
  mkdir -p "$work/$1"
  case $2 in
    *.whl) [ ! -e "$2" ] || python3 -m zipfile -e "$2" "$work/$1" ;;
    *) [ ! -e "$2" ] || tar -C "$work/$1" --strip-components=1 -xzf "$2" ;;
  esac
  [ -n "$(ls "$work/$1")" ]
}

# Compares the drawings of a library with those of this system: draw SYSTEM RUN COMPILER ARGUMENT.. RUN is a program that
# runs programs of the system, or nothing.
draw() {
  system=$1 run=$2 compiler=$3
  shift 3
  $compiler -O1 -I packages/c tools/try/other_targets/drawings.c "$@" -o "$work/drawings.exe"
  $run "$work/drawings.exe" | cmp "$work/wanted" -
  echo "$system draws the same bytes"
  tried="$tried, $system"
}

# Compares the drawings, and runs the tests for C too.
try() {
  draw "$@"
  shift 3
  for test in calls cells random_calls refused; do
    words=
    case $test in refused) words=-Wl,--wrap=malloc,--wrap=realloc,--wrap=free ;; esac
    # Windows has no mmap.
    case $system-$test in Windows-cells | Windows-random_calls) continue ;; esac
    $compiler -O1 -I packages/c "$tests/$test.c" "$@" $words -o "$work/$test.exe"
    $run "$work/$test.exe" > "$work/reported" || { cat "$work/reported"; echo "$system: $test fails" >&2; exit 1; }
  done
  echo "$system passes the tests for C"
}

unpack linux-x86_64 "$packages"/comfy_table-*-linux-x86_64.tar.gz
cc -O1 -I packages/c tools/try/other_targets/drawings.c "$work"/linux-x86_64/lib/*.a -o "$work/drawings"
"$work/drawings" > "$work/wanted"

# Linux on aarch64, and the shared library of its wheel.
arm="qemu-aarch64 -L /usr/aarch64-linux-gnu"
has_arm() {
  has qemu-aarch64 && has aarch64-linux-gnu-gcc
}
if has_arm && unpack linux-aarch64 "$packages"/comfy_table-*-linux-aarch64.tar.gz; then
  try "Linux on aarch64" "$arm" aarch64-linux-gnu-gcc "$work"/linux-aarch64/lib/*.a -pthread
  unpack wheel-aarch64 "$packages"/*-manylinux*_aarch64.whl
  shared=$(ls "$work"/wheel-aarch64/*/libcomfy_table.so)
  draw "the wheel for aarch64" "$arm" aarch64-linux-gnu-gcc "$shared" "-Wl,-rpath,$(dirname "$shared")"
fi
if has_arm && has cargo && [ -d "$("${RUSTC:-rustc}" --print target-libdir --target aarch64-unknown-linux-gnu)" ]; then
  unpack crate "$packages"/*.crate
  export CARGO_TARGET_AARCH64_UNKNOWN_LINUX_GNU_LINKER=aarch64-linux-gnu-gcc CARGO_TARGET_AARCH64_UNKNOWN_LINUX_GNU_RUNNER="$arm"
  (cd "$work/crate" && cargo test -q --offline --tests --target aarch64-unknown-linux-gnu)
  tried="$tried, Rust on aarch64"
fi

# musl, by the library and the wheel for glibc.
if has musl-gcc; then
  try "musl" "" musl-gcc -static "$work"/linux-x86_64/lib/*.a -pthread
  unpack wheel-x86_64 "$packages"/*-manylinux*_x86_64.whl
  shared=$(ls "$work"/wheel-x86_64/*/libcomfy_table.so)
  draw "the wheel with musl" "" musl-gcc "$shared" "-Wl,-rpath,$(dirname "$shared")"
fi

# Windows, by MinGW's C library, and the DLL of its wheel.
PATH=$PATH:/usr/lib/wine
export WINEPREFIX="$work/wine" WINEDEBUG=-all
if has wine64 && has x86_64-w64-mingw32-gcc && unpack windows "$packages"/comfy_table-*-windows-x86_64.tar.gz; then
  wine64 cmd /c exit > /dev/null 2>&1
  try Windows wine64 x86_64-w64-mingw32-gcc -static "$work"/windows/lib/*.a -pthread
  unpack wheel-windows "$packages"/*-win_amd64.whl
  cp "$work"/wheel-windows/*/comfy_table.dll "$work"
  draw "the wheel for Windows" wine64 x86_64-w64-mingw32-gcc "$work/comfy_table.dll"
fi

# The shared libraries of the wheels for macOS.
if unpack mac-x86_64 "$packages"/*-macosx_11_0_x86_64.whl; then
  MACHO=$(ls "$work"/mac-x86_64/*/libcomfy_table.dylib)
  export MACHO
  try "the wheel's code for macOS on x86_64" "" cc tools/try/other_targets/macho.c -pthread
fi
if has_arm && unpack mac-arm64 "$packages"/*-macosx_11_0_arm64.whl; then
  MACHO=$(ls "$work"/mac-arm64/*/libcomfy_table.dylib)
  try "the wheel's code for macOS on arm64" "$arm" aarch64-linux-gnu-gcc tools/try/other_targets/macho.c -pthread
fi
echo "other targets tried: ${tried#, }"
