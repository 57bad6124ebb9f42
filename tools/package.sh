#!/bin/sh
# Makes the files of a release in a folder:
#  - a crate for Rust
#  - for each target, a wheel for Python
#  - for each target, an archive with the library for C, its header and its file for pkg-config
#  - a Debian package and an archive, each with the program csvtable, its pages and its completions
#  - the page csvtable.html for browsers
# If a file needs a program that isn't installed, the file is left out, and the last line says so.
# No network is needed. Anything that isn't built yet is proved and built first. Equal files make equal packages.
#
# usage: tools/package.sh OUT
# These variables have an effect:
#  - CC is the compiler that links the shared library of the wheel for this system, by default cc.
#  - DPKG_DEB is the program that writes the Debian package, by default dpkg-deb. If it isn't installed, tar and ar write it.
#  - SOURCE_DATE_EPOCH is the time of all files, by default the day of the version.
# Making the wheel takes Python 3.11.
set -eu
if [ $# -ne 1 ]; then
  echo "usage: $0 OUT" >&2
  exit 2
fi
mkdir -p "$1"
out=$(cd "$1" && pwd)
cd "$(dirname "$0")/.."
. tools/installing.sh
. tools/debian.sh
work=$(mktemp -d)
trap 'rm -rf "$work"' EXIT
version=$(sed -n 's/^Version: //p' packages/c/comfy_table.pc)
for file in packages/python/pyproject.toml packages/rust/Cargo.toml; do
  grep -qx "version = \"$version\"" "$file" || { echo "$file hasn't the version $version" >&2; exit 1; }
done
export SOURCE_DATE_EPOCH="${SOURCE_DATE_EPOCH:-$(date -ud "$(sed -n 's/^\.TH CSVTABLE 1 \([0-9-]*\) .*/\1/p' share/csvtable.1)" +%s)}"

# True if the program that makes a file is installed. If it isn't, the file is noted as left out.
left_out=
has() {
  command -v "$1" > /dev/null || { left_out="$left_out $2 (no $1)" && return 1; }
}

# Prints a tar archive of the files under a name in a folder. Equal files give an equal archive.
packed() {
  folder=$1 name=$2
  shift 2
  tar -C "$folder" --format=gnu --sort=name --mtime="@$SOURCE_DATE_EPOCH" --owner=root:0 --group=root:0 --mode=u=rwX,go=rX "$@" -cf - "$name"
}

prefix=$work/csvtable-$version
put_csvtable > /dev/null
cp LICENSE "$prefix"
packed "$work" "csvtable-$version" | gzip -9n > "$out/csvtable-$version-linux-x86_64.tar.gz"
put_debian "$work/debian" "$version"
write_debian "$work/debian" "$out/csvtable_${version}_amd64.deb"

# For each system there is a folder with the static libraries and a shared library for Python. The shared library for Linux isn't
# linked with a C library. It uses the C library that Python itself uses, so it works with each C library.
prefix=$work/c
build comfy_c module.bc ../../tools/make/c_library.py
put_library > /dev/null
cp LICENSE "$prefix"
mkdir -p "$work/lib/linux-x86_64"
mv "$prefix"/lib/*.a "$work/lib/linux-x86_64"
link_shared() {
  "$1" -shared -nostdlib -o "$2/libcomfy_table.so" -Wl,--whole-archive "$2/libcomfy_c.a" -Wl,--no-whole-archive "$2/liblibc_c.a" -lgcc
}
link_shared "${CC:-cc}" "$work/lib/linux-x86_64"

# The other targets. Each line has the name in files, Rust's name of the target, a file that is made, and a program that is needed.
while read -r system target made program; do
  has "$program" "$system" || continue
  build comfy_c "$target/$made" ../../tools/make/targets.py "$target"
  mkdir -p "$work/lib/$system"
  cp crates/comfy_c/out/"$target"/* "$work/lib/$system"
done <<END
linux-aarch64 aarch64-unknown-linux-gnu libcomfy_c.a aarch64-linux-gnu-gcc
macos-aarch64 aarch64-apple-darwin libcomfy_c.a rt
macos-x86_64 x86_64-apple-darwin libcomfy_c.a rt
windows-x86_64 x86_64-pc-windows-gnu libcomfy_c.a x86_64-w64-mingw32-gcc
windows-x86_64 x86_64-pc-windows-msvc comfy_c.lib rt
END
[ ! -d "$work/lib/linux-aarch64" ] || link_shared aarch64-linux-gnu-gcc "$work/lib/linux-aarch64"

name=comfy_table_proved-$version
mkdir "$work/$name"
cp -r packages/rust/* LICENSE "$work/$name"
tools/make/pages.py "$work/$name" packages/rust/README.md=README.md packages/rust/examples=examples docs/PROVED.md=docs/PROVED.md \
  docs/DIFFERENCES.md=docs/DIFFERENCES.md > /dev/null
for folder in "$work"/lib/*; do
  system=$(basename "$folder") archive=comfy_table-$version-$(basename "$folder")
  cp -r "$prefix" "$work/$archive"
  cp "$folder"/*comfy_c.* "$folder"/*libc_c.* "$work/$archive/lib"
  packed "$work" "$archive" | gzip -9n > "$out/$archive.tar.gz"
  mkdir -p "$work/$name/lib/$system"
  cp "$folder"/*comfy_c.* "$folder"/*libc_c.* "$work/$name/lib/$system"
  for shared in "$folder"/*comfy_table.*; do
    # Without the compiler MinGW there is no DLL.
    [ -e "$shared" ] || continue
    cp -r packages/python "$work/python"
    cp LICENSE "$work/python"
    cp "$shared" "$work/python/src/comfy_table_proved"
    # The wheel's description has no links, and the package has the pages in its folder docs.
    tools/make/pages.py "$work/python" packages/python/README.md=README.md > /dev/null
    tools/make/pages.py "$work/python/src/comfy_table_proved" packages/python/README.md=docs/README.md \
      packages/python/TABULATE.md=docs/TABULATE.md docs/PROVED.md=docs/PROVED.md > /dev/null
    (cd "$work/python" && python3 build_wheel.py "$out" > /dev/null)
    rm -r "$work/python"
  done
done
packed "$work" "$name" | gzip -9n > "$out/$name.crate"

# The page for a browser is one file.
if has wasm-opt csvtable.html; then
  build comfy_c wasm64-unknown-unknown/csvtable.wasm ../../tools/make/targets.py wasm64-unknown-unknown
  tools/make/page.py crates/comfy_c/out/wasm64-unknown-unknown/csvtable.wasm "$out/csvtable.html"
fi

ls "$out"
[ -z "$left_out" ] || echo "left out:$left_out"
