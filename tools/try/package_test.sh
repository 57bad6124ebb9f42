#!/bin/sh
# Makes the packages twice, which must give equal files. Then it installs each package alone, and tries it. The packages of
# csvtable and for C are installed in an empty prefix, or in an empty root of Debian. The packages for Rust and Python are
# installed in an empty project of cargo, and in an empty virtual environment. The tests of the packages must pass. Their example
# programs must print the same bytes as csvtable, or the drawing in their first comment. If a program isn't installed, such as a
# compiler or dpkg, its tries are left out. The last line says what was tried.
#
# usage: tools/try/package_test.sh
# CC is the compiler for C, by default cc. Programs that aren't built yet are built first.
set -eu
cd "$(dirname "$0")/../.."
top=$PWD
. tools/installing.sh
. tools/measure/csv_inputs.sh
build csvtable csvtable rt run -- --version
work=$(mktemp -d)
trap 'rm -rf "$work"' EXIT
tools/package.sh "$work/packages"
tools/package.sh "$work/again" > /dev/null
diff -r "$work/packages" "$work/again"
DPKG_DEB= tools/package.sh "$work/without_dpkg" > /dev/null
tools/try/package_links.py "$work/packages"
export CSVTABLE="$top/crates/csvtable/out/csvtable" PYTHONDONTWRITEBYTECODE=1
tried="csvtable, C"

# The inputs of CSV: a ledger, messages with quotes and line breaks, TABs, another encoding, a quote that is never closed, nothing.
mkdir "$work/csv"
cp crates/csvtable/data/ledger.csv "$work/csv"
csv_of messages 300 > "$work/csv/messages.csv"
cp crates/ctable/stdin "$work/csv/stored.tsv"
printf 'name;price\n\377;\351\n' > "$work/csv/bank.csv"
printf 'name,price\n"oats,3\n' > "$work/csv/open.csv"
: > "$work/csv/nothing"

# Compares the output of a program with that of csvtable, with arguments that are accepted and with others. If nothing is drawn,
# the messages are compared. A message that csvtable prints beside a drawing isn't compared, because a call doesn't return it.
compare_csv() {
  for arguments in '' '-w 40' '-s grid -r 1' '-x --limit 2 --color always' '--markdown -e cp1252' '-t -n --rows' '-c 2,1 -m 1' \
    '--no-quotes --ansi -s NOTHING' '-w 65535 --full -d ;' '-c nothing' '--rows --no-rows' '-w wide' '-d ab' '--odd' '--help'; do
    for input in "$work"/csv/*; do
      name=$(basename "$input")
      (cd "$work/csv" && "$CSVTABLE" $arguments "$name") > "$work/wanted" 2> "$work/reported" || cat "$work/reported" >> "$work/wanted"
      "$@" $arguments "$name" < "$input" > "$work/drawn" 2> "$work/reported" || cat "$work/reported" >> "$work/drawn"
      cmp "$work/wanted" "$work/drawn"
    done
  done
  echo "$* draws as csvtable"
}

# In a terminal of 44 columns, the program's table isn't wider than the terminal, and it has colours, except with NO_COLOR. In a
# pipe, the table has neither this width nor colours.
try_in_terminal() {
  columns() { sed 's/.\[[0-9;]*m//g; s/\r//' "$work/drawn" | LC_ALL=C.UTF-8 wc -L; }
  colors() { grep -c '38;5;' "$work/drawn" || true; }
  script -qec "stty cols 44 && $1" /dev/null < /dev/null > "$work/drawn"
  [ "$(columns) $(colors)" = "44 2" ]
  NO_COLOR=1 script -qec "stty cols 44 && $1" /dev/null < /dev/null > "$work/drawn"
  [ "$(columns) $(colors)" = "44 0" ]
  "$1" > "$work/drawn"
  [ "$(columns) $(colors)" = "72 0" ]
  echo "$1 keeps to its terminal"
}

# An installed csvtable must draw as the built program does.
try_csvtable() {
  "$1/bin/csvtable" crates/csvtable/data/ledger.csv > "$work/drawn"
  "$CSVTABLE" crates/csvtable/data/ledger.csv | cmp - "$work/drawn"
}

# Runs dpkg in an empty root, for which it needs no rights of an administrator.
dpkg_in() {
  PATH=$PATH:/usr/sbin:/sbin dpkg --root="$root" --log=/dev/null --force-not-root "$@"
}

# A Debian package is installed into a root that has only the C library. The package must draw a table there. When the package is
# removed, none of its files may stay.
try_debian() {
  root=$(mktemp -d "$work/root.XXXXXX")
  mkdir -p "$root/var/lib/dpkg/info" "$root/var/lib/dpkg/updates"
  printf '%s\n' 'Package: libc6' 'Status: install ok installed' "Version: $(getconf GNU_LIBC_VERSION | cut -d ' ' -f 2)" \
    'Architecture: amd64' 'Maintainer: none' 'Description: the C library' > "$root/var/lib/dpkg/status"
  : > "$root/var/lib/dpkg/info/libc6.list"
  dpkg_in --install "$1" > /dev/null
  try_csvtable "$root/usr"
  zcat "$root/usr/share/man/man1/csvtable.1.gz" | cmp - share/csvtable.1
  ! command -v groff > /dev/null || [ -z "$(groff -man -Tutf8 -ww share/csvtable.1 2>&1 > /dev/null)" ]
  cmp share/csvtable.bash "$root/usr/share/bash-completion/completions/csvtable"
  cmp share/_csvtable "$root/usr/share/zsh/vendor-completions/_csvtable"
  cmp LICENSE "$root/usr/share/doc/csvtable/copyright"
  [ -z "$(dpkg_in --verify csvtable)" ]
  dpkg_in --remove csvtable > /dev/null
  [ "$(cd "$root" && echo *)" = var ]
  [ -z "$(find "$root/var" -name '*csvtable*')" ]
  echo "$(basename "$(dirname "$1")")/$(basename "$1") is installed and removed"
}

# Writes a project of cargo in a folder, with its source and, from standard input, the rest of its Cargo.toml:
# project NAME FILE SOURCE.
project() {
  mkdir -p "$work/$1/src"
  { printf '[package]\nname = "%s"\nversion = "8.0.1"\nedition = "2024"\n\n' "$1"; cat; } > "$work/$1/Cargo.toml"
  printf '%s\n' "$3" > "$work/$1/src/$2"
}

# If [patch.crates-io] names the package, the tables of another crate that depends on comfy-table must have the same type as the
# program's tables.
try_patch() {
  project between lib.rs 'pub fn table() -> comfy_table::Table { comfy_table::Table::new() }' <<END
[dependencies]
comfy-table = "8.0"
END
  project patched main.rs 'fn main() { let mut table: comfy_table::Table = between::table(); println!("{}", table.add_row(["a"])); }' <<END
[dependencies]
between = { path = "../between" }
comfy-table = { version = "8", features = ["custom_styling", "_debug", "_integration_test"] }

[patch.crates-io]
comfy-table = { path = "../crate/comfy-table" }
END
  printf '+---+\n| a |\n+---+\n' > "$work/wanted"
  (cd "$work/patched" && cargo run -q --offline) | cmp "$work/wanted" -
  echo "the package takes the place of comfy-table in two crates"
}

# With the lines of the README, a project uses the package on this target, and the original on others. Here the original is an
# empty crate.
try_targets() {
  project comfy-table lib.rs '' < /dev/null
  project anywhere lib.rs "$(sed -n '/^```rust,ignore/,/^```$/p' packages/rust/README.md | grep -v '^```')" <<END
$(sed -n '/^\[target/,/^```$/p' packages/rust/README.md | grep -v '^```' \
    | sed 's|path = "[^"]*"|path = "../crate"|; s|version = "8.0.1"|path = "../comfy-table"|')
END
  (cd "$work/anywhere" && cargo check -q --offline && cargo tree --offline -q) > "$work/drawn"
  (cd "$work/anywhere" && cargo tree --offline -q --target riscv64gc-unknown-linux-gnu) >> "$work/drawn"
  [ "$(sed -n 's/^└── \([^ ]*\) .*/\1/p' "$work/drawn" | tr '\n' ' ')" = "comfy_table_proved comfy-table " ]
  echo "a project has the package on one target and the original on another one"
}

# A build must say why it fails: it is for another target, the library is missing, or there is no such feature.
try_refusals() {
  refused() { # WORDS COMMAND..
    words=$1
    shift
    if (cd "$work/crate" && "$@" --offline) > "$work/reported" 2>&1; then
      echo "$*: no error" >&2
      return 1
    fi
    grep -qF "$words" "$work/reported"
  }
  refused "this build is for riscv64gc-unknown-linux-gnu" cargo check --target riscv64gc-unknown-linux-gnu
  refused "no libcomfy_c.a in $work/csv;" env COMFY_C="$work/csv" cargo build
  refused "has no feature reexport_crossterm" cargo check --features reexport_crossterm
  (cd "$work/crate" && COMFY_C="$work/csv" cargo check -q --offline && COMFY_C="$work/csv" cargo doc -q --offline)
}

# csvtable, from its archive, and from its Debian package by dpkg. If dpkg isn't installed, the package is only unpacked.
mkdir "$work/prefix" "$work/programs"
tar -C "$work/prefix" --strip-components=1 -xzf "$work"/packages/csvtable-*-linux-x86_64.tar.gz
try_csvtable "$work/prefix"
if command -v dpkg > /dev/null; then
  tried="Debian, $tried"
  try_debian "$work"/packages/*.deb
  try_debian "$work"/without_dpkg/*.deb
else
  mkdir "$work/root"
  ar p "$work"/packages/*.deb data.tar.xz | tar -C "$work/root" -xJf -
  try_csvtable "$work/root/usr"
fi

# C, by pkg-config if it is there.
tar -C "$work/prefix" --strip-components=1 -xzf "$work"/packages/comfy_table-*-linux-x86_64.tar.gz
if command -v pkg-config > /dev/null; then
  flags=$(PKG_CONFIG_PATH=$work/prefix/lib/pkgconfig pkg-config --cflags --libs comfy_table)
else
  flags="-I$work/prefix/include -L$work/prefix/lib -lcomfy_c -llibc_c"
fi
for example in csv rows cells; do
  ${CC:-cc} -O2 -Wall -Wextra -Werror "packages/c/examples/$example.c" $flags -o "$work/programs/$example"
done
compare_csv "$work/programs/csv"
for example in rows cells; do
  sed -n 's/^ \* \([+|].*\)/\1/p' "packages/c/examples/$example.c" > "$work/wanted"
  "$work/programs/$example" | sed 's/.\[[0-9;]*m//g' | cmp "$work/wanted" -
done

if command -v cargo > /dev/null; then
  tried="$tried, Rust"
  mkdir -p "$work/crate" "$work/project/src/bin"
  tar -C "$work/crate" --strip-components=1 -xzf "$work"/packages/*.crate
  # The examples call the package by the name of the original, as programs do that were written for the original.
  cp packages/rust/examples/*.rs "$work/project/src/bin"
  sed -i 's/comfy_table_proved/comfy_table/' "$work"/project/src/bin/*.rs
  cat > "$work/project/Cargo.toml" <<END
[package]
name = "project"
version = "0.1.0"
edition = "2024"

[dependencies]
comfy-table = { package = "comfy_table_proved", path = "../crate" }
END
  (cd "$work/project" && cargo build -q --offline)
  sed -n 's|^//! \([^P].*\)|\1|p' packages/rust/examples/boats.rs > "$work/wanted"
  "$work/project/target/debug/boats" | sed 's/.\[[0-9;]*m//g' | cmp "$work/wanted" -
  compare_csv "$work/project/target/debug/csv"
  try_in_terminal "$work/project/target/debug/bikes"
  try_patch
  try_targets
  try_refusals
  (cd "$work/crate" && cargo fmt --check)
  (cd "$work/crate" && cargo test -q --offline)
  (cd "$work/crate" && cargo test -q --offline --no-default-features)
  (cd "$work/crate" && cargo test -q --offline --features custom_styling)
fi

if command -v python3 > /dev/null; then
  tried="$tried, Python"
  python3 -m venv "$work/venv"
  "$work/venv/bin/pip" install -q --no-index --disable-pip-version-check "$work"/packages/*-manylinux*_x86_64.whl
  compare_csv "$work/venv/bin/python" packages/python/examples/draw_csv.py
  "$work/venv/bin/python" -m unittest discover -s packages/python/tests
  # If Debian's Python has the package tabulate, the stored answers of tabulate are compared with its present answers.
  if /usr/bin/python3 -c 'import tabulate' 2> /dev/null; then
    tried="$tried, tabulate"
    installed=$("$work/venv/bin/python" -c 'import sysconfig; print(sysconfig.get_path("platlib"))')
    PYTHONPATH=$installed /usr/bin/python3 -m unittest discover -s packages/python/tests -p 'test_tabulate.py'
  fi
  if command -v mypy > /dev/null; then
    tried="$tried, mypy"
    mypy --strict --no-incremental --cache-dir /dev/null packages/python/src/comfy_table_proved
  fi
fi
# The page, in Chromium if it is there.
if [ -e "$work/packages/csvtable.html" ]; then
  tools/try/browser.py "$work/packages/csvtable.html" "$CSVTABLE"
  ! command -v chromium > /dev/null || tried="$tried, Chromium"
fi

# Other targets, as far as they run here.
tools/try/other_targets.sh "$work/packages"

# An installer chooses a wheel by its tag alone. So the tag has to name what the library needs of the system.
case $(ls "$work/packages") in
  *manylinux_2_*) ;;
  *) echo "the wheel has no tag of manylinux" >&2; exit 1 ;;
esac
echo "tried: $tried"
