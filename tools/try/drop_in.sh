#!/bin/sh
# Tests the package for Rust in programs that were written for comfy-table 8.0.1:
#  - The same code makes random tables with both libraries. Their drawings and all that can be read from them must be equal, except
#    for the differences in docs/DIFFERENCES.md. These are counted by the rows of that page. If escape sequences differ, each
#    character except white space must still have the same style.
#  - The examples in the original's README and doc comments must compile and run with the package. So must the original's own
#    tests, if the folder has them.
#
# usage: tools/try/drop_in.sh ORIGINAL [COUNT [SEED]]
# ORIGINAL is a folder with the sources of comfy-table and its Cargo.toml, in which cargo can build it. COUNT is the number of
# random tables, by default 100,000. The variable COMFY_C can name a folder with libcomfy_c.a and liblibc_c.a. If it isn't set,
# these files are built.
set -eu
if [ $# -lt 1 ]; then
  echo "usage: $0 ORIGINAL [COUNT [SEED]]" >&2
  exit 2
fi
original=$(cd "$1" && pwd)
count=${2:-100000}
seed=${3:-1}
cd "$(dirname "$0")/../.."
top=$PWD
work=$(mktemp -d)
trap 'rm -rf "$work"' EXIT
if [ -z "${COMFY_C-}" ]; then
  tools/make/c_library.py > /dev/null
  mkdir "$work/library"
  cp crates/comfy_c/out/libcomfy_c.a "$(dirname "$(rt doc)")/c/liblibc_c.a" "$work/library"
  export COMFY_C="$work/library"
fi
export CARGO_TARGET_DIR="$work/target" RUST_BACKTRACE=0

# Runs cargo on the package in a folder, with the original's settings for cargo: cargo_of FOLDER WORD..
cargo_of() {
  folder=$1
  shift
  (cd "$original" && cargo "$@" -q --manifest-path "$folder/Cargo.toml")
}

# The random tables.
mkdir -p "$work/tables/src"
cp tools/try/drop_in/*.rs "$work/tables/src"
cat > "$work/tables/Cargo.toml" <<TOML
[package]
name = "tables"
version = "0.1.0"
edition = "2024"

[features]
tty = []
custom_styling = ["comfy-table/custom_styling", "comfy_table_proved/custom_styling"]

[dependencies]
comfy-table = { path = "$original" }
comfy_table_proved = { path = "$top/packages/rust" }

[profile.release]
overflow-checks = true
TOML
for feature in tty custom_styling; do
  cargo_of "$work/tables" build --release --features "$feature"
  echo "$count random tables of seed $seed with the feature $feature, by difference:"
  "$work/target/release/tables" "$count" "$seed"
done

# The examples. The examples of each file become a module of a crate, which has the package under the original's name.
mkdir -p "$work/programs/src"
if [ -e "$original/README.md" ]; then
  cp "$original/README.md" "$work/programs/src"
  echo '#[doc = include_str!("README.md")] pub mod readme {}' > "$work/programs/src/lib.rs"
fi
for file in $(cd "$original" && find src -name '*.rs'); do
  name=$(echo "$file" | tr '/.' '__')
  sed -n 's|^ *//[/!] \{0,1\}||p' "$original/$file" > "$work/programs/src/$name.md"
  echo "#[doc = include_str!(\"$name.md\")] pub mod $name {}" >> "$work/programs/src/lib.rs"
done
cat > "$work/programs/Cargo.toml" <<TOML
[package]
name = "programs"
version = "0.1.0"
edition = "2024"

[features]
default = ["tty"]
tty = ["comfy-table/tty"]
custom_styling = ["comfy-table/custom_styling"]
reexport_crossterm = []
_integration_test = []

[dependencies]
comfy-table = { package = "comfy_table_proved", path = "$top/packages/rust", default-features = false }

$(awk '/^\[/ { is_of_tests = /^\[dev-dependencies/ } is_of_tests' "$original/Cargo.toml")
TOML
cargo_of "$work/programs" test --doc

# The original's own tests.
status=0
if [ -d "$original/tests" ]; then
  cp -r "$original/tests" "$work/programs"
  for feature in tty custom_styling; do
    cargo_of "$work/programs" test --tests --no-fail-fast --features "$feature" || status=1
  done
fi
exit $status
