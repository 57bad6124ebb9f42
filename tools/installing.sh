# Functions that build and install programs. Scripts read this file in the top folder of the project.

# Builds a file of a crate's folder out/ by a command in the crate's folder, unless the file exists.
build() {
  crate=$1 made=$2
  shift 2
  [ -e "crates/$crate/out/$made" ] || (cd "crates/$crate" && "$@" > /dev/null < /dev/null)
}

# Copies a file with a mode into a folder below $prefix, under its own name or another one, and prints its path.
put() {
  mode=$1 file=$2 folder=$prefix/$3 name=${4:-$(basename "$2")}
  mkdir -p "$folder"
  cp "$file" "$folder/$name"
  chmod "$mode" "$folder/$name"
  echo "$folder/$name"
}

# Installs the library for C, with the library of the toolchain that it needs.
put_library() {
  build comfy_c libcomfy_c.a ../../tools/make/c_library.py
  put 644 packages/c/comfy_table.h include
  for file in packages/c/examples/*; do
    put 644 "$file" share/doc/comfy_table/examples
  done
  put 644 crates/comfy_c/out/libcomfy_c.a lib
  put 644 "$(dirname "$(rt doc)")/c/liblibc_c.a" lib
  put 644 packages/c/comfy_table.pc lib/pkgconfig
  tools/make/pages.py "$prefix" docs/PROVED.md=share/doc/comfy_table/PROVED.md docs/DIFFERENCES.md=share/doc/comfy_table/DIFFERENCES.md
}

# Installs the program csvtable with its pages and its completions. The program is in libexec/. bin/csvtable is a script that runs
# the program with the width of the terminal.
put_csvtable() {
  build csvtable csvtable rt run -- --version
  put 755 crates/csvtable/out/csvtable libexec
  put 755 share/csvtable.sh bin csvtable
  put 644 share/csvtable.1 share/man/man1
  put 644 share/csvtable.bash share/bash-completion/completions csvtable
  put 644 share/_csvtable share/zsh/site-functions
  tools/make/pages.py "$prefix" docs/CSVTABLE.md=share/doc/csvtable/CSVTABLE.md docs/PROVED.md=share/doc/csvtable/PROVED.md
}
