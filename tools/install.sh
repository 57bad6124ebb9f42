#!/bin/sh
# Installs the programs ctable and csvtable, csvtable's man page, and csvtable's completions for bash and zsh. It also installs the
# library for C, with its header and its file for pkg-config. Programs that aren't built yet are proved and built first. To
# uninstall, remove the files whose names are printed.
#
# usage: tools/install.sh PREFIX, for example tools/install.sh /usr/local
# If the variable DESTDIR is set, it comes before PREFIX in each path.
set -eu
if [ $# -ne 1 ]; then
  echo "usage: $0 PREFIX" >&2
  exit 2
fi
prefix=${DESTDIR:-}$1
cd "$(dirname "$0")/.."
. tools/installing.sh

build ctable ctable rt run
put 755 crates/ctable/out/ctable bin
put_csvtable
put_library
