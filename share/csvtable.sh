#!/bin/sh
# csvtable with the width of its terminal, which the program can't ask for: installed as bin/csvtable. It starts no program but
# stty before csvtable, and readlink if it is called by a link.
if [ -z "${COLUMNS-}" ] && [ -t 1 ]; then
  { COLUMNS=$(stty size <&3); } 3<&1 2>/dev/null
  COLUMNS=${COLUMNS#* }
  [ -z "$COLUMNS" ] || export COLUMNS
fi
command=$0
[ ! -h "$command" ] || command=$(readlink -f "$command")
case $command in
  */*) exec "${command%/*}/../libexec/csvtable" "$@" ;;
  *) exec ../libexec/csvtable "$@" ;;
esac
