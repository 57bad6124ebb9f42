#!/bin/sh
# Checks a crate, and then each crate above it, in the order of crates.txt. It stops at the first crate that isn't proved, and
# names the crates that it didn't check. The status is 0 if all are proved, 1 if one isn't, and 2 if CRATE is wrong.
#
#     tools/check/above.sh CRATE
set -u
cd "$(dirname "$0")/../.." || exit 2
[ $# -eq 1 ] && grep -q "^$1[ :]" crates.txt || { sed -n '2,5s/^# *//p' "$0" >&2; exit 2; }
failed=
for crate in $(awk -F '[ :]' -v on="$1" '/^[a-z]/ { for (i = 1; i <= NF; i++) if ($i == on || $i in above) { above[$1]; print $1; next } }' crates.txt); do
    if [ -n "$failed" ]; then echo "$crate: not checked"; continue; fi
    start=$(date +%s)
    if reported=$(cd "crates/$crate" && rt check 2>&1 </dev/null); then
        echo "$crate: proved, $(($(date +%s) - start)) seconds"
    else
        failed=$crate
        printf '%s\n%s: not proved\n' "$(printf '%s' "$reported" | tail -n 40)" "$crate"
    fi
done
[ -z "$failed" ]
