#!/bin/sh
# Checks that a line from split_line_ref can't outlive its text: a program in which it does must not compile. A program in which
# the line ends first must compile and print the line. Nothing is proved.
#
# usage: tools/try/outliving_line.sh
set -u
top=$(cd "$(dirname "$0")/../.." && pwd) || exit 2
work=$(mktemp -d) || exit 2
trap 'rm -rf "$work"' EXIT
mkdir -p "$work/crates/line/src" || exit 2
for name in cluster_width comfy_parts; do
  mkdir "$work/crates/$name" || exit 2
  cp -R "$top/crates/$name/src" "$top/crates/$name/specs" "$work/crates/$name" || exit 2
  grep "^$name:" "$top/crates.txt" >> "$work/crates.txt" || exit 2
done
echo 'line: comfy_parts' >> "$work/crates.txt"

# Tries a program that drops a text before its lines are printed, or after that: try BEFORE AFTER.
try() {
  cat > "$work/crates/line/src/main.rt" << END
//! A line that is borrowed from its text.
#![tactic(auto)]

use comfy_parts::Column;
use comfy_parts::content_split::{ColumnDisplayInfo, split_line_ref};
use std::io;

fn main(rt: HostRuntime) -> io::Result<()> {
    let info = ColumnDisplayInfo::new(&Column::new(0), 2);
    let text = String::from_str(rt.alloc(), "ab cd")?;
    let Ok(lines) = split_line_ref(rt.alloc(), text.as_str(), &info, ' ') else {
        return Ok(());
    };
    $1
    for line in lines {
        println!(rt; "line {line}")?;
    }
    $2
    Ok(())
}
END
  (cd "$work/crates/line" && rt try < /dev/null > "$work/reported" 2>&1)
}

try '' 'drop(text);'
if [ "$(grep '^line ' "$work/reported" | tr '\n' ' ')" != 'line ab line cd ' ]; then
  echo "$0: a line that ends before its text wasn't printed" >&2
  cat "$work/reported" >&2
  exit 1
fi
try 'drop(text);' ''
if ! grep -q 'error\[borrow-e0505\].*`text`' "$work/reported"; then
  echo "$0: a line that outlives its text wasn't refused" >&2
  cat "$work/reported" >&2
  exit 1
fi
grep 'error\[' "$work/reported"
