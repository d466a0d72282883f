#!/usr/bin/env bash
# Every folder in crates/ is listed in crates.txt, and every listed crate has a folder.
set -u
bad=0
listed=$(sed -nE 's/^[[:space:]]*([a-z][a-z0-9_]*)([[:space:]]+staticlib)?[[:space:]]*:.*/\1/p' crates.txt)
for folder in crates/*/; do
  name=$(basename "$folder")
  grep -qx "$name" <<<"$listed" || { echo "crates/$name is not listed in crates.txt"; bad=$((bad + 1)); }
done
for name in $listed; do
  [ -d "crates/$name" ] || { echo "$name is listed in crates.txt and has no folder"; bad=$((bad + 1)); }
done
echo "$(wc -w <<<"$listed") passed, $bad failed"
[ "$bad" -eq 0 ]
