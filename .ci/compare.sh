#!/usr/bin/env bash
# The history program, in all four combinations of its parts, against the simulator on a fixed set of histories.
set -u
program=crates/history_cli/out/history_cli
log=$(mktemp)
# it is built where that was not done yet, and proved before it is built
if ! (cd crates/history_cli && rt run </dev/null) >"$log" 2>&1; then
  tail -n 20 "$log"
  rm -f "$log"
  echo "$program is not built"
  exit 1
fi
rm -f "$log"
exec python3 simulator/compare.py "$program heap-step" "$program heap-jump" "$program sorted-step" "$program sorted-jump"
