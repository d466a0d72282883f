#!/bin/sh
# Builds the two slot clocks and the driver, and prints a table of times. Not a part of the gate.
set -e
cd "$(dirname "$0")/.."
(cd crates/clock_bench && rt lib >/dev/null)
mkdir -p target/bench
cc -O2 -Wall -Wextra -o target/bench/clocks bench/clocks.c crates/clock_bench/out/libclock_bench.a
echo "best of several runs; load when begun: $(cut -d' ' -f1-3 /proc/loadavg), $(nproc) processors"
target/bench/clocks
