#!/usr/bin/env bash
# Checks each program of refused_programs/ in a throw-away copy of the crates, and demands what its first line expects:
#   // expect: error[NAME]   the check fails, and NAME is the only error that it prints
#   // expect: accepted      the check proves the program
# It prints a line for each program, and 'N passed, M failed' at its end. Libraries that are proved already are not proved again.
set -u
cd "$(dirname "$0")/.."
rt=${RT:-rt}
deps='link slot_clock waiting_line tick_machine'
copy=$(mktemp -d)
trap 'rm -rf "$copy"' EXIT

# the libraries that the programs may use, and what they use themselves
libraries='tick_machine heap_order waiting_line slot_clock link'
mkdir -p "$copy/crates/trial/src"
for c in $libraries; do
    mkdir "$copy/crates/$c"
    for part in src specs proofs; do
        [ ! -d "crates/$c/$part" ] || cp -r "crates/$c/$part" "$copy/crates/$c/"
    done
    grep "^$c:" crates.txt >>"$copy/crates.txt"
done
echo "trial: $deps" >>"$copy/crates.txt"

log=$copy/log
if ! (cd "$copy/crates/link" && "$rt" check) >"$log" 2>&1; then
    tail -n 20 "$log"
    echo 'the libraries are not proved, so that no program can be tried'
    exit 2
fi

passed=0 failed=0
for text in refused_programs/*.txt; do
    name=$(basename "$text" .txt)
    expected=$(sed -n '1s|^// expect: ||p' "$text")
    cp "$text" "$copy/crates/trial/src/main.rt"
    (cd "$copy/crates/trial" && "$rt" check) >"$log" 2>&1
    status=$?
    errors=$(grep -o 'error\[[a-z0-9-]*\]' "$log" | sort -u | tr '\n' ' ')
    case $expected in
    accepted) [ "$status" -eq 0 ] && [ -z "$errors" ] ;;
    'error['*']') [ "$status" -eq 1 ] && [ "$errors" = "$expected " ] ;;
    *) false ;;
    esac
    if [ $? -eq 0 ]; then
        passed=$((passed + 1))
        echo "$name: $expected"
    else
        failed=$((failed + 1))
        echo "$name: FAILED: expected ${expected:-nothing, for its first line does not say}, status $status, errors: ${errors:-none}"
        grep -v ': proved' "$log" | tail -n 12 | sed 's/^/    /'
    fi
done
echo "$passed passed, $failed failed"
[ "$failed" -eq 0 ] && [ "$passed" -gt 0 ]
