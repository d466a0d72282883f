#!/usr/bin/env bash
# No file speaks of papers outside the repository, and the proofs assume nothing.
set -u
bad=0
files=$(git ls-files | grep -vE '^\.ci/stands_alone\.sh$')
rows=$(grep -nIiE '\b(documents?|papers?|demands?|change requests?)[ -]*(no\.?|nr\.?|number|#)?[ -]*[0-9]+\b|\b(scope|planning) (paper|page|document)\b' $files)
[ -z "$rows" ] || { echo "$rows"; bad=$((bad + 1)); }
rows=$(grep -nE '\b(lem|ac)\b' $(git ls-files 'crates/*.antt') | grep -vE ':[[:space:]]*--' | grep -E '(^|[ ({.])(lem|ac)([ )}.,;]|$)')
[ -z "$rows" ] || { echo "$rows"; bad=$((bad + 1)); }
echo "$((2 - bad)) passed, $bad failed"
[ "$bad" -eq 0 ]
