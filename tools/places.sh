#!/usr/bin/env bash
# Lists the places of src/ that docs/DESIGN-PASS.md counts: `tools/places.sh [FOLDER]`, FOLDER being a checkout (the one this script lies in, if none
# is given). Each list is of candidates; the page says which of them are places, and of what kind. Without -v only the numbers are printed.
set -u
export LC_ALL=C.UTF-8
long=0
[ "${1:-}" = -v ] && long=1 && shift
cd "${1:-$(dirname "$0")/..}" || exit 1

list() { # title, then lines on standard input
  local lines
  lines=$(cat)
  echo "$1: $(printf '%s' "$lines" | grep -c .)"
  if [ "$long" -eq 1 ] && [ -n "$lines" ]; then printf '%s\n' "$lines" | sed 's/^/    /'; fi
}

src() { grep -rnE "$1" crates/*/src --include='*.rt' | grep -vE ':[0-9]+: *//|ghost use'; }

src '^ *(pub )?enum ' | list 'enums'
src '\) -> (\(.*\bbool\)|bool|u8|[a-z:]*Result<bool>)' | list 'results that are a flag, a flag beside a value, or a number nobody reads'
src 'Result<[^;]*, (u64|usize)>|Result<Result<|Err\(AllocError\)|=> [0-9]+,$' | list 'errors that are a number, that are made by hand, or that are matched to a number'
src '^ *while |for [a-z_]+ in [^ ]*\.\.|\.enumerate\(\)' | list 'loops with a condition, over a range of numbers, or over numbered items'
src '\bfn (number|inside|copy_of|nearest|place|place_of|of_[a-z]+|record_of|call_of|token_of|spell|word_of|parts_named|[a-z]+_reason|tell_outcome|tell_pair|said|asked|slip|figures|totals|refused|told|words_of|bytes_of|call_from|answer_bytes|step_of|same_[a-z]+|precedes)\b' | list 'functions named as a conversion, a comparison or a printing'
src 'impl(<.*>)? (fmt::)?(Display|From|TryFrom|FromStr|PartialEq|Ord|PartialOrd)(<.*>)? for' | list 'impls of a conversion, an order or a printing'
src '\[[a-zA-Z0-9]+; (64|[A-Z_]+|[A-Z])\],$|Vec<|ArrayVec<' | list 'arrays and vectors'
python3 - <<'PY' | list 'facts that three or more contracts require'
import re, glob, collections
counts, where = collections.Counter(), collections.defaultdict(set)
for name in sorted(glob.glob('crates/*/src/**/*.rt', recursive=True)):
    for line in open(name, encoding='utf-8'):
        m = re.match(r'\s*requires( [a-z_]+)? \{ (.*) \}\s*$', line)
        if m:
            fact = re.sub(r'\b[a-z_]+\.(old|now|new)\b', 'X', m.group(2))
            counts[fact] += 1
            where[fact].add(name.split('/')[1])
for fact, n in counts.most_common():
    if n >= 3:
        print(n, fact, 'in', ', '.join(sorted(where[fact])))
PY
python3 - <<'PY' | list 'functions with five or more parameters'
import re, glob
for name in sorted(glob.glob('crates/*/src/**/*.rt', recursive=True)):
    text = open(name, encoding='utf-8').read()
    for m in re.finditer(r'\bfn (\w+)(<[^({]*>)?\(([^)]*)\)', text):
        many = [p for p in re.split(r',(?![^<]*>)', m.group(3)) if p.strip()]
        if len(many) >= 5:
            print(name[7:], m.group(1), len(many))
PY
src '\bmatch (step|command|call|parts|asked|self|kind)\b|\bdyn |impl Fn|: Fn(Once|Mut)?\(' | list 'switches, closures as parameters, and values of an open kind'
find crates/*/proofs -name Answers.antt -o -name Proof.antt 2>/dev/null | grep -v /out/ | list 'files of answers and proofs'
cat $(find crates/*/proofs crates/*/specs -name '*.antt' | grep -v /out/) | wc -l | sed 's/^/lines of specs and proofs: /'
