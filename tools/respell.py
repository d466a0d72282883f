#!/usr/bin/env python3
"""Respells the names that this repository declares in specs/ and proofs/: words in snake case, types and facts in camel case, a prime as an apostrophe.

It was run once, right after the kit's own script had turned an older repository; docs/PORT.md says when. Run it at the top of a checkout:

    python3 tools/respell.py          rename
    python3 tools/respell.py --list   print each name with its new spelling, and change nothing

A name is renamed where it stands as a whole word in specs/, proofs/, the clauses of src/ and the pages of docs/ (there between backticks).
Names that Rattle makes (in Answers.antt, Invariants.antt and Choices.antt) and names of std keep theirs.
"""
import glob
import os
import re
import sys

WORD = r"[A-Za-zℕℤ_][A-Za-z0-9_'′ℕℤ₀-₉≤<≡+*∷-]*"
MADE = ('Answers.antt', 'Invariants.antt', 'Choices.antt', 'Proof.antt')


def spelled(name):
    name = name.replace('′', "'")
    parts = name.split('-')
    if len(parts) == 1:
        return name
    if name[0].isupper():
        return ''.join(p[:1].upper() + p[1:] for p in parts)
    return '_'.join(parts)


def code_of(line):
    """The line without its comment: the code, and the rest."""
    m = re.search(r'(^|\s)--(\s|$)', line)
    return (line[:m.start()], line[m.start():]) if m else (line, '')


def declared(path):
    names = set()
    for line in open(path, encoding='utf-8'):
        code, _ = code_of(line)
        m = re.match(r'\s*(?:(?:pub|abbrev|unfoldable|data|record|mutual|\|)\s+)*(' + WORD + r')\s*(?:[({].*)?:(\s|$)', code)
        if m:
            names.add(m.group(1))
        m = re.match(r'\s*(?:pub\s+)?(?:data|record)\s+(' + WORD + r')', code)
        if m:
            names.add(m.group(1))
        # several fields or constructors in one line: 'pub a b : T'
        m = re.match(r'\s*(?:pub\s+)?((?:' + WORD + r'\s+)+' + WORD + r')\s*:\s', code)
        if m and not re.match(r'\s*(use|module|open|unfolding)\b', code):
            names.update(w for w in m.group(1).split() if w not in ('pub', 'abbrev', 'unfoldable', 'data', 'record'))
    return names


def main():
    antt = [p for p in glob.glob('crates/*/**/*.antt', recursive=True) if '/out/' not in p]
    own = set()
    for p in antt:
        if os.path.basename(p) not in MADE:
            own |= declared(p)
        else:
            # helpers beside the goals' answers: those that no goal has the name of
            text = open(p, encoding='utf-8').read()
            own |= {n for n in declared(p) if not re.search(r'(^|\n)\s*(abbrev pub|pub)\s+' + re.escape(n) + r'\s*:\s*goal\.', text) and 'goal' not in n and re.search(r'(^|\n)' + re.escape(n) + r'\s*:\s', text)}
    names = {n: spelled(n) for n in own if spelled(n) != n}
    # a name that std has too is left alone where a file imports it from std
    word = re.compile(r"(?<![A-Za-z0-9_'′ℕℤ₀-₉≤<≡+*∷-])(" + WORD + ')')
    tokens = {}
    foreign = set()
    rt = glob.glob('crates/*/src/**/*.rt', recursive=True)
    for p in antt + rt:
        text = open(p, encoding='utf-8').read()
        for w in word.findall(text):
            tokens.setdefault(w, set()).add(p)
        for m in re.finditer(r'use\s+(Rattle\.std\.[A-Za-z0-9_.]+|borrow\.[A-Za-z.]+|antt\.[A-Za-z.]+|mathlib\.[A-Za-z.]+)\.\{([^}]*)\}', text):
            foreign.update(w.strip().split(' as ')[0] for w in m.group(2).split(','))
        for m in re.finditer(r'goal\.(' + WORD + ')|Goals\.\\{([^}]*)\\}', text):
            foreign.update([m.group(1)] if m.group(1) else [w.strip() for w in m.group(2).split(',')])
    bad = 0
    for old in sorted(names):
        new = names[old]
        if old in foreign:
            print('std or a goal has it too:', old)
            bad += 1
        if new in tokens or list(names.values()).count(new) > 1:
            print('falls together:', old, '->', new, sorted(tokens.get(new, []))[:3])
            bad += 1
    if '--list' in sys.argv:
        for old in sorted(names):
            print(old, names[old])
        print(len(names), 'names,', bad, 'to look at')
        return

    def turned(text):
        return word.sub(lambda m: names.get(m.group(1), m.group(1)) if m.group(1) not in foreign else m.group(1), text)

    for p in antt:
        lines = open(p, encoding='utf-8').read().split('\n')
        out = []
        for line in lines:
            code, rest = code_of(line)
            out.append(turned(code) + rest)
        open(p, 'w', encoding='utf-8').write('\n'.join(out))
    for p in rt:
        lines = open(p, encoding='utf-8').read().split('\n')
        out = []
        for line in lines:
            if re.match(r'\s*(ghost|requires|ensures|/\*|\()', line) or re.match(r'\s*(ghost|requires|ensures)', line) or '◌' in line or '≡' in line:
                line = turned(line)
            out.append(line)
        open(p, 'w', encoding='utf-8').write('\n'.join(out))
    for p in glob.glob('docs/*.md') + ['README.md']:
        if os.path.exists(p) and not p.endswith('PORT.md'):
            text = open(p, encoding='utf-8').read()
            text = re.sub(r'`[^`\n]*`', lambda m: turned(m.group(0)), text)
            open(p, 'w', encoding='utf-8').write(text)
    print(len(names), 'names respelled')


if __name__ == '__main__':
    main()
