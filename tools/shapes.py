#!/usr/bin/env python3
"""tools/shapes.py [--lines N] [--same] DIR..: runs of N or more lines (default 6) that stand twice below these folders with the same shape:
every name and number counts as one; with --same, to the letter. Imports, comments and closing brackets are left out. One line a pair,
the longest first, and at the end how many there are."""
import os
import re
import sys

WORD = re.compile(r"[^\s(){}\[\];,.:=→λ×≡∷⌜⌝+\-*/%<>|&!]+")
LEFT_OUT = ('use ', 'pub use ', 'ghost use ', '--', '//', 'mod ', 'pub mod ', '}', ')')


def lines_of(path, same):
    with open(path, encoding='utf-8') as file:
        for number, line in enumerate(file, 1):
            text = line.strip()
            if text and not text.startswith(LEFT_OUT):
                yield number, text if same else WORD.sub('x', text)


def pairs_in(files, least):
    seen = {}
    for name, lines in files.items():
        for at in range(len(lines) - least + 1):
            seen.setdefault(tuple(text for _, text in lines[at:at + least]), []).append((name, at))
    for run, places in seen.items():
        if len(set(run)) < 4:
            continue
        for i, (left, a) in enumerate(places):
            for right, b in places[i + 1:]:
                if left == right and b - a < least:
                    continue
                one, other = files[left], files[right]
                if a and b and one[a - 1][1] == other[b - 1][1]:
                    continue
                n = 0
                while a + n < len(one) and b + n < len(other) and one[a + n][1] == other[b + n][1]:
                    n += 1
                yield n, f'{left}:{one[a][0]}', f'{right}:{other[b][0]}'


def main(words):
    least, same = 6, '--same' in words
    words = [word for word in words if word != '--same']
    if '--lines' in words:
        at = words.index('--lines')
        least = int(words[at + 1])
        del words[at:at + 2]
    files = {}
    for folder in words or ['crates']:
        for root, _, names in os.walk(folder):
            for name in sorted(names):
                if name.endswith(('.rt', '.antt')) and '/out' not in root:
                    path = os.path.join(root, name)
                    files[path] = list(lines_of(path, same))
    found = sorted(set(pairs_in(files, least)), key=lambda pair: (-pair[0], pair))
    for n, left, right in found:
        print(f'{n} lines: {left} and {right}')
    print(f'{len(found)} pairs')


main(sys.argv[1:])
