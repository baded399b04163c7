#!/usr/bin/env python3
"""Counts, for docs/DESIGN-PASS.md, the places of crates/*/src that are written in an older form. With --list it says each.

Points 1 to 7 are those of that page. Each is a list of patterns over lines, but for 2, which compares the bodies of functions with every
name and number blotted out, and 5, which looks at whole heads of functions."""
import collections
import glob
import os
import re
import sys

os.chdir(os.path.join(os.path.dirname(os.path.abspath(__file__)), '..') if len(sys.argv) < 2 or sys.argv[-1].startswith('-') else sys.argv[-1])

LINES = {
    1: [
        ('an own enum with a case for a refusal or for nothing', r'^    (No|Cut|Above|Unread|Refused)(\(.*\))?,$'),
        ('a number that is asked whether it stands for none', r'\bnumber (==|!=) 0\b'),
        ('a refusal by its number', r'\b(Refused|refuse\w*|refused\w*|too_short)\((?:[^()]|\([^()]*\))*\b[0-9]+\b|\bnumber: [1-9]'),
        ('a number that stands for none', r'\bNONE\b|_ => 16\b'),
        ('a number for a kind', r'\b(group|kind|code|nots|profile|last): (usize|u8)\b'),
    ],
    3: [
        ('a loop that counts or takes by hand', r'^\s*while '),
    ],
    4: [
        ('numbers of two newtypes compared', r'\.0 (==|!=) [\w.]+\.0\b'),
        ('a cast where the library has a conversion that is always right', r'\b(?!u64)\w[\w.\[\]]* as (u16|usize)\b'),
        ('a test turned into a number', r'\{ 1 \} else \{ 0 \}'),
        ('the smaller or the larger by hand', r'if (\w+) <=? (\w+) \{ (\1|\2) \} else \{ (\1|\2) \}'),
        ('a conversion with a name of its own', r'^(pub )?fn (\w+_of|of_byte)\((row|b|certainty): \w+\)|^    pub fn (of_byte|refused|by|under_old_code)\('),
    ],
    6: [
        ('a table with a length beside it', r'\b(table|named|fresh|chosen|values|levels|candidates|case): &(mut )?\[[^\]]*\], (n|m|count|end|at): usize'),
    ],
    7: [
        ('a switch on which step to run', r'match (task|code) \{$'),
    ],
}


def functions():
    for path in sorted(glob.glob('crates/*/src/**/*.rt', recursive=True)):
        lines = open(path).read().split('\n')
        k = 0
        while k < len(lines):
            found = re.match(r'^( *)(pub |pub\(crate\) )?(extern "C" )?fn (\w+)', lines[k])
            if not found:
                k += 1
                continue
            end = k
            while not (lines[end] == found.group(1) + '}' or (end > k and lines[end].endswith(' }') and lines[end].startswith(found.group(1) + '{'))):
                end += 1
                if end == len(lines):
                    break
            yield path, k + 1, found.group(4), lines[k:end + 1], found.group(1)
            k = end + 1


def by_lines(point):
    for path in sorted(glob.glob('crates/*/src/**/*.rt', recursive=True)):
        for number, line in enumerate(open(path), 1):
            if line.lstrip().startswith(('//', 'ghost', 'requires', 'ensures')):
                continue
            for what, pattern in LINES[point]:
                if re.search(pattern, line.rstrip('\n')):
                    yield what, path, number, line.strip()


def twins():
    groups = collections.defaultdict(list)
    for path, number, name, lines, indent in functions():
        start = next((k for k, line in enumerate(lines) if line == indent + '{' or line.endswith(' {')), 0)
        body = ' '.join(re.sub(r'//.*', '', line) for line in lines[start + 1:])
        tokens = re.findall(r'[A-Za-z_]\w*|\d[\w]*|::|=>|->|[^\s\w]', body)
        keep = {'let', 'mut', 'if', 'else', 'match', 'for', 'while', 'in', 'return', 'true', 'false', 'as'}
        shape = [t if t in keep or not re.match(r'\w', t) else 'x' for t in tokens]
        if len(shape) >= 24:
            groups[' '.join(shape)].append((path, number, name))
    for members in groups.values():
        if len(members) > 1:
            names = ', '.join(name for _, _, name in members)
            for path, number, name in members[1:]:
                yield 'functions of one shape', path, number, names


def travelling():
    facts = collections.defaultdict(list)
    for path, number, name, lines, indent in functions():
        head = ' '.join(lines[:next((k for k, line in enumerate(lines) if line == indent + '{'), len(lines))])
        if re.search(r'counts: Counts, +rows: &\[u16\], +tables: &\[u64\]', head):
            yield 'the case and what is prepared for it in three parameters', path, number, name
        elif re.search(r'counts: Counts, +rows: &\[u16\]', head):
            yield 'the case in two parameters', path, number, name


def main():
    show = '--list' in sys.argv
    for point in (1, 2, 3, 4, 5, 6, 7):
        found = list(twins() if point == 2 else travelling() if point == 5 else by_lines(point))
        print(f'point {point}: {len(found)}')
        for what, count in sorted(collections.Counter(f[0] for f in found).items()):
            print(f'    {count:4} {what}')
        if show:
            for what, path, number, text in found:
                print(f'        {path}:{number}: {text}')


main()
