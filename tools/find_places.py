#!/usr/bin/env python3
"""Looks for places of the design pass by shape, beside the patterns of count_places.sh.

    tools/find_places.py [FOLDER]

Prints pairs of functions whose bodies are alike by their tokens, enums with an empty variant
beside one with a value, and loops whose variable indexes something in the lines after it.
"""
import difflib
import glob
import itertools
import re
import sys

ALIKE = 0.72
SMALLEST = 18


def sources(folder):
    for path in sorted(glob.glob(folder + '/crates/*/src/**/*.rt', recursive=True)):
        with open(path) as file:
            yield path[len(folder) + 1:], file.read()


def body(text, start):
    """The text in the braces that open at `start`."""
    depth = 0
    for at in range(start, len(text)):
        depth += {'{': 1, '}': -1}.get(text[at], 0)
        if depth == 0:
            return text[start:at + 1]
    return text[start:]


def functions(folder):
    opening = re.compile(r'(?m)(^\s*\{$|\S \{$)')
    for path, text in sources(folder):
        text = re.sub(r'//.*', '', text)
        for name in re.finditer(r'\bfn (\w+)', text):
            found = opening.search(text, name.end())
            if found:
                tokens = re.findall(r'\w+|[^\w\s]', body(text, found.end() - 1))
                if len(tokens) >= SMALLEST:
                    yield path, name.group(1), tokens


def pairs(folder):
    for a, b in itertools.combinations(list(functions(folder)), 2):
        ratio = difflib.SequenceMatcher(None, a[2], b[2], autojunk=False).ratio()
        if ratio > ALIKE:
            yield ratio, f'{a[0]} {a[1]} | {b[0]} {b[1]}'


def option_like(folder):
    for path, text in sources(folder):
        for enum in re.finditer(r'enum (\w+) \{(.*?)\n\}', re.sub(r'//.*', '', text), re.S):
            variants = [v.strip() for v in enum.group(2).split(',\n') if v.strip()]
            empty = [v for v in variants if '(' not in v and '{' not in v]
            if len(variants) <= 3 and 0 < len(empty) < len(variants):
                yield f'{path} {enum.group(1)}'


def index_loops(folder):
    for path, text in sources(folder):
        lines = text.split('\n')
        for at, line in enumerate(lines):
            loop = re.match(r'\s*for (\w+) in ', line)
            if loop and loop.group(1) != '_':
                use = re.compile(r'(\[|get\(|get_mut\()[^\]]*\b' + loop.group(1) + r'\b')
                if any(use.search(after) for after in lines[at + 1:at + 14]):
                    yield f'{path} {at + 1}'


def main():
    folder = sys.argv[1].rstrip('/') if len(sys.argv) > 1 else '.'
    for title, found in (
        ('pairs alike', [f'{ratio:.2f} {pair}' for ratio, pair in sorted(pairs(folder), reverse=True)]),
        ('enums like an Option', list(option_like(folder))),
        ('loops that index', list(index_loops(folder))),
    ):
        print(f'{title}: {len(found)}')
        for line in found:
            print('   ', line)


main()
