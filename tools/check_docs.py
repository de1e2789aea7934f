#!/usr/bin/env python3
"""Looks the names of two documents up.

    tools/check_docs.py

docs/PROMISES.md: names and files are what stands in backticks. Each name must be declared in one of the files of its line; a line without
a file is not looked at. `listing` is the name of a program there.

docs/TESTING.md, "Wrong programs": a crate and its edits, as `crate`: `edit`, `edit`. Each must be there, and each edit of a crate must be
named.
"""
import pathlib
import re
import sys

root = pathlib.Path(__file__).resolve().parent.parent
path = re.compile(r'^[a-z_]+/(?:specs|proofs)/\w+\.antt$')


def declared(name, files):
    head = re.compile(r'^\s*(?:pub |abbrev |unfoldable |record |data )*' + re.escape(name) + r'\s(?:.*:|\()', re.M)
    return any(head.search((root / 'crates' / f).read_text()) for f in files)


def promises():
    looked, wrong = 0, []
    for number, line in enumerate((root / 'docs/PROMISES.md').read_text().split('\n'), 1):
        words = re.findall(r'`([^`]+)`', line)
        files = [w for w in words if path.match(w)]
        for f in files:
            if not (root / 'crates' / f).exists():
                wrong.append(f'line {number}: there is no crates/{f}')
        files = [f for f in files if (root / 'crates' / f).exists()]
        if not files:
            continue
        for name in words:
            if re.match(r"^[A-Za-z][\w'-]*$", name) and name not in ('listing',):
                looked += 1
                if not declared(name, files):
                    wrong.append(f'line {number}: {name} is in none of its files')
    return looked, wrong


def edits():
    named = set()
    for line in (root / 'docs/TESTING.md').read_text().split('\n'):
        crate = None
        for word, colon in re.findall(r'`([a-z0-9_]+)`(:?)', line):
            if colon:
                crate = word
            elif crate:
                named.add((crate, word))
    there = {(f.parent.parent.name, f.stem) for f in (root / 'crates').glob('*/must-fail/*.edit')}
    wrong = [f'the edit {crate}/{edit} is not there' for crate, edit in sorted(named - there)]
    wrong += [f'the edit {crate}/{edit} is not named' for crate, edit in sorted(there - named)]
    return len(named), wrong


def main():
    looked, wrong = promises()
    tried, lost = edits()
    for w in wrong + lost:
        print('check_docs:', w)
    print(f'{looked} promises and {tried} wrong programs, {len(wrong + lost)} not found')
    return 1 if wrong or lost or not looked or not tried else 0


sys.exit(main())
