#!/usr/bin/env python3
"""seams.py: the proofs above crates/xoodoo that open a definition of the permutation. A session knows it only by its promise.

The marked cases and the claims about the permutation itself, in crates/theorems, may open it."""
import pathlib
import re
import sys

names = re.findall(r'^(?:unfoldable|abbrev) pub (\S+)', pathlib.Path('crates/xoodoo/specs/Xoodoo.antt').read_text(), re.M)
bad = False
for file in sorted(p for f in ('specs', 'proofs') for p in pathlib.Path('crates').glob('*/' + f + '/**/*.antt')):
    if file.parts[1] in ('laws', 'xoodoo', 'theorems'):
        continue
    text = file.read_text()
    brought = set()
    for group in re.findall(r'^use Rattle\.xoodoo\.specs\.Xoodoo\.\{(.*)\}$', text, re.M):
        brought |= {n.strip() for n in group.split(',')}
    for line in re.findall(r'^\s*unfolding (.*)$', text, re.M):
        for name in set(line.split()) & brought & set(names):
            print('%s: opens `%s` of the permutation' % (file, name))
            bad = True
# a function may open definitions by its attribute
for file in sorted(pathlib.Path('crates').glob('*/src/**/*.rt')):
    if file.parts[1] in ('laws', 'xoodoo', 'theorems'):
        continue
    for opened in re.findall(r'unfolding\(([^)]*)\)', file.read_text()):
        for name in set(re.findall(r'xoodoo::specs::Xoodoo::(\S+?)\s*(?:,|$)', opened)) & set(names):
            print('%s: opens `%s` of the permutation' % (file, name))
            bad = True
sys.exit(bad)
