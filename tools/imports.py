#!/usr/bin/env python3
"""imports.py [--fix] [DIR]: the names that a file of specs/, proofs/ or src/ below DIR/crates brings in and never uses.

Prints one line for each and exits with 1 where there is one; --fix removes them."""
import pathlib
import re
import sys

USE = re.compile(r'^(ghost )?use (\S+?)(?:\.\{(.*)\})?( as [^\s;]+)?(;?)$')
WORD = re.compile(r"[^\s(){};,.]+")


def used(name, words):
    name = name.split(' as ')[-1].strip()
    if name.startswith('syntax '):
        return True
    # an operator has a ring where its arguments go
    return name in words or all(p in words for p in name.split('◌') if p) or '«%s»' % name in words


def check(path, fix):
    lines = path.read_text().split('\n')
    body = [l for l in lines if not USE.match(l)]
    code = [l.split('--')[0] if path.suffix == '.antt' else l.split('//')[0] for l in body]
    words = set(w for l in code for w in WORD.findall(l))
    kept, found = [], []
    for line in lines:
        m = USE.match(line)
        if not m or (path.suffix == '.rt' and not m.group(1)):
            kept.append(line)
            continue
        if m.group(3) is None:
            alias = (m.group(4) or '').replace(' as ', '').strip() or m.group(2).split('.')[-1]
            if any(w == alias or w.startswith(alias + '.') for l in code for w in re.findall(r"[^\s(){};,]+", l)):
                kept.append(line)
            else:
                found.append(alias)
            continue
        names = [n.strip() for n in m.group(3).split(',')]
        good = [n for n in names if used(n, words)]
        found += [n for n in names if n not in good]
        if good:
            kept.append('%suse %s.{%s}%s' % (m.group(1) or '', m.group(2), ', '.join(good), m.group(5)))
    if found:
        print('%s: not used: %s' % (path, ', '.join(found)))
        if fix:
            path.write_text('\n'.join(kept))
    return bool(found)


def main():
    fix = '--fix' in sys.argv
    rest = [a for a in sys.argv[1:] if a != '--fix']
    top = pathlib.Path(rest[0] if rest else '.')
    folders = ('src', 'specs', 'proofs')
    files = [p for kind in ('*.antt', '*.rt') for f in folders for p in sorted(top.glob('crates/*/' + f + '/**/' + kind))]
    bad = [p for p in files if check(p, fix)]
    sys.exit(1 if bad else 0)


main()
