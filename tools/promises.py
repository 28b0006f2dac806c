#!/usr/bin/env python3
"""promises.py [DIR]: the public functions below DIR/crates (default: here) that ask something of their caller, or promise nothing.

A library's public entry, a public trait's method among them, has no `requires` and at least one `ensures`. Programs (src/main.rt) are passed over. Exit 1 where there is one."""
import pathlib, re, sys

top = pathlib.Path(sys.argv[1] if len(sys.argv) > 1 else '.')
bad = False
for file in sorted(top.glob('crates/*/src/**/*.rt')):
    crate = file.relative_to(top).parts[1]
    if (top / 'crates' / crate / 'src/main.rt').exists():
        continue
    lines = file.read_text().split('\n')
    in_trait = False
    for at, line in enumerate(lines):
        if line.startswith('pub trait ') or line == '}':
            in_trait = line != '}'
        if not re.match(r'\s*pub (extern "C" )?fn ', line) and not (in_trait and re.match(r'\s*fn ', line)):
            continue
        indent = len(line) - len(line.lstrip())
        head = [line]
        for more in lines[at + 1:at + 60]:
            if in_trait and head[-1].endswith(';'):
                break
            if more.strip() == '{' and len(more) - len(more.lstrip()) == indent:
                break
            if head[-1].rstrip().endswith('{') and not re.search(r'(requires|ensures)\b.*\{$', head[-1]):
                break
            head.append(more)
        text = '\n'.join(head)
        where = f'{file.relative_to(top)}:{at + 1}: {line.strip()}'
        if re.search(r'\brequires\b', text):
            print('asks    ', where)
            bad = True
        if not re.search(r'\bensures\b', text):
            print('is mute ', where)
            bad = True
sys.exit(bad)
