#!/usr/bin/env python3
"""computes.py: writes crates/spec/specs/Computes.antt anew, which names every definition of crates/spec and of those that it is written with.
It is run after a definition is added, renamed or removed."""
import os, re

os.chdir(os.path.dirname(os.path.dirname(os.path.abspath(__file__))))

def definitions(crate):
    for file in sorted(os.listdir(f'crates/{crate}/specs')):
        if file in ('Lib.antt', 'Computes.antt', 'Examples.antt', 'Script.antt', 'Demand.antt'):
            continue
        text = open(f'crates/{crate}/specs/{file}').read()
        names = re.findall(r'(?m)^ *unfoldable pub (\S+) :', text)
        for block in re.findall(r'(?ms)^ *unfoldable mutual\n(.*?)(?=^\S|\Z)', text):
            names += re.findall(r'(?m)^ +pub (\S+) :', block)
        for name in names:
            yield f'Rattle.{crate}.specs.{file[:-5]}.{name}'

modules = {}
for name in [*definitions('words'), *definitions('spec')]:
    path, leaf = re.match(r'(.*?)\.([^.]+)$', name).groups()
    modules.setdefault(path, []).append(leaf)
lines = ['-- Written by tools/computes.py. Whoever unfolds `computes` unfolds every definition, so that an example is computed whole.']
opened = []
for path, leaves in modules.items():
    short = path.split('.')[-1]
    lines.append(f'use {path} as {short}')
    opened += [f'{short}.{leaf}' for leaf in leaves]
lines += ['', 'unfoldable pub computes : Unit {0}', 'unfolding ' + ' '.join(opened), 'computes = tt', '']
open('crates/spec/specs/Computes.antt', 'w').write('\n'.join(lines))
