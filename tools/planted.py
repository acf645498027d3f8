#!/usr/bin/env python3
"""planted.py CRATE: for each row of tools/planted-CRATE.txt, plants the mistake in a copy of the repository, runs the program CRATE
unproved (`rt try`), and sees that it prints `N vectors, M differ` with M above 0, or, where its stdout is no such line, anything but its stdout, or
that it stops at a fault, as an index out of bounds. A row is NUMBER ~ FILE ~ OLD ~ NEW, OLD a text that stands once in FILE; other lines are passed
over. A mistake that does not compile, or with which the program prints nothing of the kind, is not caught. Run from the repository's top, outside
the gate; it ends with how many were caught."""
import glob
import os
import re
import shutil
import subprocess
import sys
import tempfile

crate = sys.argv[1]
rows = [line.rstrip('\n').split(' ~ ') for line in open(f'tools/planted-{crate}.txt') if ' ~ ' in line]
data = [word for path in glob.glob('data/*', root_dir=f'crates/{crate}') for word in ('--data', f'{os.path.basename(path)}={path}')]
stdout = open(f'crates/{crate}/stdout').read()


def tried(work):
    """How the program ends otherwise than with its stdout, empty if it does not and none if it does not say, and what `rt try` says."""
    run = subprocess.run(['rt', 'try', '--seconds', '300', *data], cwd=f'{work}/crates/{crate}', capture_output=True, text=True)
    if run.stdout == stdout:
        return '', run.stderr
    if 'run=fault' in run.stderr:
        return 'a fault', run.stderr
    if not re.fullmatch(r'\d+ vectors, 0 differ\n', stdout):
        return 'another output' if 'run=ended' in run.stderr else None, run.stderr
    line = re.fullmatch(r'\d+ vectors, (\d+ differ)\n', run.stdout)
    return line and line[1], run.stdout + run.stderr


caught = 0
with tempfile.TemporaryDirectory() as top:
    work = os.path.join(top, 'copy')
    shutil.copytree('.', work, ignore=shutil.ignore_patterns('target', '.git', 'oracle', 'out'))
    how, said = tried(work)
    if how != '':
        sys.exit(f'with nothing planted, the program does not print its stdout:\n{said}')
    for number, path, old, new in rows:
        path = os.path.join(work, path)
        text = open(path).read()
        if text.count(old) != 1:
            print(f'{number}: the old text stands {text.count(old)} times in {path}')
            continue
        open(path, 'w').write(text.replace(old, new))
        how, said = tried(work)
        open(path, 'w').write(text)
        if how:
            caught += 1
            print(f'{number}: caught, {how}', flush=True)
        elif how == '':
            print(f'{number}: NOT CAUGHT  {old} -> {new}', flush=True)
        elif 'run=none' not in said:
            print(f'{number}: PRINTS NO COUNT  {old} -> {new}\n{said}', flush=True)
        else:
            print(f'{number}: DOES NOT COMPILE  {old} -> {new}\n{said}', flush=True)
print(f'{caught} of {len(rows)} planted mistakes caught')
sys.exit(0 if caught == len(rows) else 1)
