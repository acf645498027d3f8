#!/usr/bin/env python3
"""dropped.py: drops the pass over bit-field releases from the definition in a copy of the repository, and sees that the prover notices in the code
alone: the definition is proved still, since demand 3 does not speak of releases, and of compare's functions just those that run the passes by their
numbers, and what calls them up to `check`, are not proved. It is no must-fail edit, since those change one crate and look at that crate. Run from
the repository's top, outside the gate; it takes as long as proving verdicts and compare (what lies below is taken from earlier checks)."""
import os
import re
import shutil
import subprocess
import sys
import tempfile

PATH = 'crates/definition/specs/Compare.antt'
OLD = '    ∷ check_bitfield_releases (required cur.release) cur.bitfields rel.bitfields\n'
NEW = '    ∷ pass\n'
RUNNERS = ['check_declared', 'check_laid', 'check_lent', 'check_passes', 'check_prepared', 'check_sized', 'check_types', 'compare']
UNPROVED = ['compare::check::check'] + ['compare::compare::' + name for name in RUNNERS]


def checked(work, crate):
    run = subprocess.run(['rt', 'check'], cwd=os.path.join(work, 'crates', crate), capture_output=True, text=True)
    return run.returncode, run.stdout + run.stderr


with tempfile.TemporaryDirectory() as top:
    work = os.path.join(top, 'copy')
    shutil.copytree('.', work, ignore=shutil.ignore_patterns('.git', 'oracle', 'target', 'out'))
    path = os.path.join(work, PATH)
    text = open(path).read()
    if text.count(OLD) != 1:
        sys.exit(f'the pass stands {text.count(OLD)} times in {PATH}')
    open(path, 'w').write(text.replace(OLD, NEW))
    status, printed = checked(work, 'definition')
    if status != 0:
        sys.exit(f'the definition without the pass is not proved:\n{printed}')
    status, printed = checked(work, 'compare')
found = sorted(name for name, end in re.findall(r'^fn (\S+): (.*)$', printed, re.M) if end != 'proved')
print('not proved: ' + (', '.join(found) or 'none'))
sys.exit(0 if status == 1 and found == UNPROVED else printed)
