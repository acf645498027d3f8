#!/usr/bin/env python3
"""samples.py SAMPLES..: computes the definition on the oracle's samples. SAMPLES are files of JSON lines from `oracle samples`. Copies the repository
to a temporary folder, adds a crate `samples` whose theorems say that the definition gives each answer, by computation alone (`refl`), and has it
checked. Run from the repository's top, outside the gate."""
import glob
import json
import os
import re
import shutil
import subprocess
import sys
import tempfile

BATCH = 12
CRATES = ['texts', 'record', 'layout', 'definition']
HEAD = '''use mathlib.Core.Path.{◌≡◌, refl}
use mathlib.Core.List.{List, [], ◌∷◌}
use Rattle.record.specs.Reading.{rec}
use Rattle.record.specs.Scalars.{built_in}
use Rattle.layout.specs.Answer.{Answer}
use Rattle.definition.specs.Answer.{check}
'''


def nat_list(hexed):
    return ' ∷ '.join(str(b) for b in bytes.fromhex(hexed)) + (' ∷ []' if hexed else '[]')


def text_list(text):
    return ' ∷ '.join(str(b) for b in text.encode('latin-1')) + (' ∷ []' if text else '[]')


def definitions():
    """The module and the names of its definitions that can be unfolded, of each module that has some."""
    found = []
    for crate in CRATES:
        for path in sorted(glob.glob(f'crates/{crate}/specs/*.antt')):
            module = os.path.basename(path)[:-5]
            names = re.findall(r'^\s*unfoldable pub (?!use )(\S+)', open(path).read(), flags=re.M)
            if names:
                found.append((crate, module, names))
    return found


def check_term(c):
    rec = lambda side: 'rec (%s) (%s) built_in' % (nat_list(c[side + '_stream']), nat_list(c[side + '_pool']))
    return ('check %d (%s) (%s)' % (c['room'], rec('cur'), rec('rel')),
            'record { number = %d; side = %d; place = %d; len = %d; text = %s }' % (
                c['number'], c['side'], c['place'], c['length'], text_list(c['text'])))


def write_crate(top, cases):
    folder = os.path.join(top, 'crates/samples')
    for sub in ('src', 'proofs'):
        os.makedirs(os.path.join(folder, sub))
    open(os.path.join(folder, 'src/lib.rt'), 'w').write('// Nothing: the theorems are all.\n#![tactic(auto)]\n')
    found = definitions()
    uses = ''.join('use Rattle.%s.specs.%s as %s-%s\n' % (c, m, c, m) for c, m, _ in found)
    opened = ' '.join('%s-%s.%s' % (c, m, n) for c, m, names in found for n in names)
    modules = []
    for k in range(0, len(cases), BATCH):
        name = 'Batch%d' % (k // BATCH)
        modules.append(name)
        o = HEAD + uses
        for i, c in enumerate(cases[k:k + BATCH]):
            term, answer = check_term(c)
            o += '\n-- number %d\nsample-%d : ◌≡◌ {A = Answer} (%s) (%s)\n' % (c['number'], i, term, answer)
            o += 'unfolding %s\nsample-%d = refl\n' % (opened, i)
        open(os.path.join(folder, 'proofs/%s.antt' % name), 'w').write(o)
    open(os.path.join(folder, 'proofs/Lib.antt'), 'w').write(''.join('pub mod %s\n' % m for m in modules))
    with open(os.path.join(top, 'crates.txt'), 'a') as f:
        f.write('samples: %s\n' % ' '.join(CRATES))


def main():
    cases = [json.loads(line) for path in sys.argv[1:] for line in open(path) if line.strip()]
    with tempfile.TemporaryDirectory() as where:
        top = os.path.join(where, 'copy')
        shutil.copytree('.', top, ignore=shutil.ignore_patterns('.git', 'oracle', 'target', 'out'), symlinks=True)
        write_crate(top, cases)
        run = subprocess.run(['rt', 'check'], cwd=os.path.join(top, 'crates/samples'), capture_output=True, text=True)
    out = run.stdout + run.stderr
    bad = [line for line in out.split('\n') if re.match(r'(\./)?proofs/Batch\S* error: ', line)]
    for line in bad[:20]:
        print(line[:400])
    print('%d samples computed, %d differ' % (len(cases), len(bad)) if run.returncode == 0 or bad else out[-2000:])
    sys.exit(run.returncode)


main()
