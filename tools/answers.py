"""Writes what a function's proof answers: proofs/FUNCTION/Answers.antt and Invariants.antt of a crate."""
import os


def write(crate, function, uses, goals):
    """Each goal is a name, its answer and what is unfolded for it, if anything is."""
    put(crate, function, 'Answers', uses, 'Goals', ''.join(
        '\npub %s : goal.%s\n%s%s c = %s\n' % (name, name, 'unfolding %s\n' % opened[0] if opened else '', name, answer)
        for name, answer, *opened in goals))


def write_invariants(crate, function, uses, values):
    put(crate, function, 'Invariants', uses, 'Given', ''.join('\nabbrev pub %s : goal.%s\n%s l = %s\n' % (n, n, n, v) for n, v in values))


def put(crate, function, name, uses, goals, text):
    folder = 'crates/%s/proofs/%s/' % (crate, function)
    os.makedirs(folder, exist_ok=True)
    uses = uses + ['use Rattle.%s.proofs.%s.%s as goal' % (crate, function.replace('/', '.'), goals)]
    open(folder + name + '.antt', 'w').write(''.join(use + '\n' for use in uses) + text)
