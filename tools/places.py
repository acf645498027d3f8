#!/usr/bin/env python3
"""places.py [--list POINT]: counts, over crates/*/src, the places that each point of docs/DESIGN-PASS.md is about, and lists those of one point.
Its rules go by the text alone: a place that it finds is one to look at, which the page's table says is changed or kept. Run from the
repository's top, outside the gate."""
import glob
import re
import sys

texts = {path: open(path).read() for path in sorted(glob.glob('crates/*/src/**/*.rt', recursive=True))}


def code(text):
    """A file's lines without its comments, imports and contracts, each line where it was."""
    text = re.sub(r'^ +(requires|ensures)\b.*?(?=^ *\{$)', lambda m: '\n' * m[0].count('\n'), text, flags=re.S | re.M)
    text = re.sub(r'^(ghost )?use .*?;$', lambda m: '\n' * m[0].count('\n'), text, flags=re.S | re.M)
    return re.sub(r'//.*', '', text)


def found(pattern, flags=re.M):
    """Every match in the code, as FILE:LINE and the text's first line."""
    for path, text in texts.items():
        bare = code(text)
        for match in re.finditer(pattern, bare, flags):
            line = bare.count('\n', 0, match.start()) + 1
            yield f'{path}:{line}', match[0].strip().split('\n')[0]


def enums():
    """Enums whose variants are as few as those of an Option or a Result: one without a value and one or two with, or two with a value."""
    for path, text in texts.items():
        for match in re.finditer(r'enum (\w+) \{\n(.*?)\n\}', code(text), re.S):
            variants = re.findall(r'^    (\w+)(\(| \{|,)', match[2], re.M)
            bare = [name for name, after in variants if after == ',']
            if (len(variants) == 2 and len(bare) < 2) or (len(variants) == 3 and len(bare) == 1):
                yield f'{path}:{text.count(chr(10), 0, match.start()) + 1}', match[1]
    # an enum of many violations with one variant for none
    for path, text in texts.items():
        for match in re.finditer(r'enum (\w+) \{\n(    Passed,\n.*?)\n\}', code(text), re.S):
            yield path, match[1]


def functions():
    for path, text in texts.items():
        for match in re.finditer(r'^ *(?:pub(?:\(crate\))? )?fn (\w+)(?:<[^>]*>)?\((.*?)\)(?: -> [^\n{]*)?\n(.*?)^ *\{$', text, re.S | re.M):
            yield path, match[1], match[2], match[3]


def facts():
    """Facts that stand in the `requires` of three functions of a crate or more."""
    seen = {}
    for path, name, _, contract in functions():
        for clause in re.findall(r'requires(?: \w+)? \{(.*?)\}\n', contract + '\n', re.S):
            clause = re.sub(r'\s+', ' ', re.sub(r'let .*? in ', '', clause, flags=re.S))
            for fact in {part.strip(' ()') for part in clause.split(' × ')}:
                seen.setdefault((path.split('/')[1], fact), []).append(name)
    return [(crate, f'{fact}: {len(names)} functions') for (crate, fact), names in sorted(seen.items()) if len(names) > 2]


def together():
    """Functions that take five slices or more."""
    return [(path, f'{name}: {parameters.count("[")} slices') for path, name, parameters, _ in functions() if parameters.count('[') > 4]


points = {
    '1 enums of the shape of Option or Result': lambda: list(enums()),
    '1 numbers for none (0, or a length, where nothing is found)': lambda: [
        (path, name)
        for path, text in texts.items()
        for name in re.findall(r'^// [^\n]*?(?:; 0 where|, 0 if|; 0 past|; 0 for|its length if|\b2\^32)[^\n]*\n(?:// [^\n]*\n)*(?:#\[[^\n]*\n)?(?:pub(?:\(crate\))? )?fn (\w+)', text, re.M)],
    '1 numbers for the kinds of commands': lambda: list(found(r'(?:byte|number) == \d+|\b(?:seek|find_declared|find_last|look_up|first_named|scan_declared)\([^;]*?, \d+, ')),
    '2 functions of a name in two crates or more, and numbered or typed twins': lambda: [
        (', '.join(sorted(paths)), name) for name, paths in sorted(twins().items()) if len(paths) > 1],
    '3 loops that count an index by hand': lambda: list(found(r'^ *while (?!let )[^{]*\{(?:(?!^ {,8}\}$).)*?\b(\w+) (?:\+= 1|-= 1|= \1 - 1|= next);', re.S | re.M)),
    '4 tests by returns of true and false': lambda: list(found(r'^ *if [^\n]*\{\n *return (?:true|false);\n *\}\n(?= *(?:true|false|[^\n;]*)\n\})')),
    '4 conversions in functions of their own': lambda: list(found(r'fn \w+\((?:self|\w+: u\d+)\) -> (?:u\d+|usize) *\n?[^{]*\{\n *(?:match self|\w+ as )')),
    '5 facts in the requires of three functions or more': facts,
    '5 functions of five slices or more': together,
    '6 tables that a caller lends beside a length': lambda: list(found(r'\[\.\.(?:n|m|len|end)\]')),
    '7 switches on which step to run': lambda: list(found(r'^ *(?:if pass == \d+|while (?:pass|turns) < )')),
}


def twins():
    by_name = {}
    for path, name, _, _ in functions():
        if name not in ('new', 'number', 'main'):
            by_name.setdefault(name, set()).add(path.split('/')[1])
    return by_name


if sys.argv[1:2] == ['--list']:
    for point, places in points.items():
        if point.startswith(sys.argv[2]):
            print(f'{point}:')
            for place in places():
                print('   ', *place)
else:
    for point, places in points.items():
        print(f'{len(places()):5} {point}')
