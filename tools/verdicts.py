#!/usr/bin/env python3
"""verdicts.py: writes what is said of each verdict, from the table below: specs/Verdicts.antt and proofs/Words.antt of crate definition, and of crate
verdicts src/verdict.rt, src/messages.rt, specs/Meaning.antt, proofs/VerdictLaws.antt and the answers of the functions in verdict.rt and messages.rt.
Run from the repository's top; then `rt fmt` in crates/verdicts.

A row: 01's number, 01's word, the arguments with their kinds, the message as layout.rs formats it.
Kinds: `now` and `was` are texts of the current and of the released pool; u32, u64 and i64 are numbers; the others, each of a side where it has
texts, are put together: `item` is what arrives in a release, `copy` the copy's release if it names one, `value` a constant's value, `layout` a
layout's name, `described` a field's description, `standing` whether a family is standalone, `change` what a shipped layout gained."""
import collections
import re

import answers

ROWS = [
    (11, 'described', '',
     'the released schema says unreleased and describes a layout - one release has shipped or none has'),
    (12, 'now unreadable', 'current:now',
     "[schema] firmware_release is '{current}', which is not a firmware release like 0.8.0"),
    (13, 'before naming', 'current:now',
     'the released schema names no firmware_release, so it was taken before 0.8.0, and this schema says {current}'),
    (14, 'was unreadable', 'was:was',
     "the released schema's firmware_release is '{was}', which is not a firmware release like 0.8.0"),
    (15, 'not later', 'was:was current:now',
     'the released schema names {was} and this schema names {current}, so there is no released layout to compare against - '
     'raise [schema] firmware_release, or refresh the copy with ci/update-released-schema.sh'),
    (16, 'value undated', 'owner:now name:now current:now release:now',
     '{owner}::{name} is not in the copy of the last release, so it reaches the plugin API in {current} - '
     "it declares no first_release, and {owner}'s is {release}"),
    (17, 'late', 'what:item/now current:now names:now',
     '{what} is not in the copy of the last release, so it reaches the plugin API in {current} - its first_release says {names}'),
    (18, 'redated', 'what:item/now was:was names:now',
     '{what} named {was} in the last release and names {names} now - the release something reached the plugin API in is a fact about '
     'firmware already shipped, and a plugin built against it set its min_fw_version from that'),
    (19, 'backdated', 'what:item/now copy:copy/was current:now',
     '{what} was already in the plugin API of {copy} and names {current}, the release under development - it reached the plugin API before '
     'that, and the copy says no more of it than that it was there'),
    (20, 'constant gone', 'name:was',
     'constant {name} was in the last release and is gone - the firmware, its plugins and every host built against it name it still, '
     'so a constant is deprecated with deprecated_release rather than removed'),
    (21, 'constant changed', 'name:was was:value/was is:value/now',
     'constant {name} was {was} in the last release and is {is} now - a constant is a value the firmware, its plugins and every host '
     'agree on, and none of them rebuilds because this file changed'),
    (22, 'enum gone', 'name:was',
     'enum {name} was in the last release and is gone - devices and hosts hold its values still'),
    (23, 'renumbered', 'owner:was name:was was:i64 is:i64',
     '{owner}::{name} was {was} in the last release and is {is} now - a released value keeps its number, because devices and hosts hold it'),
    (24, 'renamed', 'owner:was name:was is:now',
     '{owner}::{name} is called {is} now - a released value keeps its name, and an alias gives it another'),
    (25, 'value gone', 'owner:was name:was',
     '{owner}::{name} was in the last release and is gone - a released value is deprecated with deprecated_release rather than removed'),
    (26, 'bit field gone', 'name:was',
     'bit field {name} was in the last release and is gone - hosts read its bits still'),
    (27, 'member renamed', 'owner:was name:was is:now',
     '{owner}::{name} is called {is} now - a released member keeps its name'),
    (28, 'member gone', 'owner:was name:was',
     '{owner}::{name} was in the last release and is gone - a released member is deprecated with deprecated_release rather than removed'),
    (29, 'bit moved', 'owner:was name:was was:u32 is:u32',
     '{owner}::{name} was at bit {was} in the last release and is at bit {is} now - a released member keeps its bits, because hosts read '
     'them there'),
    (30, 'width changed', 'owner:was name:was was:u32 is:u32',
     '{owner}::{name} was {was} bit(s) wide in the last release and is {is} now - a released member keeps its bits, because hosts read '
     'them there'),
    (31, 'bits late', 'what:item/now current:now release:now',
     '{what} is not in the copy of the last release, so it arrives in {current}, and its release is {release}'),
    (32, 'bits redated', 'what:item/now was:was release:now',
     '{what} arrived in {was} according to the last release, not {release} - the release something arrived in is a fact about firmware '
     'already shipped'),
    (33, 'type gone', 'name:layout/was',
     "{name} was in the last release and is no longer described - a shipped structure's bytes stay where a host that knows them can read "
     'them'),
    (34, 'field gone', 'owner:layout/was name:was',
     '{owner}.{name} was in the last release and is gone - a shipped field is never moved, renamed or removed, only deprecated'),
    (35, 'moved', 'owner:layout/was name:was was:u64 is:u64',
     "{owner}.{name} was at offset {was} in the last release and is at {is} now - a shipped field's bytes stay where they are"),
    (36, 'resized', 'owner:layout/was name:was was:u64 is:u64',
     "{owner}.{name} was {was} byte(s) in the last release and is {is} now - a shipped field's bytes stay where they are"),
    (37, 'redescribed', 'owner:layout/was name:was was:described/was is:described/now',
     '{owner}.{name} was {was} in the last release and is {is} now - a shipped field is read the way it was written'),
    (38, 'standing changed', 'name:now was:standing is:standing',
     '{name} was {was} in the last release and is {is} now - whether a family is standalone decides which rule its changes answer to'),
    (39, 'shipped family changed', 'name:layout/now change:change/now',
     '{name} has {change} since the last release, and its family is standalone - a shipped variant never changes, because a reader built '
     'against it reads its fields at fixed offsets'),
    (40, 'uncovered', 'name:layout/now',
     "{name}'s layout has changed since the last release, and it sits under none of the versioned structures, so no generation number "
     'covers it'),
    (41, 'no constant', 'name:now',
     '{name} carries a generation number and names no constant holding it'),
    (42, 'no generation', 'constant:now was:i64',
     '{constant} was {was} in the last release, which is not a generation number'),
    (43, 'unraised', 'name:now was:u32 what:layout/now constant:now next:u64',
     "{name} is still generation {was}, and {what}'s layout has changed since the last release - raise {constant} to {next}, and add a "
     '[[versions]] entry saying which release that generation ships in'),
    (44, 'unlisted', 'constant:now is:u32 name:now',
     '{constant} was raised to {is} with no [[versions]] entry for {name} generation {is} - a generation says nothing until something '
     'says which release it ships in'),
    (45, 'leapt', 'constant:now was:u32 is:u32 copy:copy/was current:now',
     '{constant} was {was} in the last release and is {is} now - a generation rises by one per release, so that a host holding a '
     "device's bytes can name every layout in between.  The copy compared against is of {copy}, and this schema is {current} - a copy left "
     'unrefreshed across a development cycle reads as a rise of more than one, and ci/update-released-schema.sh refreshes it'),
    (46, 'fell', 'constant:now was:u32 is:u32',
     '{constant} was {was} in the last release and is {is} now - a generation rises by one per release, so that a host holding a '
     "device's bytes can name every layout in between"),
]

# of a kind: the definition's type and how a message shows it; the code's type, the template's argument, and what it means over the pools
Kind = collections.namedtuple('Kind', 'type shown field argument meant')
KINDS = {
    'now': Kind('Str', '%s', 'Text', 'Arg::Now(%s)', '(text_of {pool} %s)'),
    'was': Kind('Str', '%s', 'Text', 'Arg::Was(%s)', '(text_of {old} %s)'),
    'u32': Kind('ℕ', 'decimal %s', 'u32', 'Arg::Number(%s as u64)', '%s'),
    'u64': Kind('ℕ', 'decimal %s', 'u64', 'Arg::Number(%s)', '%s'),
    'i64': Kind('ℕ', 'signed %s', 'u64', 'Arg::Signed(%s)', '%s'),
    'item/now': Kind('Item', 'item_text %s', 'Item', 'Arg::NowItem(%s)', '(item_of {pool} %s)'),
    'copy/was': Kind('Option Str', 'copy_of %s', 'Option<Text>', 'Arg::WasCopy(%s)', '(opt_of {old} %s)'),
    'value/now': Kind('Str', '%s', 'ConstantValue', 'Arg::NowValue(%s)', '(constant_text (value_meant {pool} %s))'),
    'value/was': Kind('Str', '%s', 'ConstantValue', 'Arg::WasValue(%s)', '(constant_text (value_meant {old} %s))'),
    'layout/now': Kind('Str', '%s', 'TypeName', 'Arg::NowType(%s)', '(name_of {pool} %s)'),
    'layout/was': Kind('Str', '%s', 'TypeName', 'Arg::WasType(%s)', '(name_of {old} %s)'),
    'described/now': Kind('Str', '%s', 'Description', 'Arg::NowShape(%s)', '(described_as {pool} %s)'),
    'described/was': Kind('Str', '%s', 'Description', 'Arg::WasShape(%s)', '(described_as {old} %s)'),
    'standing': Kind('Bool', 'standing_of %s', 'bool', 'Arg::Standing(%s)', '%s'),
    'change/now': Kind('Option Str', 'change_text %s', 'Option<Text>', 'Arg::NowChange(%s)', '(opt_of {pool} %s)'),
}

# where the code's types and the meanings stand
TYPES = {'Text': 'record::text', 'Description': 'record::describe', 'TypeName': 'layout::names',
         'Item': 'crate::arguments', 'ConstantValue': 'crate::arguments'}
MEANINGS = {'text_of': 'Rattle.record.specs.Stretch', 'opt_of': 'Rattle.record.specs.Lists', 'described_as': 'Rattle.record.specs.Describe',
            'name_of': 'Rattle.layout.specs.Names', 'constant_text': 'Rattle.definition.specs.Constants',
            'item_of': 'Rattle.verdicts.specs.Arguments', 'value_meant': 'Rattle.verdicts.specs.Arguments'}


class Row:
    def __init__(self, number, word, arguments, message):
        self.number, self.message = number, message
        self.word = 'w·' + word.replace(' ', '-')
        self.name = word.replace(' ', '_')
        self.variant = ''.join(p.capitalize() for p in word.split())
        self.arguments = [tuple(a.split(':')) for a in arguments.split()]
        self.kinds = {n: KINDS[k] for n, k in self.arguments}

    def pieces(self):
        """The message as a list of fixed texts and arguments."""
        return [p for p in re.split(r'(\{\w+\})', self.message) if p]


TABLE = [Row(*row) for row in ROWS]
assert [r.number for r in TABLE] == list(range(11, 47))

D = 'crates/definition/'
C = 'crates/verdicts/'

WIDTH = 150


def wrapped(begin, pieces, between, end=''):
    """The pieces, joined, in lines of at most WIDTH characters, each with the same beginning and end. A fixed text is not cut."""
    lines = [begin + pieces[0]]
    for piece in pieces[1:]:
        if len(lines[-1] + between + piece + end) > WIDTH:
            lines[-1] += end
            lines.append(begin.replace(begin.lstrip(), '') + between.lstrip() + piece)
        else:
            lines[-1] += between + piece
    return '\n'.join(lines) + end


def indented(text, after):
    """A text behind so many characters, on a line of its own where it is too wide."""
    return (' ' if after + len(text) <= WIDTH else '\n    ') + text


def definition():
    """specs/Verdicts.antt"""
    o = '''\
-- The verdicts: the words and numbers of 01, What a check returns, and the messages of layout.rs byte for byte. Written by tools/verdicts.py.
-- Assumes nothing.
use Rattle.std.specs.Prelude.{[], ◌∷◌, ◌++◌, Bool, true, false, ℕ, Option, Some, None}
use Rattle.record.specs.Base.{Str, bytes, decimal, signed}
use Rattle.record.specs.Fill.{joined}

-- 01's word for each verdict
pub data Word : Type 0 where
%s

-- and its number
unfoldable pub word_number : Word → ℕ
%s
-- what a pass answers: nothing found, or a verdict's word and its message
pub data Verdict : Type 0 where
  pass : Verdict
  stop : Word → Str → Verdict

unfoldable pub verdict_number : Verdict → ℕ
verdict_number pass = 0
verdict_number (stop w m) = word_number w

unfoldable pub message_of : Verdict → Str
message_of pass = []
message_of (stop w m) = m

-- what arrives in a release; within is a value of an enum or a member of a bit field
pub data Item : Type 0 where
  a_constant an_enum a_key a_bitfield : Str → Item
  within : Str → Str → Item

unfoldable pub item_text : Item → Str
item_text (a_constant n) = bytes "constant " ++ n
item_text (an_enum n) = bytes "enum " ++ n
item_text (a_key n) = bytes "plugin key " ++ n
item_text (a_bitfield n) = bytes "bit field " ++ n
item_text (within o n) = o ++ (bytes "::" ++ n)

-- the release that the copy is of
unfoldable pub copy_of : Option Str → Str
copy_of None = bytes "a release before 0.8.0"
copy_of (Some r) = r

unfoldable pub standing_of : Bool → Str
standing_of true = bytes "standalone"
standing_of false = bytes "not standalone"

-- the field that a layout gained, or none of a new name
unfoldable pub change_text : Option Str → Str
change_text None = bytes "changed"
change_text (Some f) = bytes "gained " ++ f
''' % (wrapped('  ', [r.word for r in TABLE], ' ', ' : Word'), ''.join('word_number %s = %d\n' % (r.word, r.number) for r in TABLE))
    for r in TABLE:
        shown = [r.kinds[p[1:-1]].shown % p[1:-1] if p[0] == '{' else 'bytes "%s"' % p for p in r.pieces()]
        named, stopped = ' '.join([r.name] + list(r.kinds)) + ' =', 'stop %s (joined (' % r.word
        whole = '%s %s%s))' % (named, stopped, ' ∷ '.join(shown + ['[]']))
        o += '''
-- %d
unfoldable pub %s : %s
%s
''' % (r.number, r.name, ' → '.join([k.type for k in r.kinds.values()] + ['Verdict']),
       whole if len(whole) <= WIDTH else named + '\n' + wrapped('    ' + stopped, shown + ['[]))'], ' ∷ '))
    open(D + 'specs/Verdicts.antt', 'w').write(o)


def numbers():
    """proofs/Words.antt"""
    o = '''-- No verdict has the number of an acceptance or of a refusal. Written by tools/verdicts.py. Assumes nothing.
use Prim.Native.Nat.{◌≤◌}
use lib.Dec.{lit≤}
use Rattle.definition.specs.Verdicts.{Word, word_number, %s}

pub word-large : (w : Word) → 11 ≤ word_number w
unfolding word_number
%s''' % (', '.join(r.word for r in TABLE), ''.join('word-large %s = lit≤ tt\n' % r.word for r in TABLE))
    open(D + 'proofs/Words.antt', 'w').write(o)


def pattern(r, inside):
    return 'Verdict::%s { %s }' % (r.variant, inside) if inside else 'Verdict::%s' % r.variant


def constructor(r):
    return '(%s)' % ' '.join([r.variant] + list(r.kinds)) if r.kinds else r.variant


def meant(r, pool, old):
    """The definition's verdict, over the two pools."""
    return ' '.join([r.name] + [k.meant.format(pool=pool, old=old) % n for n, k in r.kinds.items()])


def pools(r):
    """The lines of a contract that name the bytes of the pools that its message has texts of."""
    words = re.findall(r'\w+', meant(r, 'pool', 'old'))
    return ''.join('let %s : Str = %s.entry.now in\n        ' % (p, p) for p in ('pool', 'old') if p in words)


def type_uses(more=()):
    """The use lines of the code's types, and of more."""
    fields = {k.field for r in TABLE for k in r.kinds.values()}
    lines = {'use %s::%s;' % (module, name) for name, module in TYPES.items() if name in fields} | set(more)
    return '\n'.join(sorted(lines, key=lambda line: (not line.startswith('use crate'), line)))


def meaning_uses(ghost=False):
    """The use lines of what the arguments mean."""
    words = {w for r in TABLE for k in r.kinds.values() for w in re.findall(r'\w+', k.meant)}
    modules = {}
    for name, module in MEANINGS.items():
        if name in words:
            modules.setdefault(module, []).append(name)
    return '\n'.join(('ghost use %s.{%s};' if ghost else 'use %s.{%s}') % (m, ', '.join(names)) for m, names in modules.items())


def code():
    """src/verdict.rt and src/messages.rt"""
    o = '''// A violation with what its message names; a signed number is kept as its 64 bits. A pass answers Ok, or the first violation as its error.
// Written by tools/verdicts.py.
%s
ghost use Rattle.std.specs.Prelude.{◌≡◌};
ghost use Rattle.verdicts.specs.Meaning.{number_for, number_found};

#[derive(Clone, Copy)]
pub enum Verdict {
''' % type_uses()
    for r in TABLE:
        fields = ''.join('        %s: %s,\n' % (n, k.field) for n, k in r.kinds.items())
        o += '    %s,\n' % (r.variant + (' {\n' + fields + '    }' if fields else ''))
    o += '''}

impl Verdict {
    // 01's number.
    pub fn number(self) -> u32
        ensures { result ≡ number_for self }
    {
        match self {
'''
    for r in TABLE:
        o += '            %s => %d,\n' % (pattern(r, ', '.join('%s: _' % n for n in r.kinds)), r.number)
    o += '''        }
    }
}

// 01's number of what a pass answers, 0 for no violation.
pub fn number_found(found: Result<(), Verdict>) -> u32
    ensures { result ≡ number_found found }
{
    match found {
        Ok(_) => 0,
        Err(v) => v.number(),
    }
}
'''
    open(C + 'src/verdict.rt', 'w').write(o)
    o = '''// The messages of the verdicts, written from their templates: a byte below 32 is the number of an argument. Written by tools/verdicts.py.
%s
ghost use Rattle.record.specs.Base.{Str};
%s
ghost use Rattle.definition.specs.Verdicts as D;
ghost use Rattle.definition.specs.Verdicts.{message_of, %s};
ghost use Rattle.verdicts.specs.Template.{Writes};
ghost use Rattle.verdicts.specs.Meaning.{violation, meaning};
''' % (type_uses(['use crate::template::%s;' % n for n in ['Arg'] + [writer(r) for r in TABLE]] + ['use crate::verdict::Verdict;']),
       meaning_uses(ghost=True), ', '.join(r.name for r in TABLE))
    for r in TABLE:
        o += '''
// %d
fn write_%s(out: &mut [u8], %spool: &[u8], old: &[u8]) -> Result<usize, usize>
    ensures { %slet said : D.Verdict = %s in
        Writes out.old (message_of said) out.new result }
{
    %s(out, b"%s", %s, pool, old)
}
''' % (r.number, r.name, ''.join('%s: %s, ' % (n, k.field) for n, k in r.kinds.items()), pools(r), meant(r, 'pool', 'old'),
       writer(r), template(r), arguments(r))
    o += '''
// Puts the message of a violation at the front of out, if it fits.
fn write_violation(out: &mut [u8], v: Verdict, pool: &[u8], old: &[u8]) -> Result<usize, usize>
    ensures { let said : D.Verdict = violation pool.now old.now v in
        Writes out.old (message_of said) out.new result }
{
    match v {
'''
    for r in TABLE:
        o += '        %s => write_%s(out, %spool, old),\n' % (pattern(r, ', '.join(r.kinds)), r.name, ''.join('%s, ' % n for n in r.kinds))
    o += '''    }
}

// Puts the message of what a pass answers at the front of out, if it fits: none has an empty one.
pub fn write_verdict(out: &mut [u8], found: Result<(), Verdict>, pool: &[u8], old: &[u8]) -> Result<usize, usize>
    ensures { let said : D.Verdict = meaning pool.now old.now found in
        Writes out.old (message_of said) out.new result }
{
    match found {
        Ok(_) => Ok(0),
        Err(v) => write_violation(out, v, pool, old),
    }
}
'''
    open(C + 'src/messages.rt', 'w').write(o)


def writer(r):
    """The function of template.rt that takes as many arguments."""
    return ['write', 'write_one', 'write_two', 'write_three', 'write_four', 'write'][len(r.kinds)]


def arguments(r):
    given = ', '.join(k.argument % n for n, k in r.kinds.items())
    return {0: '[Arg::Nothing; 5]', 5: '[%s]' % given}.get(len(r.kinds), given)


def template(r):
    at = {n: i for i, n in enumerate(r.kinds)}
    return ''.join('\\x%02x' % at[p[1:-1]] if p[0] == '{' else p for p in r.pieces())


def meaning():
    """specs/Meaning.antt"""
    o = '''\
-- What the code's verdicts mean, over the two pools, in the words of Verdicts of definition, and their numbers. Written by tools/verdicts.py.
-- Assumes nothing.
use Rattle.std.specs.Prelude.{ℕ, Result, Ok, Err, ⊤}
use Rattle.record.specs.Base.{Str}
%s
use Rattle.definition.specs.Verdicts as D
use Rattle.definition.specs.Verdicts.{%s}
use Rattle.verdicts.specs.declared.verdict.Verdict.{Verdict}
use Rattle.verdicts.specs.declared.verdict.Verdict.TheVariants.{%s}

-- a violation
unfoldable pub violation : Str → Str → Verdict → D.Verdict
%s
-- what a pass answers
unfoldable pub meaning : Str → Str → Result ⊤ Verdict → D.Verdict
meaning pool old (Ok u) = D.pass
meaning pool old (Err v) = violation pool old v

abbrev pub number_for : Verdict → ℕ
%s
abbrev pub number_found : Result ⊤ Verdict → ℕ
number_found (Ok u) = 0
number_found (Err v) = number_for v
''' % (meaning_uses(), ', '.join(r.name for r in TABLE), ', '.join(r.variant for r in TABLE),
       ''.join('violation pool old %s =%s\n' % (constructor(r), indented(meant(r, 'pool', 'old'), len(constructor(r)) + 21)) for r in TABLE),
       ''.join('number_for %s = %d\n' % (constructor(r), r.number) for r in TABLE))
    open(C + 'specs/Meaning.antt', 'w').write(o)


def laws():
    """proofs/VerdictLaws.antt"""
    o = '''-- The code's verdicts: a violation is what comes of it and of anything after it, and its number is the definition's. Written by
-- tools/verdicts.py. Assumes nothing.
use mathlib.Core.Path.{◌≡◌, refl}
use Rattle.std.specs.Prelude.{Result, Ok, Err, ⊤}
use Rattle.record.specs.Base.{Str}
use Rattle.definition.specs.Verdicts as D
use Rattle.definition.specs.Verdicts.{word_number, verdict_number, %(names)s}
use Rattle.definition.specs.Pass.{◌then◌}
use Rattle.verdicts.specs.Meaning.{violation, meaning, number_for, number_found}
use Rattle.verdicts.specs.declared.verdict.Verdict.{Verdict}
use Rattle.verdicts.specs.declared.verdict.Verdict.TheVariants.{%(variants)s}

pub stops : (pool old : Str) (v : Verdict) (w : D.Verdict) → (meaning pool old (Err v) then w) ≡ meaning pool old (Err v)
unfolding meaning violation ◌then◌ %(opens)s
%(stops)s
number_of_violation : (pool old : Str) (v : Verdict) → number_for v ≡ verdict_number (violation pool old v)
unfolding violation verdict_number word_number %(opens)s
%(numbers)s
pub number_is : (pool old : Str) (found : Result ⊤ Verdict) → number_found found ≡ verdict_number (meaning pool old found)
unfolding meaning verdict_number
number_is pool old (Ok u) = refl
number_is pool old (Err v) = number_of_violation pool old v
''' % dict(
        names=', '.join(r.name for r in TABLE), variants=', '.join(r.variant for r in TABLE), opens=' '.join(r.name for r in TABLE),
        stops=''.join('stops pool old %s w = refl\n' % constructor(r) for r in TABLE),
        numbers=''.join('number_of_violation pool old %s = refl\n' % constructor(r) for r in TABLE))
    open(C + 'proofs/VerdictLaws.antt', 'w').write(o)


def proofs():
    """proofs/verdict/Verdict/number/Answers.antt and proofs/messages/*/Answers.antt"""
    answers.write('verdicts', 'verdict/Verdict/number', [], [
        ('returns-in-' + r.variant, 'rw c.in-%s.is' % r.variant) for r in TABLE])
    for r in TABLE:
        call = writer(r)
        answers.write('verdicts', 'messages/write_' + r.name, [
            'use Rattle.record.specs.Base.{bytes}', 'use Rattle.record.specs.Fill.{joined}',
            'use Rattle.verdicts.specs.Template.{pick_of, filled}', 'use Rattle.definition.specs.Verdicts.{message_of, %s}' % r.name],
            [(call + '-requires', 'tt'), ('returns', 'c.%s.ensures' % call, 'bytes joined pick_of filled message_of ' + r.name)])
    answers.write('verdicts', 'messages/write_violation', ['use Rattle.verdicts.specs.Meaning.{violation}'],
                  [('write_%s-requires' % r.name, 'tt') for r in TABLE]
                  + [('returns-in-' + r.variant, 'rw c.in-%s.is c.write_%s.ensures' % (r.variant, r.name), 'violation') for r in TABLE])
    answers.write('verdicts', 'messages/write_verdict', [
        'use mathlib.Core.Path.{refl}', 'use mathlib.Core.List.{[]}', 'use native.Mathlib.Omega.{arith}',
        'use Rattle.record.proofs.WriterLaws.{front-none}', 'use Rattle.verdicts.proofs.TemplateLaws.{writes-whole}',
        'use Rattle.definition.specs.Verdicts.{message_of}', 'use Rattle.verdicts.specs.Meaning.{meaning}'],
        [('returns-in-Ok', 'rw c.in-Ok.is (writes-whole _ [] _ 0 refl (omega arith) (front-none _))', 'meaning message_of'),
         ('returns-in-Err', 'rw c.in-Err.is c.write_violation.ensures', 'meaning')])


definition()
numbers()
code()
meaning()
laws()
proofs()
