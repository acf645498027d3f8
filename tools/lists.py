#!/usr/bin/env python3
"""lists.py: writes the lists of crate record from the table below: src/lists.rt, specs/Steps.antt, specs/Listings.antt and
proofs/StepLaws.antt. Run from the repository's top; then `rt fmt` in crates/record.

A row: the list, one element, the model's type, the command's number and its operands' type, what may stand between
(Between of src/seek.rt), the lists that follow an element, how it is looked up by name: by a walk along the list, or by the
index of src/index.rt, as an element or as its place alone.
A step along the fields also says where the field stands."""
ROWS = [
    # list, one, model, number, struct, between, children, by name
    ('heads', 'head', 'Heading', 1, 'Head', 'Anything', [], None),
    ('constants', 'constant', 'Const', 2, 'Constant', 'Anything', [], 'index'),
    ('aliases', 'alias', 'Alias', 3, 'TypeAlias', 'Anything', [], 'place'),
    ('values', 'value', 'EnumValue', 5, 'Value', 'Nothing', [], 'walk'),
    ('enums', 'enum', 'Enum', 4, 'Enum', 'Anything', ['values_at'], 'index'),
    ('members', 'member', 'Member', 7, 'Member', 'Nothing', [], 'walk'),
    ('bitfields', 'bitfield', 'BitField', 6, 'Bitfield', 'Anything', ['members_at'], 'walk'),
    ('keys', 'key', 'Key', 12, 'PluginKey', 'Nothing', [], None),
    ('fields', 'field', 'Field', 11, 'Field', 'Keys', ['field_key_at'], None),
    ('structs', 'struct', 'Struct', 8, 'Struct', 'Anything', ['fields_at'], 'index'),
    ('variants', 'variant', 'Variant', 10, 'Variant', 'Fields', ['fields_at'], None),
    ('families', 'family', 'Family', 9, 'Family', 'Anything', ['fields_at', 'variants_at'], 'walk'),
    ('unstored', 'unstored', 'Key', 13, 'UnstoredKey', 'Anything', [], None),
    ('versions', 'version', 'Version', 14, 'Version', 'Anything', [], None),
]
KEYS = 'n one model b struct between kids named'.split()
LISTS = [dict(zip(KEYS, row)) for row in ROWS]
OF = {'unstored': 'key_of'}
AT = {'unstored': 'key_at'}
# heads are looked at once, and plugin keys and unstored keys by the walk over all keys, which has its own measure
UNMEASURED = ('heads', 'keys', 'unstored')
R = 'crates/record/'
for d in LISTS:
    d['C'] = d['n'].capitalize()
    # the element, as specs/Steps has it: an unstored key's own type only tells its list from that of the keys after a field
    d['element'] = 'D.%(struct)s.%(struct)s' % d if d['n'] != 'unstored' else 'D.PluginKey.PluginKey'
    d['of'] = OF.get(d['one'], d['one'] + '_of')
    d['at'] = AT.get(d['one'], d['one'] + '_at')
    d['kid'] = ''.join(' (%s s p k.at)' % k for k in d['kids'])
    d['kidrest'] = ''.join(' (first (keys s p rest))' if k == 'field_key_at' else ' (%s s p rest)' % k[:-3] for k in d['kids'])
    d['kidopen'] = ''.join(' ' + ('keys_at' if k == 'field_key_at' else k) for k in d['kids'])
    # the place of a field
    d['standing'] = '  pub placed : FieldPlaced s at r\n' if d['n'] == 'fields' else ''
    d['nowhere'] = '; placed = tt' if d['n'] == 'fields' else ''
    d['stands'] = ('; placed = record { past = h.past; in-stream = h.in-stream; number = h.number; operands = h.operands }'
                   if d['n'] == 'fields' else '')
    d['break'] = '\n      ' if d['n'] == 'fields' else ' '
    d['widths'] = ' width_of width_with operands widths wide bytes' if d['n'] == 'fields' else ''

FIELD_KEY = '''-- the plugin key of the field before a place
abbrev pub field_key_at : Str → Str → ℕ → Option Key
field_key_at s p at = first (keys_at s p at)

'''

FIELD_PLACE = '''-- a field stands 33 bytes before the cursor after it, among the commands from a place on
pub record FieldPlace (s : Str) (at : ℕ) (e : D.Field.Field) (k : Cursor) : Type 0 where
  pub past : 33 ≤ k.at
  pub in-stream : Memᴰ (k.at - 33) (commands_at s at)
  pub number : get_or s (k.at - 33) 0 ≡ 11
  pub operands : e ≡ field_at (drop (k.at - 33) s)

abbrev pub FieldPlaced : Str → ℕ → Step D.Field.Field → Type 0
FieldPlaced s at None = Unit
FieldPlaced s at (Some (e, k)) = FieldPlace s at e k

'''


def imports(path, names):
    """Imports of one module, in lines of at most 150 characters."""
    lines = [[]]
    for name in names:
        if len(path + '{%s}' % ', '.join(lines[-1] + [name])) > 150:
            lines.append([])
        lines[-1].append(name)
    return ''.join(path + '{%s}\n' % ', '.join(line) for line in lines)


def code():
    o = '''// The lists of a record, an element at a time: the next element from a cursor on, with the cursor after it.
// Written by tools/lists.py.
ghost use Rattle.std.specs.Prelude.{◌≡◌, ℕ};
ghost use Rattle.record.specs.Base.{Str};
ghost use Rattle.record.specs.Commands.{Step};
ghost use Rattle.record.specs.Listing.{Listing, Naming};
'''
    lists = [d['one'] + '_list' for d in LISTS]
    names = [d['one'] + '_naming' for d in LISTS if d['named'] == 'walk']
    for those in (lists[:8], lists[8:], names):
        o += 'ghost use Rattle.record.specs.Listings.{%s};\n' % ', '.join(those)
    o += '\nuse crate::command::{%s};\n' % ', '.join(
        sorted({'Cursor', 'PluginKey', 'Step'} | {d[k] for d in LISTS for k in ('struct', 'at')} - {'UnstoredKey'}))
    o += 'use crate::cut;\nuse crate::seek::{Between, seek};\nuse crate::text::{Text, bytes_of, same};\n'
    o += '''
// The element of a list: which command it is, what may stand between, and how its operands are read.
pub trait Listed: Copy {
    ghost list: { Listing Self };

    fn sought() -> (u8, Between)
        ensures { result ≡ (list.elements.number, list.elements.between) };

    fn read(s: &[u8]) -> Self
        ensures { result ≡ list.elements.read s.now };
}

// A plugin key of no field that is stored: its list is not that of the keys after a field.
#[derive(Clone, Copy)]
pub struct UnstoredKey {
    pub key: PluginKey,
}

// The next element of the list that goes on at a cursor. It, its decoders and the search by name are inlined, so that a search reads of the elements
// that it passes the name alone.
#[inline(always)]
pub fn next<E: Listed>(stream: &[u8], from: Cursor) -> Step<E>
    ensures { E.list.From stream.now from.at result }
{
    let (number, between) = E::sought();
    let Some((at, after)) = seek(stream, from.at, number, between) else {
        return None;
    };
    Some((E::read(cut::from(stream, at)), Cursor::place(after)))
}
'''
    for d in LISTS:
        o += '''
impl Listed for %(struct)s {
    ghost list = { %(one)s_list };

    fn sought() -> (u8, Between) {
        (%(b)d, Between::%(between)s)
    }

    #[inline(always)]
    fn read(s: &[u8]) -> Self {
        %(code)s
    }
}
''' % dict(d, code='UnstoredKey { key: key_at(s) }' if d['n'] == 'unstored' else d['at'] + '(s)')
    o += '''
// The element of a list that is searched by name.
pub trait Named: Listed {
    ghost naming: { Naming Self };

    fn name(self) -> Text
        ensures { result ≡ naming.name self };

    // The list that is searched is the one that a step goes along.
    ghost along: { (s : Str) (at : ℕ) (r : Step Self) → Self.list.From s at r → naming.list.From s at r };
}

// The first element of that name from a cursor on.
#[inline(always)]
pub fn find<E: Named>(stream: &[u8], pool: &[u8], from: Cursor, name: &[u8]) -> Step<E>
    ensures { E.naming.Found stream.now pool.now from.at name.now result }
{
    let mut cursor = from;
    loop {
        let Some((e, after)) = next::<E>(stream, cursor) else {
            return None;
        };
        if same(bytes_of(pool, e.name()), name) {
            return Some((e, after));
        }
        cursor = after;
    }
}
'''
    for d in LISTS:
        if d['named'] == 'walk':
            o += '''
impl Named for %(struct)s {
    ghost naming = { %(one)s_naming };

    ghost along = { λ s at r f. f };

    fn name(self) -> Text {
        self.name
    }
}
''' % d
    open(R + 'src/lists.rt', 'w').write(o)


def specs():
    o = '''-- The lists of a record (01, Record commands) from a place on, the first of a name in each, and what a step along each answers. Written by
-- tools/lists.py. Assumes nothing.
use Rattle.std.specs.Prelude.{◌≡◌, ℕ, suc, ◌-◌, ◌≤◌, length, get_or, drop, Option, Some, None}
use mathlib.Core.List.{List, [], ◌∷◌, Memᴰ}
use Rattle.record.specs.Base.{Str, eqs, find, first}
%(schema)suse Rattle.record.specs.Commands.{field_at, commands_at}
%(lists)suse Rattle.record.specs.declared.command as D
use Rattle.record.specs.declared.command.Cursor.{Cursor}
use Rattle.record.specs.Commands.{Step}
''' % dict(schema=imports('use Rattle.record.specs.Schema.', sorted({d['model'] for d in LISTS})),
            lists=imports('use Rattle.record.specs.Lists.', sorted({d['of'] for d in LISTS} | {d['n'] for d in LISTS})))
    o += '\n-- the lists that begin at a place\n'
    for d in LISTS:
        o += 'unfoldable pub %(n)s_at : Str → Str → ℕ → List %(model)s\n%(n)s_at s p at = %(n)s s p (commands_at s at)\n\n' % d
        if d['n'] == 'keys':
            o += FIELD_KEY
    for d in LISTS:
        if d['n'] == 'fields':
            o += FIELD_PLACE
        o += '''-- %(n)s: the list at a step, and one more than the bytes after the element
abbrev pub %(n)s_of : Str → Str → Step %(element)s → List %(model)s
%(n)s_of s p None = []
%(n)s_of s p (Some (e, k)) = %(of)s p e%(kid)s ∷ %(n)s_at s p k.at

abbrev pub %(n)s_left : Str → Step %(element)s → ℕ
%(n)s_left s None = 0
%(n)s_left s (Some (e, k)) = suc (length s - k.at)

pub record %(C)sFrom (s : Str) (at : ℕ) (r : Step %(element)s) : Type 0 where
  pub list : (p : Str) → %(n)s_at s p at ≡ %(n)s_of s p r
  pub left : %(n)s_left s r ≤ length s - at
%(standing)s
''' % d
        if d['named'] in ('walk', 'index'):
            o += '''-- the element alone
abbrev pub %(one)s_found : Str → Str → Step %(element)s → Option %(model)s
%(one)s_found s p None = None
%(one)s_found s p (Some (e, k)) = Some (%(of)s p e%(kid)s)

''' % d
        if d['named']:
            o += '''-- the first of that name
unfoldable pub %(one)s_in : Str → List %(model)s → Option %(model)s
%(one)s_in n l = find (λ (e : %(model)s). eqs e.name n) l

''' % d
    open(R + 'specs/Steps.antt', 'w').write(o.rstrip() + '\n')


def listings():
    o = '''-- The fourteen lists of a record, as the one function that goes along them takes them. Written by tools/lists.py. Assumes nothing.
use Rattle.std.specs.Prelude.{◌≡◌, refl, ℕ, Some, None}
use Rattle.record.specs.Base.{Str, bytes, first}
%(schema)suse Rattle.record.specs.Commands.{operands, wide, widths, width_with, width_of, Step}
%(reads)s%(lists)suse Rattle.record.specs.Listing.{Elements, Answering, Listing, Searching, Naming}
%(steps)suse Rattle.record.specs.declared.command as D
use Rattle.record.specs.declared.lists.UnstoredKey.{UnstoredKey}
use Rattle.record.specs.declared.seek.Between.TheVariants.{Anything, Nothing, Keys, Fields}

-- a step along the unstored keys, each as the plugin key that it is
abbrev pub bare : Step UnstoredKey → Step D.PluginKey.PluginKey
bare None = None
bare (Some (e, k)) = Some (e.key, k)

-- what a step along them answers
abbrev pub UnstoredKeysFrom : Str → ℕ → Step UnstoredKey → Type 0
UnstoredKeysFrom s at r = UnstoredFrom s at (bare r)
''' % dict(schema=imports('use Rattle.record.specs.Schema.', sorted({d['model'] for d in LISTS})),
            reads=imports('use Rattle.record.specs.Commands.', sorted({d['at'] for d in LISTS})),
            lists=imports('use Rattle.record.specs.Lists.', sorted({d['of'] for d in LISTS} | {d['n'] for d in LISTS})),
            steps=imports('use Rattle.record.specs.Steps.', [name % d for d in LISTS for name in
                                                          ['%(n)s_at', '%(C)sFrom'] + ['%(one)s_found', '%(one)s_in'] * (d['named'] == 'walk')]))
    for d in LISTS:
        d = dict(d, e='x', E=d['element'], read=d['at'], From=d['C'] + 'From')
        if d['n'] == 'unstored':
            d.update(e='x.key', E='UnstoredKey', read='λ y. record { key = key_at y }', From='UnstoredKeysFrom')
        o += '''
-- %(n)s
abbrev pub %(one)s_elements : Elements %(E)s %(model)s
%(one)s_elements = record { number = %(b)d; between = %(between)s; read = %(read)s; of = λ s p x rest. %(of)s p %(e)s%(kidrest)s }

pub %(n)s_answers : Answering %(one)s_elements %(From)s
unfolding %(n)s_at %(n)s%(kidopen)s%(widths)s
%(n)s_answers = record {
  over = λ s at o. record { list = o.list; left = o.left%(nowhere)s };
  next = λ s at e k n h.%(break)srecord { list = n.list; left = n.left%(stands)s };
}

abbrev pub %(one)s_list : Listing %(E)s
%(one)s_list = record { Model = %(model)s; elements = %(one)s_elements; From = %(From)s; answers = %(n)s_answers }
''' % d
        if d['named'] == 'walk':
            o += '''
abbrev pub %(one)s_search : Str → Str → ℕ → Str → Step %(E)s → Type 0
%(one)s_search s p at n r = %(one)s_in n (%(n)s_at s p at) ≡ %(one)s_found s p r

pub %(n)s_search_answers : Searching %(one)s_elements %(From)s (λ e. e.name) (λ x. x.name) %(one)s_search
unfolding %(n)s_at %(n)s %(one)s_in%(kidopen)s
%(n)s_search_answers = record {
  named = λ s p e rest. refl;
  over = λ s at f. record { list = f.list; left = f.left };
  next = λ s at e k f. record { list = f.list; left = f.left };
  none = λ s p at n h. h;
  some = λ s p at n e k h. h;
}

abbrev pub %(one)s_naming : Naming %(E)s
%(one)s_naming = record {
  list = %(one)s_list;
  name = λ e. e.name;
  name_of = λ x. x.name;
  Found = %(one)s_search;
  answers = %(n)s_search_answers;
}
''' % d
    open(R + 'specs/Listings.antt', 'w').write(o)


def laws():
    o = '''-- The laws of each list, as a walk along it needs them. Written by tools/lists.py. Assumes nothing.
use Rattle.std.specs.Prelude.{Some, None}
use mathlib.Core.Path.{◌≡◌, ap, subst, ◌∙◌}
use mathlib.Core.List.{[], ◌∷◌}
use Prim.Native.Nat.{ℕ, suc, ◌-◌, ◌≤◌, ◌<◌}
use native.Mathlib.Omega.{arith}
use lib.ListN.{length}
use Rattle.record.specs.Base.{Str}
use Rattle.record.specs.Commands.{Step}
use Rattle.record.specs.Lists.{%s}
use Rattle.record.specs.Steps.{field_key_at, FieldPlace, FieldPlaced, %s}
use Rattle.record.specs.declared.command as D
use Rattle.record.specs.declared.command.Cursor.{Cursor}
''' % (', '.join(sorted({d['of'] for d in LISTS[1:]})),
       ', '.join(name % d for d in LISTS[1:] for name in
                 ['%(n)s_at', '%(n)s_of'] + ['%(n)s_left'] * (d['n'] not in UNMEASURED) + ['%(C)sFrom']))
    # of heads only the first is looked at, so that no law goes on along them
    for d in LISTS[1:]:
        o += '''
module _ (s : Str) (at : ℕ) (r : Step %(element)s) (f : %(C)sFrom s at r) where
  -- the list itself, at the step
  pub %(n)s-over-now : (p : Str) → r ≡ None → %(n)s_at s p at ≡ []
  %(n)s-over-now p m = f.list p ∙ ap (%(n)s_of s p) m

  pub %(n)s-now : (p : Str) (e : %(element)s) (k : Cursor) → r ≡ Some (e, k) → %(n)s_at s p at ≡ %(of)s p e%(kid)s ∷ %(n)s_at s p k.at
  %(n)s-now p e k m = f.list p ∙ ap (%(n)s_of s p) m
''' % d
        if d['n'] not in UNMEASURED:
            o += '''
  pub %(n)s-nearer : (e : %(element)s) (k : Cursor) → r ≡ Some (e, k) → length s - k.at < length s - at
  %(n)s-nearer e k m = let h : suc (length s - k.at) ≤ length s - at = subst (λ x. %(n)s_left s x ≤ length s - at) m f.left in omega arith
''' % d
        if d['n'] == 'fields':
            o += '''
  pub fields-stand : (e : D.Field.Field) (k : Cursor) → r ≡ Some (e, k) → FieldPlace s at e k
  fields-stand e k m = subst (λ x. FieldPlaced s at x) m f.placed
'''
    open(R + 'proofs/StepLaws.antt', 'w').write(o)


code()
specs()
listings()
laws()
