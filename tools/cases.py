#!/usr/bin/env python3
"""cases.py: writes the inputs of the programs' cases, cases/PROGRAM/NAME.in, and what each must print, NAME.out. The gate runs every program on
its cases. The expectations are document 01's own (its example, its rules for parts, its limits), written out by hand here. Run from the
repository's top."""
import os
import struct


class Record:
    """Commands and pool of a record, written name by name."""

    def __init__(self):
        self.stream, self.pool, self.seen = b'', b'', {}

    def text(self, s):
        s = s.encode()
        if s not in self.seen:
            self.seen[s] = len(self.pool)
            self.pool += s
        return struct.pack('<HB', self.seen[s], len(s))

    def optional(self, s):
        return b'\xff\xff\x00' if s is None else self.text(s)

    def number(self, n):
        return struct.pack('<BI', 0, 0) if n is None else struct.pack('<BI', 1, n)

    def head(self, release='1.0.0'):
        self.stream += b'\x01' + self.optional(release) + b'\x00'
        return self

    def constant(self, name, value):
        self.stream += b'\x02' + self.text(name) + b'\x00' + struct.pack('<q', value) + self.optional(None) + b'\x00' + self.optional(None)
        return self

    def version(self, name, number):
        self.stream += b'\x0e' + self.text(name) + struct.pack('<I', number)
        return self

    def struct(self, name, slot=None, version=None):
        self.stream += b'\x08' + self.text(name) + self.optional(slot) + self.optional(version)
        return self

    def field(self, name, kind, typ=None, element=None, count=None, rows=None, cols=None, size=None):
        self.stream += b'\x0b' + self.text(name) + self.text(kind) + self.optional(typ) + self.optional(element)
        self.stream += self.number(count) + self.number(rows) + self.number(cols) + self.number(size)
        return self

    def end(self):
        self.stream += b'\x0f'
        return self

    def parts(self):
        return part(self.stream) + part(self.pool)


def part(b):
    return struct.pack('<I', len(b)) + b


def tile():
    """The record of 01's example."""
    r = Record().head().struct('tile')
    return r.field('n', 'scalar', 'u16').field('skip', 'scalar', 'u8').field('gap', 'padding', size=1).end()


def wide(length):
    """A record whose list has this many bytes, with the list: lines of one form, the last field's name as long as is needed."""
    r = Record().head().struct('t' * 200)
    lines = ''
    left = length
    offset = 0
    while left:
        tail = ' %d 1 scalar\n' % offset
        name = min(255, left - 201 - len(tail))
        after = left - 201 - len(tail) - name
        if 0 < after < 300:
            name -= 100
            after += 100
        r.field('f' * name, 'scalar')
        lines += 't' * 200 + '.' + 'f' * name + tail
        left = after
        offset += 1
    return r.end(), lines


TILE = 'tile.n 0 2 scalar u16\ntile.skip 2 1 scalar u8\ntile.gap 3 1 padding\n'


def layout_list():
    t = tile()
    yield 'example', t.parts(), TILE
    yield 'empty_list', Record().head().end().parts(), ''
    yield 'bytes_after', t.parts() + b'more', TILE
    yield 'no_input', b'', '1 0 0\n'
    yield 'cut_length', part(t.stream) + b'\x05\x00', '4 0 0\n'
    yield 'cut_part', struct.pack('<I', len(t.stream)) + t.stream[:-1], '4 0 0\n'
    yield 'cut_stream', part(t.stream[:-1]) + part(t.pool), '1 0 %d\n' % (len(t.stream) - 1)
    yield 'long_stream', struct.pack('<I', 32769) + t.stream, '8 0 0\n'
    yield 'long_pool', part(b'\x00') + struct.pack('<I', 16385), '8 0 0\n'
    fits, lines = wide(65536)
    yield 'whole_buffer', fits.parts(), lines
    yield 'one_byte_more', wide(65537)[0].parts(), '10 0 0\n'


def scan(release, generation=3, last='gap', entry=None):
    """A root with a generation number over the tile, whose last byte is padding or a field; the padding may come first."""
    r = Record().head(release).constant('GENERATION', generation).struct('scan', 'metadata', 'GENERATION').field('tiles', 'struct_ptr', 'tile')
    r.struct('tile')
    if last == 'moved':
        r.field('gap', 'padding', size=1)
    r.field('n', 'scalar', 'u16').field('skip', 'scalar', 'u8')
    if last == 'gap':
        r.field('gap', 'padding', size=1)
    if last == 'mode':
        r.field('mode', 'scalar', 'u8')
    if entry:
        r.version('scan', entry)
    return r.end()


def unchanged(release):
    r = Record()
    r.text('abc')
    return r.head(release).struct('abc', 'metadata', 'G').struct('abd').constant('G', 1).end()


MOVED = "35 tile.n was at offset 0 in the last release and is at 1 now - a shipped field's bytes stay where they are\n"
UNRAISED = ("43 scan is still generation 3, and tile's layout has changed since the last release - raise GENERATION to 4, and add a [[versions]] "
            'entry saying which release that generation ships in\n')
REPEATED = ('15 the released schema names 1.0.0 and this schema names 1.0.0, so there is no released layout to compare against - raise [schema] '
            'firmware_release, or refresh the copy with ci/update-released-schema.sh\n')


def release_check():
    was = scan('1.0.0')
    yield 'accepted', scan('1.1.0').parts() + was.parts(), '0\n'
    yield 'field_added', scan('1.1.0', 4, 'mode', 4).parts() + was.parts(), '0\n'
    yield 'field_moved', scan('1.1.0', 4, 'moved', 4).parts() + was.parts(), MOVED
    yield 'generation_unraised', scan('1.1.0', 3, 'mode').parts() + was.parts(), UNRAISED
    yield 'release_repeated', was.parts() + was.parts(), REPEATED
    # the root's name is three bytes at the front of the pool, and the first structure stands at 5: an entry left over in a table would read as
    # the root
    yield 'two_unchanged', unchanged('1.1.0').parts() + unchanged('1.0.0').parts(), '0\n'
    yield 'bytes_after', scan('1.1.0').parts() + was.parts() + b'more', '0\n'
    yield 'no_input', b'', '1 0 0\n'
    yield 'no_release', was.parts(), '1 1 0\n'
    yield 'cut_length', scan('1.1.0').parts() + part(was.stream) + b'\x05', '4 1 0\n'
    yield 'cut_part', scan('1.1.0').parts() + struct.pack('<I', len(was.stream)) + was.stream[:-1], '4 1 0\n'
    yield 'cut_stream', scan('1.1.0').parts() + part(was.stream[:-1]) + part(was.pool), '1 1 %d\n' % (len(was.stream) - 1)
    # an over-long part is 8, but a fault of the current record comes before one of the release
    yield 'long_stream', struct.pack('<I', 32769) + was.parts(), '8 0 0\n'
    yield 'long_release', scan('1.1.0').parts() + struct.pack('<I', 32769) + was.stream, '8 1 0\n'
    yield 'long_after_cut', part(b'\x01') + part(b'') + struct.pack('<I', 32769), '1 0 0\n'
    yield 'long_pool_first', part(b'\x01') + struct.pack('<I', 16385), '8 0 0\n'


def main():
    for program in (layout_list, release_check):
        folder = 'cases/%s/' % program.__name__
        os.makedirs(folder, exist_ok=True)
        for name, given, expected in program():
            open(folder + name + '.in', 'wb').write(given)
            open(folder + name + '.out', 'w').write(expected)


main()
