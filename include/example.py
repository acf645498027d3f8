#!/usr/bin/env python3
"""The check program in Python, over the shared library that tools/sharedlib.sh makes: four parts on standard input, each a length of four
bytes, little-endian, and its bytes. python3 include/example.py target/shared/libmenqachu.so"""
import ctypes
import sys

STREAM_LIMIT, POOL_LIMIT, TEXT_ROOM = 32768, 16384, 65536


class Answer(ctypes.Structure):
    _fields_ = [('number', ctypes.c_uint32), ('side', ctypes.c_uint32), ('place', ctypes.c_size_t), ('len', ctypes.c_size_t)]


def opened(path):
    """The library, with the form of the one call that is used here. A slice is a pointer and a length."""
    library = ctypes.CDLL(path)
    library.menqachu_check.argtypes = [ctypes.c_char_p, ctypes.c_size_t] * 5
    library.menqachu_check.restype = Answer
    return library


def check(library, stream, pool, past, old):
    """The answer of the check, and a verdict's message."""
    out = ctypes.create_string_buffer(TEXT_ROOM)
    slices = [word for part in (stream, pool, past, old) for word in (part, len(part))]
    answer = library.menqachu_check(*slices, out, TEXT_ROOM)
    return answer, out.raw[:answer.len] if answer.number > 10 else b''


def read_part(limit):
    """A cut length counts as 0, a part that ends early as the bytes that came, and one stated longer than the limit as a part that is one byte
    too long."""
    head = sys.stdin.buffer.read(4)
    length = int.from_bytes(head, 'little') if len(head) == 4 else 0
    return bytes(limit + 1) if length > limit else sys.stdin.buffer.read(length)


def main():
    if len(sys.argv) != 2:
        sys.exit(__doc__)
    parts = [read_part(limit) for limit in (STREAM_LIMIT, POOL_LIMIT) * 2]
    answer, message = check(opened(sys.argv[1]), *parts)
    if answer.number == 0:
        print('0')
    elif answer.number <= 10:
        print(answer.number, answer.side, answer.place)
    else:
        print(answer.number, message.decode())


main()
