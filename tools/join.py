#!/usr/bin/env python3
"""Merges two tables as document 02 defines it, apart from the library: crates/merge/stdout was made so.

    tools/join.py A B OUT              writes the merged table
    tools/join.py A B --words OUT      writes nothing, and prints what merge prints when it has written it to OUT
    tools/join.py A B --beside OUT     the same of the file OUT, which merge wrote: it must be the merged table but for the order of entries
                                       of equal pitch, which is free

Entries are copied as bytes and sorted by the bits of their pitch: a number with its sign bit has all bits turned, one without gets the
sign bit, which is the order of `total_cmp`. A table that would be refused, or two that do not go together, is said with the number.
"""
import struct
import sys
import zlib
from pathlib import Path

sys.path.insert(0, str(Path(__file__).resolve().parent))
from look import name
from play import counted

MOST = 65536
EDGES = b'noise_band_min_hz', b'noise_band_max_hz'


class Refused(Exception):
    """A refusal: its number, then its values."""


class Image:
    """A table's bytes, taken from the front."""

    def __init__(self, data):
        self.data, self.at = data, 0
        if len(data) > MOST:
            raise Refused(1)
        if self.take(4) != b'MSCT':
            raise Refused(3)
        version = struct.unpack('<H', self.take(2))[0]
        if version > 1:
            raise Refused(4, version)
        self.name = self.text()
        self.entries = [self.entry(i) for i in range(self.number())]
        self.used = self.at
        for i, e in enumerate(self.entries):
            if (e['span'][0] is None) != (e['span'][1] is None):
                raise Refused(7, i, i)
            if not agree(self.entries[0], e):
                raise Refused(7, 0, i)

    def take(self, n):
        if len(self.data) - self.at < n:
            raise Refused(2)
        self.at += n
        return self.data[self.at - n:self.at]

    def number(self):
        return struct.unpack('<I', self.take(4))[0]

    def text(self):
        part = self.take(self.number())
        try:
            part.decode()
        except UnicodeDecodeError:
            raise Refused(5)
        return part

    def entry(self, i):
        start = self.at
        pitch = self.number()
        self.take(4)
        m = self.number()
        self.take(4 * m)
        k, j, n = self.number(), self.number(), self.number()
        self.take(4 * n)
        values = {}
        for _ in range(self.number()):
            key = self.text()
            values.setdefault(key, struct.unpack('<f', self.take(4))[0])
        if k * (m + j) != n:
            raise Refused(6, i)
        return dict(pitch=pitch, data=self.data[start:self.at], span=[values.get(key) for key in EDGES])


def agree(first, e):
    """Whether the span of an entry agrees with the first's, which agrees with itself whatever it is."""
    return e is first or all(a is b is None or None not in (a, b) and a == b for a, b in zip(first['span'], e['span']))


def rank(e):
    """Where total_cmp puts the pitch."""
    bits = e['pitch']
    return bits ^ 0xFFFFFFFF if bits >> 31 else bits | 0x80000000


def table(name, entries):
    return b'MSCT' + struct.pack('<HI', 1, len(name)) + name + struct.pack('<I', len(entries)) + b''.join(e['data'] for e in entries)


def join(a, b):
    """The merged table. Of entries of equal pitch the first table's come first, each table's in its own order."""
    entries = a.entries + b.entries
    if not all(agree(entries[0], e) for e in entries):
        raise Refused(21)
    merged = table(a.name, sorted(entries, key=rank))
    if len(merged) > MOST:
        raise Refused(22)
    return merged


def ordered(image):
    """A table whose entries of equal pitch stand in the order of their bytes."""
    return table(image.name, sorted(image.entries, key=lambda e: (rank(e), e['data'])))


def beside(merged, data):
    """The bytes of a file that is to be the merged table, where they are but for the order of entries of equal pitch."""
    image = Image(data)
    ascending = all(rank(e) <= rank(f) for e, f in zip(image.entries, image.entries[1:]))
    assert data[:6] == merged[:6] and image.used == len(data), 'its version is not 1, or bytes follow the last entry'
    assert ascending and ordered(image) == ordered(Image(merged)), 'other entries, another order of pitches or another name'
    return data


def read(path):
    try:
        return Image(Path(path).read_bytes())
    except Refused as e:
        raise Refused(f'{path}: refusal', *e.args)


def say(path, image):
    used = f'{counted(len(image.entries), "entry")}, {image.used} bytes used of {len(image.data)}\n'
    sys.stdout.buffer.write(f'{path}: accepted: "'.encode() + name(image.name) + f'", {used}'.encode())


def main(words):
    if '--help' in words or '-h' in words:
        print(__doc__.strip())
        return 0
    option = words.pop(2) if len(words) == 4 and words[2] in ('--words', '--beside') else None
    if len(words) != 3 or any(w.startswith('-') for w in words):
        print('join: two tables and a file are needed: tools/join.py A B [--words | --beside] OUT', file=sys.stderr)
        return 2
    a, b = read(words[0]), read(words[1])
    try:
        merged = join(a, b)
    except Refused as e:
        raise Refused(f'{words[0]} and {words[1]}: refusal', *e.args)
    if option is None:
        Path(words[2]).write_bytes(merged)
        return 0
    if option == '--beside':
        merged = beside(merged, Path(words[2]).read_bytes())
    say(words[0], a)
    say(words[1], b)
    sys.stdout.flush()
    entries = counted(len(a.entries) + len(b.entries), 'entry')
    print(f'wrote {words[2]}: {entries}, {len(merged)} bytes, CRC-32 of the file {zlib.crc32(merged):08x}')
    return 0


if __name__ == '__main__':
    try:
        sys.exit(main(sys.argv[1:]))
    except Refused as e:
        print(*e.args, file=sys.stderr)
    except AssertionError as e:
        print(f'{sys.argv[-1]}: not the merged table: {e}', file=sys.stderr)
    except OSError as e:
        print(f'{e.filename or "standard output"}: {e.strerror}', file=sys.stderr)
    sys.exit(1)
