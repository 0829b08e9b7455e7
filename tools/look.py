#!/usr/bin/env python3
"""What inspect must print of tables, worked out apart from the library: crates/inspect/stdout was made so.

    tools/look.py TABLE ..     (in the folder of the tables)

Decimals come from whole fractions, rounded to six places with ties to even. It knows the refusals of the bundled tables only: version 2,
more than 16 entries, and entries whose values are out of range.
"""
import math
import struct
import sys
from fractions import Fraction
from pathlib import Path

sys.path.insert(0, str(Path(__file__).resolve().parent))
from play import Voice, counted, status, table


def decimal(x):
    if math.isnan(x):
        return 'NaN'
    sign = '-' if math.copysign(1.0, x) < 0 else ''
    if math.isinf(x):
        return sign + 'inf'
    n = round(Fraction(abs(x)) * 1000000)
    return f'{sign}{n // 1000000}.{n % 1000000:06d}'


def name(b):
    out = b''
    for i, c in enumerate(b):
        control = c < 32 or c in (127, 92) or (c == 0xC2 and b[i + 1] < 0xA0) or (i and b[i - 1] == 0xC2 and c < 0xA0)
        out += b'\\x%02x' % c if control else bytes([c])
    return out


def end_of(b):
    """Where the last entry ends: these tables have nothing after it."""
    return len(b)


def bad(e):
    good = 0 < e['pitch'] <= 20000 and 0 <= e['stretch'] <= 4 and all(map(math.isfinite, [e['main'], e['noise']] + sum(e['rows'], [])))
    return not good


def look(path):
    b = Path(path).read_bytes()
    say = lambda s: sys.stdout.buffer.write(s if isinstance(s, bytes) else s.encode())
    say(f'{path}: ')
    if b[4:6] == b'\x02\x00':
        say('refusal 4: the table is of version 2, and only versions 0 and 1 are known\n')
        return
    entries = table(b)
    n = struct.unpack_from('<I', b, 6)[0]
    say(b'accepted: "' + name(b[10:10 + n]) + f'", {counted(len(entries), "entry")}, {end_of(b)} bytes used of {len(b)}\n'.encode())
    for i, e in enumerate(entries):
        gain = lambda k: decimal(e[k]) if e[k + '_given'] else 'not given'
        say(f"  entry {i}: pitch {decimal(e['pitch'])}, stretch {decimal(e['stretch'])}, partials {e['m']}, channels {e['k']}, "
            f"noise bands {e['j']}, mainlobe_gain {gain('main')}, noise_gain {gain('noise')}\n")
    say('  noise band span: 80.000000 to 12000.000000 Hz\n')
    first_bad = next((i for i, e in enumerate(entries) if bad(e)), None)
    k = max(e['k'] for e in entries)
    for single in list(range(min(k, 16))) + [None]:
        if single is None and k > 16:
            say(f'  and {counted(k - 16, "channel")} more, which {"was" if k == 17 else "were"} not tried\n')
        say('  a blend: ' if single is None else f'  a single voice of channel {single}: ')
        if len(entries) > 16:
            say('refusal 8: the table has more than 16 entries, 32 partials or 16 noise bands\n')
            continue
        if first_bad is not None:
            say(f'refusal 9: entry {first_bad} has a pitch, stretch, coefficient or gain that is no number or out of range\n')
            continue
        j = max(e['j'] for e in entries)
        v = Voice(table(b), single, 48000.0, [1000.0] * j)
        say(f'can be made, with {counted(v.m, "partial")}, {counted(v.k, "channel")} and {counted(v.j, "noise band")}\n')


def main(words):
    if '--help' in words or '-h' in words:
        print(__doc__.strip())
        return 0
    if not words or any(w.startswith('-') for w in words):
        print('look: tables are needed, and no option but --help is known: tools/look.py TABLE ..', file=sys.stderr)
        return 2
    for path in words:
        look(path)
    return 0


if __name__ == '__main__':
    sys.exit(status(main, sys.argv[1:]))
