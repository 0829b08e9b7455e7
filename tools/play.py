#!/usr/bin/env python3
"""Plays a table as document 01 defines it, apart from the library, and prints what tone prints last: samples, peak and CRC-32 of the WAV.

    tools/play.py TABLE [--single N | --blend] [--rate HZ] [--freq HZ] [--to HZ] [--gain G ..] [--seconds S] [--seed N] [--centres FILE]
                  [--retune HZ [--at S]] [--plan FILE --minute M]

Every operation on a float is worked out in double precision and rounded to f32 once: sums, differences, products, quotients and roots
of f32 come out as IEEE 754 has them, since double precision has more than twice the digits. With --words NAME it prints all that tone
writes to standard output for a file of that name: crates/tone/stdout was made so.
"""
import argparse
import math
import re
import struct
import sys
import zlib


def f(x):
    """The f32 nearest to x."""
    try:
        return struct.unpack('<f', struct.pack('<f', x))[0]
    except OverflowError:
        return math.copysign(math.inf, x)


def decimal(s):
    """A decimal number as the programs read it."""
    sign = -1.0 if s.startswith('-') else 1.0
    digits, _, places = s.lstrip('-').partition('.')
    return sign * f(int((digits + places) or '0') / 10 ** len(places))


# ---- the wave
T = [k * (15707963 * 2**32 - 6415926 * k * k * 2**16 + 707963 * k**4) // (10000000 * 2**17) for k in range(257)]


def W(k):
    if k <= 256:
        return T[k]
    if k <= 512:
        return T[512 - k]
    if k <= 768:
        return -T[k - 512]
    return -T[1024 - k]


WAVE = [W(k) for k in range(1025)]


def S(p):
    q = f(p * 1024)
    k = int(q)
    r = f(q - k)
    return f(f(f(WAVE[k]) + f(r * (WAVE[k + 1] - WAVE[k]))) * 2.0**-23)


# ---- the table
def table(b):
    at = 4

    def take(form):
        nonlocal at
        v = struct.unpack_from('<' + form, b, at)
        at += struct.calcsize('<' + form)
        return v if len(v) > 1 else v[0]

    assert b[:4] == b'MSCT' and take('H') <= 1
    n = take('I')
    at += n
    entries = []
    for _ in range(take('I')):
        pitch, stretch = take('ff')
        m = take('I')
        at += 4 * m
        k, j = take('II')
        n = take('I')
        coeffs = list(struct.unpack_from(f'<{n}f', b, at))
        at += 4 * n
        meta = {}
        for _ in range(take('I')):
            n = take('I')
            key = b[at:at + n]
            at += n
            meta.setdefault(key, take('f'))
        # rows without columns may be up to 2^32 - 1 of them; no voice has more than 16
        rows = [coeffs[c * (m + j):(c + 1) * (m + j)] for c in range(k if m + j else min(k, 16))]
        entries.append(dict(pitch=pitch, stretch=stretch, m=m, k=k, j=j, rows=rows, main=meta.get(b'mainlobe_gain', 1.0),
                            noise=meta.get(b'noise_gain', 1.0), main_given=b'mainlobe_gain' in meta, noise_given=b'noise_gain' in meta))
    return entries


# ---- bands
def band(centre, rate):
    centre = max(min(centre, f(f(rate * 0.5) * f(0.9))), 20.0)
    w = f(centre / rate)
    sn, cs = S(w), S(f(w + 0.25))
    alpha = f(sn / f(2.0 * 1.0))
    inv = f(1.0 / f(1.0 + alpha))
    b0, b1, b2 = f(alpha * inv), f(0.0 * inv), f(-alpha * inv)
    a1, a2 = f(f(-2.0 * cs) * inv), f(f(1.0 - alpha) * inv)
    return centre, (b0, b1, b2, a1, a2)


def tick(c, z, x):
    b0, b1, b2, a1, a2 = c
    y = f(f(b0 * x) + z[0])
    z[0] = f(f(f(b1 * x) - f(a1 * y)) + z[1])
    z[1] = f(f(b2 * x) - f(a2 * y))
    return y


def compensation(centre, c, rate):
    """1 over the root of the power of white noise after the band."""
    tau = max(f(rate / f(f(math.pi) * max(centre, 1.0))), 1.0)
    n = min(max(int(f(25.0 * tau)), 64), 2000000)
    z, power, x = [0.0, 0.0], 0.0, 1.0
    for _ in range(n):
        y = tick(c, z, x)
        x = 0.0
        power = f(power + f(y * y))
    return f(1.0 / f(math.sqrt(max(power, f(1e-12)))))


def lerp(a, b, t):
    return f(a + f(t * f(b - a)))


def fade(freq, nyquist):
    start = f(nyquist * f(1.0 - f(0.05)))
    if freq <= start:
        return 1.0
    if freq >= nyquist:
        return 0.0
    return f(f(nyquist - freq) / f(nyquist - start))


def bracket(pitches, f0):
    """Two places and the share between them; one entry stands on both sides."""
    last = len(pitches) - 1
    if last == 0 or f0 <= pitches[0]:
        return 0, 0, 0.0
    if f0 >= pitches[last]:
        return last, last, 0.0
    lo = max(i for i, p in enumerate(pitches) if p <= f0)
    hi = lo + 1
    return lo, hi, f(f(f0 - pitches[lo]) / f(pitches[hi] - pitches[lo]))


# ---- quiet windows
DAYS = 'Mon', 'Tue', 'Wed', 'Thu', 'Fri', 'Sat', 'Sun'
GAP = '[ \t\r]+'
EDGE = rf'(?:([0-9]+)\.?|({"|".join(DAYS)}){GAP}([01][0-9]|2[0-3]):([0-5][0-9]))'
WINDOW = re.compile(rf'{EDGE}{GAP}{EDGE}{GAP}([0-9]+)\.?')


def minute_of(number, day, hours, minutes):
    """The minute of the week that the parts of an edge name."""
    return int(number) if day is None else (DAYS.index(day) * 24 + int(hours)) * 60 + int(minutes)


def windows(text):
    """The windows of a plan's text, each after the number of its line: start, end, step."""
    found = []
    for n, line in enumerate(text.split('\n'), 1):
        line = line.strip(' \t\r')
        if line and not line.startswith('#'):
            parts = WINDOW.fullmatch(line)
            assert parts, f'line {n} is no window'
            parts = parts.groups()
            found.append((n, minute_of(*parts[:4]), minute_of(*parts[4:8]), int(parts[8])))
    return found


def held(plan, minute):
    """The first window that holds a minute, or None. The questions of document 02 come before."""
    edges = [n for n, start, end, _ in plan if max(start, end) > 10079]
    steps = [n for n, _, _, step in plan if step > 100]
    assert len(plan) <= 64, f'line {plan[64][0]}: refusal 18'
    assert not edges, f'line {edges[0]}: refusal 18'
    assert not steps, f'line {steps[0]}: refusal 19'
    assert minute <= 10079, 'refusal 20'
    for window in plan:
        _, start, end, _ = window
        # the minutes from the start on, around the week's end, up to the end
        if (minute - start) % 10080 < (end - start) % 10080:
            return window
    return None


def clock(minute):
    return f'{DAYS[minute // 1440]} {minute // 60 % 24:02d}:{minute % 60:02d}'


class Voice:
    """A voice of one channel, or a blend."""

    def __init__(self, entries, single, rate, centres):
        self.single, self.centres = single, centres
        if single is not None:
            entries = [e for e in entries if single < e['k']]
            used = [single]
            self.j = max([e['j'] for e in entries], default=0)
            self.m = max([e['m'] for e in entries], default=0)
        else:
            k = min(max([e['k'] for e in entries], default=0), 4)
            used = list(range(k))
            self.j = max([e['j'] for e in entries], default=0)
            self.m = max([m + 1 for e in entries for c in used if c < e['k'] for m in range(e['m']) if e['rows'][c][m] != 0.0],
                         default=0)
        self.entries = sorted(entries, key=lambda e: e['pitch'])
        for e in self.entries:
            e['p'] = [[e['rows'][c][m] if c < e['k'] and m < e['m'] else 0.0 for m in range(self.m)] for c in used]
            e['n'] = [[e['rows'][c][e['m'] + j] if c < e['k'] and j < e['j'] else 0.0 for j in range(self.j)] for c in used]
        live = [j for j in range(self.j) if single is not None or any(n[j] != 0.0 for e in self.entries for n in e['n'])]
        self.live, self.k = live, len(used)
        self.phases = [0.0] * self.m
        self.memories = [[0.0, 0.0] for _ in range(self.j)]
        self.noise = (0x9A271E55 + 1) % 2**32
        assert len(centres) == self.j, 'as many centres as bands'
        self.pitches = [e['pitch'] for e in self.entries]
        self.init(rate)

    def init(self, rate):
        """The rate, and the bands and compensations that it gives the centres: of a new voice, or of one that sounds and goes on."""
        self.rate = rate
        self.bands = [band(c, rate) for c in self.centres]
        self.comp = [compensation(c, b, rate) for c, b in self.bands]

    def sample(self, f0, gains):
        inv, nyquist, out = f(1.0 / self.rate), f(self.rate * 0.5), 0.0
        if not self.entries:
            return out
        lo, hi, t = bracket(self.pitches, f0)
        a, b = self.entries[lo], self.entries[hi]
        stretch, main, noise = (lerp(a[x], b[x], t) for x in ('stretch', 'main', 'noise'))
        for m in range(self.m):
            freq = f(f((m + 1) * f0) * stretch)
            ph = f(self.phases[m] + f(freq * inv))
            self.phases[m] = ph = f(ph - math.floor(ph))
            if self.single is not None:
                c = lerp(a['p'][0][m], b['p'][0][m], t)
                if c != 0.0:
                    amp = f(f(f(c * main) * fade(freq, nyquist)) * gains[0])
                    out = f(out + f(amp * S(ph)))
            else:
                c = 0.0
                for k in range(self.k):
                    c = f(c + f(gains[k] * lerp(a['p'][k][m], b['p'][k][m], t)))
                if c != 0.0:
                    out = f(out + f(f(f(c * main) * fade(freq, nyquist)) * S(ph)))
        if self.live:
            self.noise = (self.noise * 1664525 + 1013904223) % 2**32
            number = self.noise - 2**32 if self.noise >= 2**31 else self.noise
            x = f(f(f(number) / 2.0**31) * f(1.7320508))
        for j in self.live:
            y = tick(self.bands[j][1], self.memories[j], x)
            if self.single is not None:
                c = lerp(a['n'][0][j], b['n'][0][j], t)
                if c != 0.0:
                    out = f(out + f(f(f(f(c * noise) * gains[0]) * self.comp[j]) * y))
            else:
                power = 0.0
                for k in range(self.k):
                    g = f(gains[k] * lerp(a['n'][k][j], b['n'][k][j], t))
                    power = f(power + f(g * g))
                if power != 0.0:
                    out = f(out + f(f(f(f(math.sqrt(power)) * noise) * self.comp[j]) * y))
        return out


def counted(n, noun):
    """A number with its noun, as the programs say it."""
    plural = noun[:-1] + 'ies' if noun.endswith('y') else noun + 's'
    return f'{n} {noun if n == 1 else plural}'


def wav(rate, samples):
    data = struct.pack(f'<{len(samples)}f', *samples)
    head = b'WAVE' + b'fmt ' + struct.pack('<IHHIIHHH', 18, 3, 1, rate, rate * 4, 4, 32, 0)
    head += b'fact' + struct.pack('<II', 4, len(samples)) + b'data' + struct.pack('<I', len(data))
    return b'RIFF' + struct.pack('<I', len(head) + len(data)) + head + data


def millionths(seconds):
    """Millionths of a second, of at most six places."""
    whole, _, places = seconds.partition('.')
    return int((whole or '0') + places.ljust(6, '0'))


def status(work, words):
    """Does the work of a tool with its arguments, and answers the status: 1 for a file that cannot be read or played, and why is said."""
    try:
        return work(words) or 0
    except OSError as e:
        print(f'{e.filename or "standard output"}: {e.strerror}', file=sys.stderr)
    except (AssertionError, ValueError, struct.error, IndexError) as e:
        why = str(e) or 'the mark or the version is another'
        print(f'no table that can be played, or no centres or plan for it: {why}', file=sys.stderr)
    return 1


def main(words):
    p = argparse.ArgumentParser(description=__doc__, formatter_class=argparse.RawDescriptionHelpFormatter)
    p.add_argument('table')
    p.add_argument('--single', type=int, default=0)
    p.add_argument('--blend', action='store_true')
    p.add_argument('--rate', type=int, default=48000)
    p.add_argument('--freq', type=decimal)
    p.add_argument('--to', type=decimal)
    p.add_argument('--gain', type=decimal, action='append', default=[])
    p.add_argument('--seconds', default='1')
    p.add_argument('--seed', type=int)
    p.add_argument('--centres')
    p.add_argument('--retune', type=int)
    p.add_argument('--at')
    p.add_argument('--plan')
    p.add_argument('--minute')
    p.add_argument('--words')
    o = p.parse_args(words)
    if o.at is not None and (o.retune is None or millionths(o.seconds) < millionths(o.at)):
        p.error('--at is the time of a --retune, and at most --seconds')
    edge = re.fullmatch(EDGE, o.minute.strip(' \t\r')) if o.minute is not None else None
    if (o.plan is None) != (o.minute is None) or (o.minute is not None and not edge):
        p.error('--plan and --minute go together; the minute is a whole number, or a day and a clock')
    freq = 220.0 if o.freq is None else o.freq
    centres = [decimal(l.strip()) for l in open(o.centres) if l.strip() and not l.startswith('#')] if o.centres else []
    v = Voice(table(open(o.table, 'rb').read()), None if o.blend else o.single, float(o.rate), centres)
    if o.seed is not None:
        v.noise = (o.seed + 1) % 2**32
    total = millionths(o.seconds) * o.rate // 1000000
    change = total // 2 if o.at is None else millionths(o.at) * o.rate // 1000000
    gains = o.gain + [1.0, 0.0, 0.0, 0.0][len(o.gain):]
    if o.plan is not None:
        minute = minute_of(*edge.groups())
        window = held(windows(open(o.plan, newline='', encoding='latin-1').read()), minute)
        quiet = f(window[3] / 100) if window else 1.0
        gains = [f(g * quiet) for g in gains]
    out = []
    for n in range(total):
        if o.retune is not None and n == change:
            v.init(float(o.retune))
        f0 = freq if o.to is None else lerp(freq, o.to, f(f(n) / f(total)))
        out.append(v.sample(f0 if f0 > 0 and math.isfinite(f0) else 0.0, gains))
    peak = max([abs(x) for x in out], default=0.0)
    if o.words:
        b = open(o.table, 'rb').read()
        n = struct.unpack_from('<I', b, 6)[0]
        has = f'{counted(v.m, "partial")} and {counted(v.j, "noise band")}'
        print(f'table "{b[10:10 + n].decode()}": {counted(len(table(b)), "entry")}; the voice has {has}')
        print(f'pitch {freq:.6f}' + (f' to {o.to:.6f}' if o.to is not None else '') + ' Hz' + (' (no --freq was given)' if o.freq is None else ''))
        if v.k < len(o.gain):
            print(f'the voice has {counted(v.k, "channel")}: the gains beyond are not heard')
        if o.plan is not None:
            place = f'line {window[0]}, {clock(window[1])} to {clock(window[2])}' if window else 'no window'
            print(f'plan: {clock(minute)} is in {place}: gain {quiet:.6f}')
        blocks = -(-total // 128)
        tenths = [d for d in range(1, blocks + 1) if (d - 1) * 10 // blocks < d * 10 // blocks]
        lines = [(min(d * 128, total), f'played {min(d * 128, total)} of {counted(total, "sample")}') for d in tenths]
        if o.retune is not None:
            lines.append((change, f'retuned to {o.retune} a second after {counted(change, "sample")}'))
        for _, line in sorted(lines, key=lambda l: l[0]):
            print(line)
        print(f'wrote {o.words}: ', end='')
    print(f'{counted(total, "sample")} at {o.rate} a second, peak {peak:.6f}, CRC-32 of the file {zlib.crc32(wav(o.rate, out)):08x}')
    if o.words and peak > 1:
        print('the peak is above 1, where players cut it off: a lower --gain helps')


if __name__ == '__main__':
    sys.exit(status(main, sys.argv[1:]))
