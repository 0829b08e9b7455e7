#!/usr/bin/env python3
"""Makes the example tables, their band centres and a plan of quiet windows in examples/.

    tools/make_examples.py            writes the files
    tools/make_examples.py --check    compares them with what it would write; status 1 where one differs

A table has partials and noise bands for a few pitches. It has no envelope: how a tone starts and dies away, and how often it ticks, is
the controller's doing, by the gain that it plays the voice with.

The centres of the noise bands follow the rule of the original (`noise_band_centers` in partials.rs): band j of n stands at the
fraction (j + 1) / (n + 1) of the way from the span's lower to its upper end on the mel scale, mel = 2595 log10(1 + hz / 700). It is
worked out here in double precision and rounded to f32 once, and written with 9 digits, from which the f32 comes back.
"""
import math
import struct
import sys
from pathlib import Path

sys.path.insert(0, str(Path(__file__).resolve().parent))
import made


def f32(x):
    """The f32 nearest to x."""
    return struct.unpack('<f', struct.pack('<f', x))[0]


def string(s):
    b = s.encode()
    return struct.pack('<I', len(b)) + b


def entry(pitch, stretch, partials, rows, bands, metadata):
    """An entry: rows[channel] is the list of M partial coefficients and then j noise ones."""
    out = struct.pack('<ff', pitch, stretch)
    out += struct.pack('<I', len(partials)) + b''.join(struct.pack('<f', p) for p in partials)
    out += struct.pack('<II', len(rows), bands)
    flat = [c for row in rows for c in row]
    assert all(len(row) == len(partials) + bands for row in rows)
    out += struct.pack('<I', len(flat)) + b''.join(struct.pack('<f', c) for c in flat)
    out += struct.pack('<I', len(metadata)) + b''.join(string(k) + struct.pack('<f', v) for k, v in metadata)
    return out


def table(name, entries):
    return b'MSCT' + struct.pack('<H', 1) + string(name) + struct.pack('<I', len(entries)) + b''.join(entries)


def unit(weights):
    """Weights scaled so that their sum is 1."""
    s = sum(weights)
    return [w / s for w in weights]


def centres(n, lo, hi):
    """The original's rule: n interior points, equally spaced on the mel scale."""
    mel = lambda hz: 2595.0 * math.log10(1.0 + hz / 700.0)
    hertz = lambda m: 700.0 * (10.0 ** (m / 2595.0) - 1.0)
    return [f32(hertz(mel(lo) + (j + 1) / (n + 1) * (mel(hi) - mel(lo)))) for j in range(n)]


def decimal(x):
    """x with 9 digits; the rule by which the programs read it (digits over a power of ten in f64, then the nearest f32) gives x back."""
    s = f'{x:.9g}'
    digits, _, places = s.partition('.')
    assert 'e' not in s and f32(int(digits + places) / 10 ** len(places)) == x, s
    return s


def centres_file(what, n, lo, hi):
    lines = [f'# Centres of the {n} noise bands of {what}, in Hz: mel-spaced from {lo:g} to {hi:g}.',
             '# Worked out once by tools/make_examples.py; each is an f32.']
    return '\n'.join(lines + [decimal(c) for c in centres(n, lo, hi)]) + '\n'


def knocks(*pitches):
    """Entries of a wooden knock, each of a pitch and how bright it is. A few partials, stretched as those of a bar are, that fall off
    quickly, and as much noise around them: four bands from 400 to 6,000 Hz."""
    span = [('noise_band_min_hz', 400.0), ('noise_band_max_hz', 6000.0)]
    out = []
    for pitch, bright in pitches:
        partials = [bright ** m for m in range(8)]
        noise = [1.0, 0.8, 0.5, 0.25]
        row = [0.6 * w for w in unit(partials)] + [0.4 * w for w in unit(noise)]
        out.append(entry(pitch, 1.006, [pitch * (m + 1) for m in range(8)], [row], 4,
                         [('mainlobe_gain', 1.0), ('noise_gain', 0.25)] + span))
    return out


def locating_tone():
    """The slow tick that tells where the button is: a wooden knock, played for a few hundredths of a second, once a second or slower."""
    return table('locating tone', knocks((440.0, 0.45), (880.0, 0.55), (1760.0, 0.65)))


def extra_pitches():
    """What a planner adds to the locating tone: pitches between its own, the highest first, and a duller knock at one that it has."""
    return table('extra pitches of Mill Street', knocks((1320.0, 0.6), (880.0, 0.3), (660.0, 0.5)))


def green_man():
    """The quick tone while the green man shows, as a blend of four channels. Channel 0 is a reedy body of odd partials, 1 a sweet octave
    above, 2 a bright edge that carries over traffic, and 3 the rush of air: six noise bands in the default span. The blend's gains
    say how much of each is heard."""
    out = []
    for pitch, edge in ((500.0, 1.0), (1000.0, 0.8), (2000.0, 0.6), (4000.0, 0.35)):
        m = 12
        body = unit([1.0 / k if k % 2 else 0.02 for k in range(1, m + 1)]) + [0.0] * 6
        sweet = unit([0.0 if k % 2 else 1.0 / (k * k) for k in range(1, m + 1)]) + [0.0] * 6
        bright = unit([edge / (1 + abs(k - 6)) if k > 2 else 0.0 for k in range(1, m + 1)]) + [0.0] * 6
        air = [0.0] * m + unit([0.2, 0.6, 1.0, 1.0, 0.7, 0.3])
        out.append(entry(pitch, 1.0, [pitch * k for k in range(1, m + 1)], [body, sweet, bright, air], 6,
                         [('mainlobe_gain', 0.9), ('noise_gain', 0.3)]))
    return table('green man', out)


def pelican():
    """One pure tone without noise, for the simplest trial: a single entry and channel."""
    return table('plain beep', [entry(1000.0, 1.0, [1000.0, 2000.0], [[0.9, 0.1]], 0, [])])


def odd():
    """What inspect has to print and no voice can be made of: odd floats, and a name with a control character and a backslash."""
    bits = lambda n: struct.unpack('<f', struct.pack('<I', n))[0]
    pitches = [3.4028234663852886e38, 1e-45, 16777216.0, 0.0000005, 0.00000149999, 12345.6787109375, float('inf'), float('-inf'), -0.0, bits(0x7FC00000)]
    return table('odd\n\\ Gr\u00fcn', [entry(p, -1.5, [], [[]], 0, [('noise_gain', p)]) for p in pitches])


def many():
    """More entries than a voice holds, the most channels in one of the last of them."""
    return table('many', [entry(100.0 * (i + 1), 1.0, [], [[]] * (5 if i == 17 else 1), 0, []) for i in range(20)])


def channels():
    """The largest channel count: an entry without partials and bands has no coefficients, whatever its count is."""
    one = entry(440.0, 1.0, [], [], 0, [])
    return table('channels', [one[:12] + struct.pack('<I', 0xFFFFFFFF) + one[16:]])


NIGHTS = """\
# Quiet windows of the poles at Mill Street, by the minute of the week.
#
# A line is START END STEP: from START on and before END a pole sounds by STEP hundredths of its gain, and outside of all
# windows as loud as without a plan. START and END are a day and a clock, or a minute of the week: 0 is Monday 00:00, and
# 10079 Sunday 23:59. Where windows overlap the first line counts, so what is special stands above what is usual.

# the market of Saturday: a little softer from 20:00, and not as soft as a night before it closes at 23:30
Sat 20:00 Sat 23:30 80

# nights from Monday to Friday, from 22:00; the last is longer
Mon 22:00 Tue 06:00 30
Tue 22:00 Wed 06:00 30
Wed 22:00 Thu 06:00 30
Thu 22:00 Fri 06:00 30
Fri 22:00 Sat 07:00 30

# the week-end's nights start sooner; that of Sunday runs over the week's end to Monday
Sat 21:00 Sun 08:00 30
Sun 21:00 Mon 06:00 30

# the service on Sunday morning, 10:00 to 11:15: no sound at all (minutes of the week do as well)
9240 9315 0
"""


def files():
    run, here = 'crates/inspect/data/', 'examples/'
    return {
        run + 'green-man.msct': green_man(),
        run + 'many.msct': many(),
        run + 'channels.msct': channels(),
        run + 'odd.msct': odd(),
        run + 'version-2.msct': b'MSCT' + struct.pack('<H', 2),
        'crates/tone/data/green-man.msct': green_man(),
        'crates/tone/data/green-man.centres': centres_file('green-man.msct', 6, 80.0, 12000.0).encode(),
        'crates/merge/data/locating-tone.msct': locating_tone(),
        'crates/merge/data/extra-pitches.msct': extra_pitches(),
        here + 'locating-tone.msct': locating_tone(),
        here + 'extra-pitches.msct': extra_pitches(),
        here + 'locating-tone.centres': centres_file('locating-tone.msct', 4, 400.0, 6000.0).encode(),
        here + 'green-man.msct': green_man(),
        here + 'green-man.centres': centres_file('green-man.msct', 6, 80.0, 12000.0).encode(),
        here + 'plain-beep.msct': pelican(),
        here + 'nights.plan': NIGHTS.encode(),
        'crates/tone/data/nights.plan': NIGHTS.encode(),
    }


if __name__ == '__main__':
    sys.exit(made.main(__doc__, files))
