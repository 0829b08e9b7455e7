#!/usr/bin/env python3
"""A picture of a WAV file of one channel of 32-bit floats, as tone writes: the waveform above, the spectrogram below, with axes.

    tools/picture.py IN.wav OUT.png

The spectrogram goes up to 12 kHz, or to half the rate where that is less, and says so. Colours are by the loudest spot; silence is pale.
A sound of fewer samples than a spectrum needs has none, which is said in its place. The picture is written beside its
place and put there once it is whole, so a picture that was there is replaced by a whole one or not at all.
Status 0: drawn; 1: the file cannot be read or drawn, and why is said; 2: wrong use. Standard library only.
"""
import cmath
import errno
import math
import os
import signal
import struct
import sys
import zlib

W, H = 1000, 620
LEFT, RIGHT = 78, 20
WAVE_TOP, WAVE_BOTTOM = 56, 186
SPEC_TOP, SPEC_BOTTOM = 240, 566
PAPER, INK, GRID, LINE = (252, 252, 250), (40, 44, 52), (222, 222, 216), (36, 92, 160)

# A 5 by 7 font: rows from the top, a bit a pixel.
FONT = {
    '0': '0E11131519110E', '1': '040C040404040E', '2': '0E11010204081F', '3': '1F02040201110E', '4': '02060A121F0202', '5': '1F101E0101110E',
    '6': '0608101E11110E', '7': '1F010204080808', '8': '0E11110E11110E', '9': '0E11110F01020C', '.': '00000000000C0C', '-': '0000001F000000',
    ' ': '00000000000000', ':': '000C0C000C0C00', ',': '000000000C0408', 'k': '10101214181412', 'H': '1111111F111111', 'z': '00001F0204081F',
    's': '00000E100E011E', 'e': '00000E111F100E', 'c': '00000E1010110E', 'o': '00000E1111110E', 'n': '0000161911 1111'.replace(' ', ''),
    'd': '01010D13111 10F'.replace(' ', ''), 'a': '00000E010F110F', 'm': '00001A15151111', 'p': '00001E111E1010', 'l': '0C04040404040E',
    'i': '04000C0404040E', 't': '08081C0808 0906'.replace(' ', ''), 'u': '0000111111130D', 'f': '0609081C080808', 'r': '00001619101010', 'q': '00000D130F0101',
    'y': '000011110F010E', 'g': '00000F110F010E', 'w': '0000111115150A', 'v': '00001111110A04', 'b': '10101619111 11E'.replace(' ', ''), 'h': '10101619111111',
    'x': '0000110A040A11', 'B': '1E11111E11111E', 'j': '0200060202120C', '/': '00010204081000', '_': '0000000000001F',
    '(': '02040808080402', ')': '08040202020408', '+': '0004041F040400', '=': '00001F001F0000', '%': '18190204081303', '#': '0A0A1F0A1F0A0A',
}
UNKNOWN = '1F11111111111F'  # a box, where the font has no such letter


class NoPicture(Exception):
    """Why a file is not drawn."""


def form_of(chunk):
    """The rate, where a chunk `fmt ` is that of one channel of 32-bit floats."""
    if len(chunk) < 16:
        raise NoPicture('its chunk fmt is too short')
    form, channels, rate, _, _, bits = struct.unpack_from('<HHIIHH', chunk)
    if (form, channels, bits) != (3, 1, 32):
        kind = {1: 'whole numbers', 3: 'floats'}.get(form, f'format {form}')
        raise NoPicture(f'{channels} channel{"s" * (channels != 1)} of {bits}-bit {kind}, and only one channel of 32-bit floats is drawn')
    if rate == 0:
        raise NoPicture('its rate is 0')
    return rate


def read(path):
    """The rate and the samples."""
    with open(path, 'rb') as file:
        b = file.read()
    if b[:4] != b'RIFF' or b[8:12] != b'WAVE':
        raise NoPicture('no WAV file')
    at, rate, data = 12, None, None
    while at + 8 <= len(b) and data is None:
        mark, n = b[at:at + 4], struct.unpack_from('<I', b, at + 4)[0]
        chunk = b[at + 8:at + 8 + n]
        if len(chunk) < n:
            raise NoPicture(f'cut short: {len(chunk)} of the {n} bytes of a chunk are there')
        if mark == b'fmt ':
            rate = form_of(chunk)
        if mark == b'data':
            data = chunk
        at += 8 + n + n % 2
    if rate is None or data is None:
        raise NoPicture('cut short: it has no sound')
    return rate, struct.unpack(f'<{len(data) // 4}f', data[:len(data) // 4 * 4])


def fft(x):
    n = len(x)
    if n == 1:
        return x
    even, odd = fft(x[0::2]), fft(x[1::2])
    tw = [cmath.exp(-2j * math.pi * k / n) * odd[k] for k in range(n // 2)]
    return [a + b for a, b in zip(even, tw)] + [a - b for a, b in zip(even, tw)]


class Canvas:
    def __init__(self):
        self.rows = [bytearray(PAPER * W) for _ in range(H)]

    def dot(self, x, y, colour):
        if 0 <= x < W and 0 <= y < H:
            self.rows[y][3 * x:3 * x + 3] = bytes(colour)

    def bar(self, x, top, bottom, colour):
        for y in range(top, bottom + 1):
            self.dot(x, y, colour)

    def line(self, left, right, y, colour):
        for x in range(left, right + 1):
            self.dot(x, y, colour)

    def text(self, x, y, s, colour=INK, scale=1):
        for ch in s:
            rows = bytes.fromhex(FONT.get(ch, FONT.get(ch.lower(), UNKNOWN)))
            for j, row in enumerate(rows):
                for i in range(5):
                    if row >> (4 - i) & 1:
                        for dx in range(scale):
                            for dy in range(scale):
                                self.dot(x + i * scale + dx, y + j * scale + dy, colour)
            x += 6 * scale

    def right(self, x, y, s):
        self.text(x - 6 * len(s), y, s)

    def png(self):
        raw = b''.join(b'\0' + bytes(r) for r in self.rows)
        chunk = lambda mark, d: struct.pack('>I', len(d)) + mark + d + struct.pack('>I', zlib.crc32(mark + d))
        head = struct.pack('>IIBBBBB', W, H, 8, 2, 0, 0, 0)
        return b'\x89PNG\r\n\x1a\n' + chunk(b'IHDR', head) + chunk(b'IDAT', zlib.compress(raw, 9)) + chunk(b'IEND', b'')


def heat(v):
    """A colour for 0 to 1: paper, blue, violet, orange, yellow."""
    stops = [(252, 252, 250), (196, 214, 236), (88, 120, 196), (120, 40, 140), (226, 84, 52), (255, 214, 80)]
    x = max(0.0, min(1.0, v)) * (len(stops) - 1)
    i = min(int(x), len(stops) - 2)
    return tuple(round(a + (x - i) * (b - a)) for a, b in zip(stops[i], stops[i + 1]))


WIDE = W - LEFT - RIGHT
SIZE = 1024  # samples of a spectrum
TOO_SHORT = f'a sound of fewer than {SIZE} samples is too short for a spectrum'
QUIET = 1e-9  # less than any sound: what silence counts as


def number(x, places):
    """A number with so many places where that shows it, else with three digits. It has at most ten letters with two places."""
    return f'{x:.{places}f}' if x == 0 or 0.1 <= abs(x) < 1e6 else f'{x:.3g}'


def wave(c, s, peak):
    """The waveform: of each column the highest and the lowest sample."""
    mid, half = (WAVE_TOP + WAVE_BOTTOM) // 2, (WAVE_BOTTOM - WAVE_TOP) // 2
    full = peak or 1.0
    for v in (-1, 0, 1):
        y = mid - round(v * half)
        c.line(LEFT, W - RIGHT, y, GRID)
        c.right(LEFT - 8, y - 3, number(v * full, 2))
    for x in range(WIDE if s else 0):
        part = s[x * len(s) // WIDE:max((x + 1) * len(s) // WIDE, x * len(s) // WIDE + 1)]
        c.bar(LEFT + x, mid - round(max(part) / full * half), mid - round(min(part) / full * half), LINE)


def spectra(s):
    """The magnitudes of up to 240 spectra along a sound of at least as many samples as one has."""
    window = [0.5 - 0.5 * math.cos(2 * math.pi * i / SIZE) for i in range(SIZE)]
    columns = min(240, max(1, (len(s) - SIZE) // (SIZE // 8)))
    for k in range(columns):
        at = k * (len(s) - SIZE) // max(1, columns - 1)
        part = s[at:at + SIZE]
        yield [abs(v) / SIZE * 4 for v in fft([complex(a * w) for a, w in zip(part, window)])[:SIZE // 2]]


def spectrogram(c, s, rate, top):
    """Up to the frequency `top`, 80 dB down from the loudest spot."""
    grid = list(spectra(s))
    loud = max(max(col) for col in grid)
    for x in range(WIDE):
        col = grid[x * len(grid) // WIDE]
        for y in range(SPEC_TOP, SPEC_BOTTOM + 1):
            hz = (SPEC_BOTTOM - y) / (SPEC_BOTTOM - SPEC_TOP) * top
            v = col[min(int(hz * SIZE / rate), SIZE // 2 - 1)]
            c.dot(LEFT + x, y, heat(20 * math.log10(v / loud) / 80 + 1 if min(v, loud) > QUIET else 0))


def mark_frequencies(c, top):
    """Four to nine marks at 1, 2 or 5 times a power of ten."""
    step = next(n * 10 ** e for e in range(6) for n in (1, 2, 5) if top < n * 10 ** e * 9)
    for hz in range(0, top + 1, step):
        y = SPEC_BOTTOM - round(hz / top * (SPEC_BOTTOM - SPEC_TOP))
        c.line(LEFT - 5, LEFT - 1, y, INK)
        c.right(LEFT - 8, y - 3, f'{hz / 1000:g} kHz')


def places_for(step):
    """As many places as tell the marks apart: two or more, up to six."""
    return next((n for n in range(2, 6) if abs(step - round(step, n)) < 1e-9), 6)


def mark_times(c, seconds):
    places = places_for(seconds / 10)
    for t in range(11 if seconds else 1):
        x = LEFT + t * (WIDE - 1) // 10
        c.bar(x, SPEC_BOTTOM + 1, SPEC_BOTTOM + 5, INK)
        c.bar(x, WAVE_BOTTOM + 2, WAVE_BOTTOM + 5, INK)
        mark = f'{seconds * t / 10:.{places}f} s'
        c.text(min(x - 3 * len(mark), W - 6 * len(mark) - 4), SPEC_BOTTOM + 11, mark)


def colours(s, peak):
    return 'none' if len(s) < SIZE else '80 dB from pale to yellow' if peak else 'silence'


def draw(name, rate, samples):
    c = Canvas()
    s = [x if math.isfinite(x) else 0.0 for x in samples]
    odd = sum(not math.isfinite(x) for x in samples)
    peak = max(map(abs, s), default=0.0)
    top = min(12000, max(1, rate // 2))
    seconds = len(s) / rate
    facts = f'{len(s)} sample{"s" * (len(s) != 1)}, {rate} Hz, peak {number(peak, 3)}' + (f', {odd} no finite number' if odd else '')
    room = (WIDE - 6 * len(facts)) // 12 - 1
    c.text(LEFT, 18, name if len(name) <= room else name[:room - 2] + '..', scale=2)
    c.right(W - RIGHT, 22, facts)
    wave(c, s, peak)
    if len(s) < SIZE:
        c.text(LEFT + WIDE // 2 - 6 * len(TOO_SHORT) // 2, (SPEC_TOP + SPEC_BOTTOM) // 2, TOO_SHORT)
    else:
        spectrogram(c, s, rate, top)
    mark_frequencies(c, top)
    mark_times(c, seconds)
    c.text(LEFT, WAVE_TOP - 14, 'sound')
    c.text(LEFT, SPEC_TOP - 14, f'spectrum up to {top / 1000:g} kHz of {rate / 2000:g}: ' + colours(s, peak))
    c.text(LEFT + WIDE // 2 - 40, SPEC_BOTTOM + 30, 'time in seconds')
    return c, seconds


def shown(name):
    """A name with control characters, backslashes and what is no UTF-8 as \\xNN."""
    return ''.join(c if c.isprintable() and c != '\\' else ''.join(f'\\x{b:02x}' for b in os.fsencode(c)) for c in name)


def save(picture, png):
    """Writes the picture beside its place, then puts it there: in the place of a file that a link leads to, and of no device or folder."""
    place = os.path.realpath(picture)
    if os.path.exists(place) and not os.path.isfile(place):
        raise NoPicture('there already, and no file')
    part = f'{place}.{os.getpid()}.part'
    with open(part, 'xb') as file:
        try:
            file.write(png)
            file.flush()
            os.fsync(file.fileno())
            os.replace(part, place)
        except BaseException:
            os.unlink(part)
            raise


def say(words):
    """Prints the words, and answers the status."""
    try:
        if sys.stdout is None:
            raise OSError(errno.EBADF, os.strerror(errno.EBADF))
        print(words, flush=True)
        return 0
    except OSError as e:
        if sys.stdout is not None:
            os.dup2(os.open(os.devnull, os.O_WRONLY), 1)  # so that Python does not try once more at its end
        return fail('standard output', e)


def fail(what, why):
    print(f'{shown(what)}: {getattr(why, "strerror", None) or why}', file=sys.stderr)
    return 1


def wrong_use(words):
    """What is wrong with the arguments, or nothing."""
    for word in words:
        if word == '':
            return 'an argument: it is empty, and names no file'
        if word.startswith('-'):
            return f'{shown(word)}: no such option (write ./ before a file\'s name that starts with -)'
    return '' if len(words) == 2 else 'a WAV file and a picture to write are needed'


def main(words):
    signal.signal(signal.SIGPIPE, signal.SIG_DFL)
    if '--help' in words or '-h' in words:
        return say(__doc__.strip())
    wrong = wrong_use(words)
    if wrong:
        print(f'picture: {wrong}: tools/picture.py IN.wav OUT.png (--help tells more)', file=sys.stderr)
        return 2
    path, picture = words
    try:
        rate, samples = read(path)
        if os.path.exists(picture) and os.path.samefile(path, picture):
            raise NoPicture('the same file is to be drawn and written')
        c, seconds = draw(path.split('/')[-1], rate, samples)
    except (NoPicture, OSError) as why:
        return fail(path, why)
    try:
        save(picture, c.png())
    except (NoPicture, OSError) as why:
        return fail(picture, why)
    return say(f'{shown(picture)}: {W} by {H}, {seconds:.{places_for(seconds)}f} s of sound')


if __name__ == '__main__':
    sys.exit(main(sys.argv[1:]))
