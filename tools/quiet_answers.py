#!/usr/bin/env python3
"""Writes the plans and answers of crates/quiet_check: src/cases.rt and stdout.

    tools/quiet_answers.py            writes the files
    tools/quiet_answers.py --check    compares them with what it would write; status 1 where one differs

It is written from card 2 of document 02, and nothing here is taken from the crate `quiet`. The week is painted: from the last window to
the first, each window as many minutes from its start on as its end is away, round the week; what is painted last is the first window that
holds the minute. A gain is the exact fraction of a hundred, rounded to the nearest float, ties to the even one, by whole numbers. A refusal
is the first of a list of complaints that has a window or the minute in it, and its gain is 1.
"""
import sys
from fractions import Fraction
from pathlib import Path

sys.path.insert(0, str(Path(__file__).resolve().parent))
import made

WEEK = 7 * 24 * 60
PLACES = 64
DAY = 24 * 60
MOST = 2**32 - 1
POOL = 200  # random windows; a plan takes some that follow one another
GOOD = (540, 1020, 50)  # what stands in the places of an asked plan that it does not name


def pattern(x):
    """The bits of the float nearest to a fraction from 0 to 1."""
    if x == 0:
        return 0
    power = 0
    while x < Fraction(1, 2**power):
        power += 1
    digits = x * 2 ** (23 + power)  # at least 2^23 and below 2^24
    whole, rest = digits.numerator // digits.denominator, digits - digits.numerator // digits.denominator
    if rest > Fraction(1, 2) or rest == Fraction(1, 2) and whole % 2:
        whole += 1
    return (127 - power << 23) + whole - 2**23


def painted(windows):
    """For each minute of the week the first window that holds it; how many windows there are where none does."""
    week = [len(windows)] * WEEK
    for i in reversed(range(len(windows))):
        start, end, _ = windows[i]
        for far in range((end - start) % WEEK):
            week[(start + far) % WEEK] = i
    return week


def gain(windows, i):
    return pattern(Fraction(windows[i][2], 100) if i < len(windows) else Fraction(1))


def runs(windows):
    """The runs of minutes with one answer: first minute, last minute, window."""
    week, found = painted(windows), []
    for minute, i in enumerate(week):
        if found and found[-1][2] == i:
            found[-1][1] = minute
        else:
            found.append([minute, minute, i])
    return found


def refusal(count, windows, minute):
    """Number and window of the refusal; None of what is accepted. `windows` are the 64 places."""
    used = windows[:count]
    complaints = [
        (18, [PLACES] if count > PLACES else []),
        (18, [i for i, (start, end, _) in enumerate(used) if max(start, end) >= WEEK]),
        (19, [i for i, (_, _, step) in enumerate(used) if step > 100]),
        (20, [None] if minute >= WEEK else []),
    ]
    return next(((number, where[0]) for number, where in complaints if where), None)


class Random:
    def __init__(self, seed):
        self.state = seed

    def below(self, n):
        self.state = (self.state * 6364136223846793005 + 1442695040888963407) % 2**64
        return (self.state >> 33) % n


def by_hand():
    """Plans that a person wrote, each with what it shows."""
    nights = [(day * DAY + 22 * 60, (day * DAY + 30 * 60) % WEEK, 20 + day) for day in range(7)]
    return [
        ('no window', []),
        ('all minutes but the last', [(0, 10079, 0)]),
        ('the last minute alone', [(10079, 0, 37)]),
        ('the first minute alone', [(0, 1, 99)]),
        ('all minutes but the first', [(1, 0, 50)]),
        ('all minutes but one, over the end of the week', [(5041, 5040, 61)]),
        ('equal edges hold nothing', [(600, 600, 0)]),
        ('equal edges at both ends of the week', [(0, 0, 1), (10079, 10079, 2)]),
        ('over the end of the week', [(10020, 300, 30)]),
        ('overlaps: the first counts', [(480, 1200, 20), (600, 720, 80), (1100, 1300, 60)]),
        ('the same from the last', [(1100, 1300, 60), (600, 720, 80), (480, 1200, 20)]),
        ('an overlap past the end of the week', [(10000, 200, 10), (100, 300, 90), (9900, 10050, 70)]),
        ('the same from the last', [(9900, 10050, 70), (100, 300, 90), (10000, 200, 10)]),
        ('one in the other', [(4000, 4100, 3), (3000, 5000, 5), (2000, 6000, 7), (6000, 2000, 9)]),
        ('two that hold the week together', [(3333, 7777, 42), (7777, 3333, 58)]),
        ('seven days, all but the last minute', [(day * DAY, min(day * DAY + DAY, 10079), 10 * day) for day in range(7)]),
        ('seven days', [(day * DAY, (day * DAY + DAY) % WEEK, 11 * day + 1) for day in range(7)]),
        ('seven nights, the last over the end of the week', nights),
        ('a held gain of 1', [(0, 5040, 100), (2520, 7560, 100)]),
        ('single minutes', [(2 * i + 1, 2 * i + 2, 36 + i) for i in range(64)]),
        ('one window 64 times', [(700, 9000, 64 - i) for i in range(64)]),
        ('the last of 64 alone holds', [(i * 100, i * 100, i) for i in range(63)] + [(9999, 99, 33)]),
        ('steps 0 to 63', [(i * 157, i * 157 + 157, i) for i in range(64)]),
        ('steps 64 to 100', [(i * 272, (i * 272 + 272) % WEEK, 64 + i) for i in range(37)]),
    ]


def pool():
    """Random windows: short ones and long ones, so that late windows show too, with edges that others have now and then, and each step."""
    rnd, windows = Random(1), []
    for i in range(POOL):
        start = windows[rnd.below(i)][rnd.below(2)] if i and rnd.below(6) == 0 else rnd.below(WEEK)
        length = rnd.below((30, 90, 300, 2000)[rnd.below(4)]) if rnd.below(40) else rnd.below(WEEK)
        windows.append((start, (start + length) % WEEK, i * 11 % 101))
    return windows


# What fills the places past a plan's windows: each would hold, or be refused, if it were looked at.
BEYOND = [(0, 10079, 77), (10080, 0, 5), (1, 0, 101), (99999, 99999, 999)]


def plans():
    """Each plan's words, where its windows start in the list of windows, and how many they are; and that list."""
    listed, found = list(BEYOND), []
    for words, windows in by_hand():
        found.append((words, len(listed), len(windows)))
        listed += windows
    for count in range(PLACES + 1):
        found.append((f'{count} random windows', len(listed) + count * 29 % (POOL - PLACES), count))
    return found, listed + pool()


def asked():
    """Count, minute, and two windows with their places, at each limit; the other places hold GOOD."""
    plain, bad_edge, bad_step, worst = (50, GOOD), (0, 10080, 50), (0, 60, 101), (MOST, MOST, MOST)
    out = [(64, 600, plain, plain)]
    out += [(count, 600, plain, plain) for count in (65, 66, 128, 256, 65536, 2**31, MOST)]
    out += [(65, 600, (3, bad_edge), (2, bad_step)), (65, 10080, plain, plain)]
    for edge in (10079, 10080, 10081, 65536 + 540, MOST):
        out += [(64, 600, (63, (edge, 0, 50)), plain), (64, 600, (63, (0, edge, 50)), plain), (1, 600, (0, (edge, 700, 50)), plain)]
    out += [(64, 600, (0, (10080, 0, 50)), (63, bad_edge)), (64, 600, (7, bad_edge), (6, (10080, 10080, 50)))]
    for step in (0, 100, 101, 256, 256 + 50, 65536 + 50, MOST):
        out += [(64, 600, (63, (0, 60, step)), plain), (1, 600, (0, (540, 1020, step)), plain)]
    out += [(64, 600, (9, bad_step), (8, (0, 60, 200))), (64, 600, (9, (60, 60, 101)), plain)]
    out += [(64, 600, (2, bad_step), (5, bad_edge)), (64, 600, (5, bad_step), (2, bad_edge)), (2, 600, (1, (10080, 0, 101)), plain)]
    out += [(64, minute, plain, plain) for minute in (0, 539, 540, 1019, 1020, 10079, 10080, 10081, 20160, 65536 + 600, 2**31, MOST)]
    out += [(64, 10080, (40, bad_step), plain), (64, 10080, (40, bad_edge), plain), (64, MOST, (40, bad_edge), (39, bad_step))]
    # past the windows of the plan nothing is looked at
    out += [(63, 600, (63, worst), plain), (1, 1020, (1, (10080, 0, 50)), (2, bad_step))]
    out += [(0, 10079, (0, worst), (63, (0, 10079, 0))), (0, 10080, (0, worst), plain), (0, 0, (0, (0, 10079, 0)), plain)]
    return out


def shown_plan(number, windows):
    yield f'plan {number}: count {len(windows)}'
    for first, last, i in runs(windows):
        yield f'plan {number}: {first} to {last} window {i} gain 0x{gain(windows, i):08x}'


def shown_case(case):
    """What is asked and what is answered."""
    count, minute, *named = case
    windows = [GOOD] * PLACES
    for place, window in named:
        windows[place] = window
    said = ''.join(f', window {place} is {w[0]} to {w[1]} step {w[2]}' for place, w in named if w != GOOD)
    no = refusal(count, windows, minute)
    if no is None:
        i = painted(windows[:count])[minute]
        answer = f'window {i} gain 0x{gain(windows[:count], i):08x}'
    else:
        answer = f'refused {no[0]}' + ('' if no[1] is None else f' window {no[1]}') + f' gain 0x{pattern(Fraction(1)):08x}'
    return f'minute {minute}, count {count}{said}', answer


def array(text, name, kind, rows):
    """An array, as `rt fmt` lays it out."""
    return f'\n{text}pub const {name}: [{kind}; {len(rows)}] = [\n{made.rows(rows)}];\n'


def laid(left, items, right, indent):
    """A tuple or an array, as `rt fmt` lays it out: in a line where its elements take 60 columns at most, else one to a line."""
    line = ', '.join(items)
    if len(line) <= 60:
        return left + line + right
    return left + '\n' + ''.join(f'{indent}    {item},\n' for item in items) + indent + right


def files():
    (found, listed), cases = plans(), asked()
    table, limits, out = [], [], []
    for number, (words, at, count) in enumerate(found):
        table.append((f'({at}, {count}, {number % len(BEYOND)})', f'plan {number}: {words}'))
        out += shown_plan(number, listed[at:at + count])
    for case in cases:
        count, minute, *named = case
        asks, answer = shown_case(case)
        pair = laid('[', [f'{at}' for at in named], ']', ' ' * 8)
        limits.append((laid('(', [f'{count}', f'{minute}', pair], ')', ' ' * 4), asks))
        out.append(f'{asks}: {answer}')
    text = '// Made by tools/quiet_answers.py, which paints the week to know each answer.\n'
    text += array('// Plans: where the windows start in WINDOWS, how many they are, and which window of WINDOWS fills the places beyond them.\n',
                  'PLANS', '(usize, u32, usize)', table)
    text += array('// Windows: start, end and step.\n', 'WINDOWS', '(u32, u32, u32)', [f'{window}' for window in listed])
    text += array('''// Plans at the limits: how many windows, the minute, and two windows at their places. In every other place stands 540 to 1020
// step 50.
''', 'ASKED', '(u32, u32, [(usize, (u32, u32, u32)); 2])', limits)
    return {'crates/quiet_check/src/cases.rt': text.encode(), 'crates/quiet_check/stdout': ('\n'.join(out) + '\n').encode()}


if __name__ == '__main__':
    sys.exit(made.main(__doc__, files))
