// Plans of quiet windows beside card 2 of document 02, written out another way than the library's: the original knows no plans. A window
// holds the minutes that are less far from its start, round the week, than its end is; the windows are gone through from the last to the
// first, and the one found last counts; a gain is worked out by whole numbers.
use crate::ffi::{self, Answer, Plan, Window};
use crate::race::Race;
use crate::rand::Rand;
use crate::tally::Tally;
use std::hint::black_box;

const WEEK: u32 = 7 * 24 * 60;
const ONE: u32 = 0x3F80_0000;
const NOTHING: Window = Window { start: 0, end: 0, step: 0 };

// The bits of the float nearest to a number of hundredths from 0 to 100, ties to the even one.
fn hundredths(step: u32) -> u32 {
    if step == 0 {
        return 0;
    }
    let down = (0..=7).find(|d| step << d >= 100).unwrap();
    let times = (step as u64) << (23 + down);
    let (whole, rest) = (times / 100, times % 100);
    let up = (rest > 50 || rest == 50 && whole % 2 == 1) as u64;
    ((127 - down) << 23) + (whole + up - (1 << 23)) as u32
}

// The windows that a plan is: what stands past them is not looked at.
fn used(p: &Plan) -> &[Window] {
    &p.windows[..p.count.min(64) as usize]
}

// Of edges within the week.
fn holds(v: &Window, minute: u32) -> bool {
    let far = |m: u32| (m + WEEK - v.start) % WEEK;
    far(minute) < far(v.end)
}

fn bad_edge(v: &Window) -> bool {
    v.start.max(v.end) >= WEEK
}

fn bad_step(v: &Window) -> bool {
    v.step > 100
}

// Number, window and gain: the first question that finds something, in their order, or the window that holds the minute.
fn expected(p: &Plan, minute: u32) -> (Answer, u32) {
    let asked = [
        (18, (p.count > 64).then_some(64)),
        (18, used(p).iter().position(bad_edge)),
        (19, used(p).iter().position(bad_step)),
        (20, (minute >= WEEK).then_some(0)),
    ];
    if let Some((number, Some(first))) = asked.into_iter().find(|a| a.1.is_some()) {
        return (Answer { number, first, second: 0 }, ONE);
    }
    let (mut first, mut gain) = (p.count as usize, ONE);
    for (i, v) in used(p).iter().enumerate().rev() {
        if holds(v, minute) {
            (first, gain) = (i, hundredths(v.step));
        }
    }
    (Answer { number: 0, first, second: 0 }, gain)
}

fn differs(p: &Plan, minute: u32) -> Result<u32, String> {
    let (ours, (answer, gain)) = (ffi::quiet_gain(p, minute), expected(p, minute));
    if ours.answer != answer {
        return Err(format!("answer: ours {:?}, expected {answer:?}", ours.answer));
    }
    if ours.gain.to_bits() != gain {
        return Err(format!("gain: ours {:08x}, expected {gain:08x}", ours.gain.to_bits()));
    }
    Ok(answer.number)
}

// ---- plans
// The week's first minutes and last ones, and numbers that become such in 16 bits, or in none.
const EDGES: [u32; 8] = [0, 1, 10078, 10079, 10080, 10081, 65536 + 60, u32::MAX];
const STEPS: [u32; 7] = [0, 1, 99, 100, 101, 256 + 50, u32::MAX];
const SIZES: [u32; 5] = [0, 1, 2, 63, 64];
const TOO_MANY: [u32; 6] = [65, 66, 128, 256 + 3, 65536 + 3, u32::MAX];

fn minute_of_week(r: &mut Rand) -> u32 {
    r.below(WEEK as usize) as u32
}

// A good window: short, long, or over the week's end; now and then with an edge of the one before, or with equal edges.
fn window(r: &mut Rand, before: &Window) -> Window {
    let start = match r.below(8) {
        0 => before.start % WEEK,
        1 => before.end % WEEK,
        2 => r.pick(&EDGES) % WEEK,
        _ => minute_of_week(r),
    };
    let most = r.pick(&[2, 60, 600, WEEK as usize]);
    Window { start, end: (start + r.below(most) as u32) % WEEK, step: r.below(101) as u32 }
}

// Any numbers, or a window that would hold nearly every minute.
fn spare(r: &mut Rand) -> Window {
    match r.below(3) {
        0 => Window { start: r.next() as u32, end: r.next() as u32, step: r.next() as u32 },
        1 => Window { start: 0, end: WEEK - 1, step: r.below(101) as u32 },
        _ => Window { start: r.pick(&EDGES), end: r.pick(&EDGES), step: r.pick(&STEPS) },
    }
}

// One number of a plan is another, often one that is refused.
fn damage(r: &mut Rand, p: &mut Plan) {
    let at = r.below(64.min(p.count.max(1) as usize));
    match r.below(4) {
        0 => p.windows[at].start = r.pick(&EDGES),
        1 => p.windows[at].end = r.pick(&EDGES),
        2 => p.windows[at].step = r.pick(&STEPS),
        _ => p.count = r.pick(&TOO_MANY),
    }
}

fn any_plan(r: &mut Rand) -> Plan {
    let count = if r.chance(30) { r.pick(&SIZES) } else { r.below(65) as u32 };
    let mut p = Plan { count, windows: [NOTHING; 64] };
    let mut before = NOTHING;
    for i in 0..64 {
        p.windows[i] = if i < count as usize { window(r, &before) } else { spare(r) };
        before = p.windows[i];
    }
    while r.chance(25) {
        damage(r, &mut p);
    }
    p
}

// Plans that a person wrote: one window at each pair of odd edges, each step by itself, the last of 64, none.
fn by_hand() -> Vec<Plan> {
    let full = |v: Window| Plan { count: 1, windows: [v; 64] };
    let mut plans: Vec<Plan> = EDGES.iter().flat_map(|&start| EDGES.map(|end| full(Window { start, end, step: 40 }))).collect();
    plans.extend((0..=101).map(|step| full(Window { start: 100, end: 200, step })));
    plans.extend(SIZES.iter().chain(&TOO_MANY).map(|&count| Plan { count, ..full(Window { start: 9000, end: 1000, step: 70 }) }));
    let mut last = Plan { count: 64, windows: [NOTHING; 64] };
    last.windows[63] = Window { start: WEEK - 1, end: 0, step: 5 };
    plans.push(last);
    plans
}

// ---- a run
// Each edge of a plan, the minute before it and the one after, the week's limits, and some others.
fn minutes(r: &mut Rand, p: &Plan) -> Vec<u32> {
    let edges = used(p).iter().flat_map(|v| [v.start, v.end]);
    let mut all: Vec<u32> = edges.flat_map(|e| [e.wrapping_sub(1), e, e.wrapping_add(1)]).collect();
    all.extend(EDGES);
    all.extend((0..8).map(|_| minute_of_week(r)));
    all.push(r.next() as u32);
    all
}

// Windows are left out, and what stands past them made 0, where the difference stays.
fn shrunk(p: &Plan, minute: u32) -> Plan {
    let mut best = *p;
    for i in (0..64).rev() {
        let mut fewer = best;
        fewer.windows[i..].rotate_left(1);
        fewer.windows[63] = NOTHING;
        fewer.count = fewer.count.saturating_sub((i < p.count as usize && p.count <= 64) as u32);
        if differs(&fewer, minute).is_err() {
            best = fewer;
        }
    }
    best
}

fn ask(p: &Plan, minutes: impl IntoIterator<Item = u32>, tally: &mut Tally) {
    tally.cases += 1;
    for minute in minutes {
        tally.calls += 1;
        match differs(p, minute) {
            Ok(number) => tally.number(number),
            Err(e) => tally.difference(&e, || {
                let s = shrunk(p, minute);
                (format!("minute {minute}, count {}, windows {:?}", s.count, &s.windows[..3]), differs(&s, minute).unwrap_err())
            }),
        }
    }
}

// Those by hand and one random plan in a hundred are also asked for every minute of the week, and two past it.
pub fn run(plans: usize, seed: u64, tally: &mut Tally) {
    let mut r = Rand(seed);
    for p in by_hand() {
        ask(&p, minutes(&mut r, &p).into_iter().chain(0..WEEK + 2), tally);
    }
    for i in 0..plans {
        let p = any_plan(&mut r);
        let week = if i % 100 == 0 { WEEK + 2 } else { 0 };
        ask(&p, minutes(&mut r, &p).into_iter().chain(0..week), tally);
    }
}

// What a call takes by the number of windows: where none holds they are all looked through three times.
pub fn race(race: &Race) {
    for count in [0, 1, 16, 32, 64] {
        let p = Plan { count, windows: [Window { start: 600, end: 1200, step: 50 }; 64] };
        for (what, minute) in [("the first holds", 700), ("none holds", 1300)] {
            race.alone(&format!("the gain of a minute, {count} windows, {what}"), || {
                black_box(ffi::quiet_gain(black_box(&p), black_box(minute)));
            });
        }
    }
}
