// Times of making, retuning and playing.
use super::*;
use crate::race::{Race, table};
use std::hint::black_box;

const RATE: f32 = 48000.0;

// An input of k channels that goes from a towards b within a block.
fn glide(n: usize, k: usize, a: f32, b: f32) -> Input {
    (k, (0..k * n).map(|i| a + (b - a) * (i % n) as f32 / n as f32).collect())
}

// Both sides' arguments for a voice of four entries: the image, the table read, and the centres.
struct Setup {
    kind: u32,
    image: Vec<u8>,
    table: Arc<CoeffTable>,
    centres: Vec<f32>,
}

fn setup(kind: u32, m: usize, k: u32, j: u32) -> Setup {
    let image = table(4, m, k, j).bytes();
    let read = Arc::new(shim::read(&image).unwrap());
    Setup { kind, image, table: read, centres: (0..j).map(|b| 100.0 + 700.0 * b as f32).collect() }
}

fn making(race: &Race, what: &str, s: &Setup) {
    let Setup { kind, image, centres, .. } = s;
    race.line(
        &format!("making {what} of an image ({} bytes)", image.len()),
        1.0,
        || {
            black_box(ffi::make(*kind, 0, black_box(image), RATE, centres));
        },
        || drop(black_box(made(&Arc::new(shim::read(black_box(image)).unwrap()), *kind, 0, RATE, centres).map(|x| x.1))),
    );
}

// A voice that goes on is given another rate, by turns these two; the original's `init` of a player that goes on.
const CLOCKS: [f32; 2] = [44100.0, RATE];

fn retuning(race: &Race, what: &str, s: &Setup, by_value: bool) {
    let mut v = ffi::make(s.kind, 0, &s.image, RATE, &s.centres).voice;
    let (mut p, _) = made(&s.table, s.kind, 0, RATE, &s.centres).unwrap();
    let (mut ours, mut theirs) = (CLOCKS.iter().cycle(), CLOCKS.iter().cycle());
    race.line(
        what,
        1.0,
        || {
            let rate = black_box(*ours.next().unwrap());
            if by_value {
                v = ffi::retune(&v, rate).voice;
            } else {
                black_box(ffi::retune_in(&mut v, rate));
            }
        },
        || drop(black_box(p.init(black_box(*theirs.next().unwrap())))),
    );
}

// Every input is connected. Steady: the frequency and the gains have one value each. Gliding: all of them change at each sample.
fn inputs(n: usize, gliding: bool) -> (Input, [Input; 4]) {
    let to = |a: f32, b: f32| glide(n, 1, a, if gliding { b } else { a });
    (to(150.0, 390.0), std::array::from_fn(|g| to(0.2 + g as f32 * 0.1, 0.7)))
}

fn playing(race: &Race, what: &str, s: &Setup, channels: usize, n: usize, gliding: bool, by_value: bool) {
    let mut v = ffi::make(s.kind, 0, &s.image, RATE, &s.centres).voice;
    let (mut p, _) = made(&s.table, s.kind, 0, RATE, &s.centres).unwrap();
    let (freq, gains) = inputs(n, gliding);
    let c = Play { samples: n, freq, gains, channels, out_len: channels * n };
    let mut out = vec![0.0; c.out_len];
    let inputs: Vec<Option<AudioBuffer>> = std::iter::once(&c.freq).chain(&c.gains).map(|i| buffer(i, n)).collect();
    let lent: Vec<Option<&AudioBuffer>> = inputs.iter().map(|b| b.as_ref()).collect();
    let used = if s.kind == 0 { 2 } else { 5 };
    let mut their = AudioBuffer::new(channels, n);
    let ctx = ProcessContext::new(RATE, n);
    race.line(
        what,
        (channels * n) as f64,
        || {
            if by_value {
                v = play_by_value(&v, black_box(&c), &mut out).voice;
            } else {
                black_box(play_in(&mut v, black_box(&c), &mut out));
            }
        },
        || p.ugen().process(&ctx, black_box(&lent[..used]), black_box(&mut their)),
    );
}

pub fn race(race: &Race) {
    for (bands, j) in [("16 bands", 16), ("no bands", 0)] {
        making(race, &format!("a single voice, 4 entries, 32 partials, {bands},"), &setup(0, 32, 1, j));
        making(race, &format!("a blend of 4, 4 entries, 32 partials, {bands},"), &setup(1, 32, 4, j));
    }
    for (voice, kind, k) in [("a single voice", 0, 1), ("a blend of 4", 1, 4)] {
        let s = setup(kind, 32, k, 16);
        for (how, by_value) in [("", false), ("; by value", true)] {
            retuning(race, &format!("retuning {voice}, 16 bands{how}"), &s, by_value);
        }
    }
    println!("steady: frequency and gains connected, each with one value; gliding: frequency and gains change at each sample");
    for (voice, kind, m, k, j) in [
        ("single, 32 partials, 16 bands", 0, 32, 1, 16),
        ("single, 32 partials only", 0, 32, 1, 0),
        ("single, 16 bands only", 0, 0, 1, 16),
        ("single, 1 partial only", 0, 1, 1, 0),
        ("blend of 1, 32 partials, 16 bands", 1, 32, 1, 16),
        ("blend of 4, 32 partials, 16 bands", 1, 32, 4, 16),
    ] {
        let s = setup(kind, m, k, j);
        for channels in [1, 8] {
            for (how, gliding) in [("steady", false), ("gliding", true)] {
                for n in [128, 16, 1] {
                    let what = format!("{voice}; {channels} ch; {how}; block {n}");
                    if race.runs(&what) {
                        playing(race, &what, &s, channels, n, gliding, false);
                    }
                }
            }
        }
    }
    println!("the voice handed over and back by value, some 13 KB; the original's stays where it is, as above");
    for (voice, kind, m, k, j) in
        [("single, 32 partials, 16 bands", 0, 32, 1, 16), ("single, 1 partial only", 0, 1, 1, 0), ("blend of 4, 32 partials, 16 bands", 1, 32, 4, 16)]
    {
        let s = setup(kind, m, k, j);
        for n in [128, 16] {
            let what = format!("{voice}; 1 ch; gliding; block {n}; by value");
            if race.runs(&what) {
                playing(race, &what, &s, 1, n, true, true);
            }
        }
    }
}
