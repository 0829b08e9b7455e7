// Both sides' times in one run: ns for a call or a sample, and the original's time over ours.
use crate::ffi;
use crate::image::{Entry, Table};
use std::hint::black_box;
use std::time::Instant;

pub struct Race {
    // only the lines that have this word
    pub only: String,
}

// A round is a fifth of a millisecond, so that most rounds fall between two disturbances.
const ROUND_NS: f64 = 200_000.0;
const ROUNDS: usize = 300;

fn time(turns: usize, f: &mut impl FnMut()) -> f64 {
    let t = Instant::now();
    (0..turns).for_each(|_| f());
    t.elapsed().as_nanos() as f64 / turns as f64
}

impl Race {
    pub fn runs(&self, what: &str) -> bool {
        what.contains(&self.only)
    }
    // The least of many short rounds, the two sides in turn.
    pub fn line(&self, what: &str, unit: f64, mut ours: impl FnMut(), mut theirs: impl FnMut()) {
        if !self.runs(what) {
            return;
        }
        let turns = |ns: f64| (ROUND_NS / ns).clamp(1.0, 100_000.0) as usize;
        let (n, m) = (turns(time(3, &mut ours)), turns(time(3, &mut theirs)));
        let (mut a, mut b) = (f64::MAX, f64::MAX);
        for _ in 0..ROUNDS {
            a = a.min(time(n, &mut ours) / unit);
            b = b.min(time(m, &mut theirs) / unit);
        }
        println!("{what:<66} ours {a:>10.1} ns   the original {b:>10.1} ns   ratio {:>6.2}", b / a);
    }
    // The same of what the original does not do.
    pub fn alone(&self, what: &str, mut ours: impl FnMut()) {
        if !self.runs(what) {
            return;
        }
        let n = (ROUND_NS / time(3, &mut ours)).clamp(1.0, 100_000.0) as usize;
        let least = (0..ROUNDS).map(|_| time(n, &mut ours)).fold(f64::MAX, f64::min);
        println!("{what:<66} ours {least:>10.1} ns   the original has none");
    }
}

pub fn entry(m: usize, k: u32, j: u32, pitch: f32) -> Entry {
    Entry {
        f0: pitch.to_bits(),
        stretch: 1.001f32.to_bits(),
        partials: (0..m).map(|i| (pitch * (i + 1) as f32).to_bits()).collect(),
        k,
        j,
        coeffs: (0..k as usize * (m + j as usize)).map(|i| (0.9f32 / (i + 1) as f32).to_bits()).collect(),
        meta: vec![
            (b"mainlobe_gain".to_vec(), 0.5f32.to_bits()),
            (b"noise_gain".to_vec(), 0.06f32.to_bits()),
            (b"noise_band_min_hz".to_vec(), 80f32.to_bits()),
            (b"noise_band_max_hz".to_vec(), 12000f32.to_bits()),
        ],
    }
}

pub fn table(entries: usize, m: usize, k: u32, j: u32) -> Table {
    Table { version: 1, name: b"flute".to_vec(), entries: (0..entries).map(|i| entry(m, k, j, 110.0 * (i + 1) as f32)).collect(), tail: Vec::new() }
}

pub fn run(race: &Race) {
    println!("ns for a call, or for a sample of a channel; a ratio above 1 is in our favour");
    let small = table(1, 4, 1, 2).bytes();
    let mut whole = table(16, 32, 4, 16);
    whole.tail = vec![0; 65536 - whole.bytes().len()];
    let whole = whole.bytes();
    let each = table(2, 32, 4, 16).bytes().len() - table(1, 32, 4, 16).bytes().len();
    let wide = table((65536 - 19) / each, 32, 4, 16).bytes();
    let each = table(2, 1, 1, 0).bytes().len() - table(1, 1, 1, 0).bytes().len();
    let many = table((65536 - 19) / each, 1, 1, 0).bytes();
    let named = Table { version: 1, name: vec![b'n'; 65536 - 14], ..Table::default() }.bytes();
    for (what, image) in [
        ("a small image", &small),
        ("16 entries of 32 partials, 16 bands, 4 channels", &whole),
        ("as many such entries as fit", &wide),
        ("as many small entries as fit", &many),
        ("a long name", &named),
    ] {
        if ffi::from_bytes(image).number != 0 {
            println!("{what}: refused {:?}", ffi::from_bytes(image));
            continue;
        }
        race.line(
            &format!("reading {what} ({} bytes)", image.len()),
            1.0,
            || {
                black_box(ffi::from_bytes(black_box(image)));
            },
            || drop(black_box(oracle::shim::read(black_box(image)))),
        );
        let mut target = vec![0; image.len()];
        race.line(
            &format!("rewriting {what} ({} bytes)", image.len()),
            1.0,
            || {
                black_box(ffi::to_bytes(black_box(image), &mut target));
            },
            || drop(black_box(oracle::shim::read(black_box(image)).unwrap().to_bytes())),
        );
    }
    crate::merging::race(race);
    crate::quiet::race(race);
    #[cfg(playing)]
    crate::playing::race(race);
}
