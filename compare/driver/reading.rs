// Reading, names, the desk and rewriting, beside the original.
use crate::ffi::{self, Answer, DeskAnswer, Place};
use crate::image::{COUNTS, EDGES, Entry, MAX_KEY, MIN_KEY, Table, any_image};
use crate::rand::{ODD, Rand};
use crate::tally::Tally;
use oracle::coeff_table::CoeffTable;
use oracle::shim;
use oracle::ugens::partials::PartialsNoise;
use oracle::ugens::partials_blend::PartialsBlend;
use std::sync::Arc;

// A case: an image, the channel that the desk is asked for, and how much longer than the rewritten image the target is.
#[derive(Clone)]
pub struct Case {
    pub image: Vec<u8>,
    pub channel: u32,
    pub slack: i64,
}

// What the original answers to a read; question 1 is document 01's, which the original does not ask.
// (Its product of question 6 may wrap, but in an image of at most 65,536 bytes no wrapped product is a coefficient count: k × (M + j) of
// 2^64 and more has a remainder of at least 2^32 - 2^28.)
pub fn expected_read(image: &[u8], tally: &mut Tally) -> Result<CoeffTable, (u32, usize, usize)> {
    if image.len() > 65536 {
        tally.paper += 1;
        return Err((1, 0, 0));
    }
    shim::read(image)
}

// The desk's numbers: the band count, and the span's bits.
pub fn expected_desk(t: &Arc<CoeffTable>, kind: u32, channel: u32, tally: &mut Tally) -> (u32, u32, u32) {
    let bits = |s: (f32, f32)| (s.0.to_bits(), s.1.to_bits());
    let hostile = t.entries.iter().map(|e| e.j_noise).max().unwrap_or(0);
    let (j, s) = if kind == 0 {
        match PartialsNoise::with_channel(t.clone(), channel) {
            Ok(p) => (p.band_count() as u32, shim::last_span()),
            // document 01: 0 for none
            Err(_) => (0, shim::span(t)),
        }
    } else if hostile > 100_000 {
        // the original would fill that many filters: document 01's count
        tally.paper += 1;
        (hostile, shim::span(t))
    } else {
        (PartialsBlend::new(t.clone()).band_count() as u32, shim::last_span())
    };
    let (a, b) = bits(s);
    (j, a, b)
}

fn same<T: PartialEq + std::fmt::Debug>(what: &str, ours: T, theirs: T) -> Result<(), String> {
    if ours == theirs { Ok(()) } else { Err(format!("{what}: ours {ours:?}, the original's {theirs:?}")) }
}

pub fn check(c: &Case, tally: &mut Tally) -> Result<(), String> {
    let image = &c.image[..];
    let answer = |a: (u32, usize, usize)| Answer { number: a.0, first: a.1, second: a.2 };
    let read = expected_read(image, tally);
    let canon = read.as_ref().map(|t| t.to_bytes()).unwrap_or_default();
    let wanted = match &read {
        Ok(t) => (0, t.entries.len(), canon.len()),
        Err(e) => *e,
    };
    tally.number(wanted.0);
    same("from_bytes", ffi::from_bytes(image), answer(wanted))?;
    let place = ffi::name(image);
    match &read {
        Ok(t) => {
            same("name's place", place, Place { start: 10, len: t.name.len() })?;
            same("name", &image[place.start..place.start + place.len], t.name.as_bytes())?;
        }
        Err(_) => same("name's place", place, Place { start: 0, len: 0 })?,
    }
    let (mut target, length) = {
        let n = (canon.len() as i64 + c.slack).max(0) as usize;
        ((0..n).map(|i| (i * 7 + 3) as u8).collect::<Vec<u8>>(), n)
    };
    let mut after = target.clone();
    let rewriting = match &read {
        Ok(t) if canon.len() <= length => {
            after[..canon.len()].copy_from_slice(&canon);
            (0, t.entries.len(), canon.len())
        }
        // document 01, question 17
        Ok(_) => {
            tally.paper += 1;
            tally.number(17);
            (17, 0, 0)
        }
        Err(e) => *e,
    };
    same("to_bytes", ffi::to_bytes(image, &mut target), answer(rewriting))?;
    same("target after to_bytes", &target[..], &after[..])?;
    let read = read.map(Arc::new);
    for (kind, channel) in [(0, c.channel), (1, c.channel), (u32::MAX, 0)] {
        let wanted = match &read {
            Ok(t) => {
                let (bands, min_hz, max_hz) = expected_desk(t, kind, channel, tally);
                DeskAnswer { answer: answer((0, 0, 0)), bands, min_hz, max_hz }
            }
            Err(e) => DeskAnswer { answer: answer(*e), bands: 0, min_hz: 0, max_hz: 0 },
        };
        same(&format!("desk of kind {kind}, channel {channel}"), ffi::desk(kind, channel, image), wanted)?;
    }
    Ok(())
}

pub fn hex(l: &[u8]) -> String {
    l.iter().map(|b| format!("{b:02X} ")).collect()
}

// What is left of a list when parts of it, first long ones and then single ones, are left out as long as it fails.
pub fn left_out<T: Clone>(list: &[T], fails: impl Fn(&[T]) -> bool) -> Vec<T> {
    let mut best = list.to_vec();
    let mut n = best.len().div_ceil(2).max(1);
    loop {
        let mut i = 0;
        let mut gone = false;
        while i < best.len() {
            let mut d = best.clone();
            d.drain(i..(i + n).min(d.len()));
            if fails(&d) {
                best = d;
                gone = true;
            } else {
                i += n;
            }
        }
        if n == 1 && !gone {
            return best;
        }
        n = (n / 2).max(1);
    }
}

// The smallest failing case found by leaving out bytes, then by setting bytes to 0.
fn shrunk(c: &Case) -> Case {
    let mut best = c.clone();
    let fails = |c: &Case| check(c, &mut Tally::default()).is_err();
    for slack in [0, -1, 1] {
        let d = Case { slack, ..best.clone() };
        if fails(&d) {
            best = d;
            break;
        }
    }
    best.image = left_out(&best.image, |image| fails(&Case { image: image.to_vec(), ..best }));
    for i in 0..best.image.len().min(4096) {
        let mut d = best.clone();
        d.image[i] = 0;
        if best.image[i] != 0 && fails(&d) {
            best = d;
        }
    }
    best
}

pub fn run_case(c: &Case, tally: &mut Tally) {
    tally.cases += 1;
    if let Err(e) = check(c, tally) {
        tally.difference(&e, || {
            let s = shrunk(c);
            let start = hex(&s.image[..s.image.len().min(200)]);
            let case = format!("channel {}, target {:+} bytes, image of {} bytes: {start}", s.channel, s.slack, s.image.len());
            (case, check(&s, &mut Tally::default()).unwrap_err())
        });
    }
}

pub fn one_entry(m: usize, k: u32, j: u32, n: usize, meta: Vec<(Vec<u8>, u32)>) -> Entry {
    Entry { f0: 220f32.to_bits(), stretch: 1f32.to_bits(), partials: vec![0x3F800000; m], k, j, coeffs: vec![0x3F000000; n], meta }
}

pub fn good(entries: Vec<Entry>) -> Table {
    Table { version: 1, name: b"oboe".to_vec(), entries, tail: Vec::new() }
}

pub fn spans(l: &[&[(&[u8], u32)]]) -> Table {
    good(l.iter().map(|s| one_entry(1, 1, 1, 2, s.iter().map(|&(k, v)| (k.to_vec(), v)).collect())).collect())
}

// Good images that the lists below start from.
pub fn samples() -> Vec<Table> {
    vec![
        good(vec![]),
        good(vec![one_entry(1, 1, 1, 2, vec![])]),
        good(vec![one_entry(2, 2, 1, 6, vec![(b"mainlobe_gain".to_vec(), 0x3F000000)]), one_entry(0, 3, 2, 6, vec![])]),
        spans(&[&[(MIN_KEY, 0x42A00000), (MAX_KEY, 0x463B8000)], &[(MIN_KEY, 0x42A00000), (MAX_KEY, 0x463B8000)]]),
        Table { version: 0, ..good(vec![one_entry(0, 0, 5, 0, vec![(vec![], 0)])]) },
    ]
}

// An image cut at every length, with bytes after the end, and with every byte damaged.
pub fn each_damage(image: &[u8], f: &mut impl FnMut(Vec<u8>)) {
    (0..=image.len()).for_each(|n| f(image[..n].to_vec()));
    f([image, &[0xFF; 5]].concat());
    for i in 0..image.len() {
        for b in [0, 0xFF, image[i] ^ 1, image[i] ^ 0x80, image[i].wrapping_add(1)] {
            let mut d = image.to_vec();
            d[i] = b;
            f(d);
        }
    }
}

// The cases that are the same at each run.
pub fn fixed_cases(f: &mut impl FnMut(Case)) {
    let mut case = |image: Vec<u8>| {
        for slack in [-1, 0, 3] {
            f(Case { image: image.clone(), channel: 0, slack });
        }
    };
    for t in samples() {
        let (image, counts) = t.written();
        each_damage(&image, &mut case);
        // every count at its limits, and two of them together
        for &at in &counts {
            for v in COUNTS {
                let mut d = image.clone();
                d[at..at + 4].copy_from_slice(&v.to_le_bytes());
                case(d.clone());
                for &b in &counts {
                    d[b..b + 4].copy_from_slice(&u32::MAX.to_le_bytes());
                    case(d.clone());
                    d[b..b + 4].copy_from_slice(&image[b..b + 4]);
                }
            }
        }
    }
    // lengths about 65,536: by the name, by bytes after the end, by partials; also refused otherwise
    for n in 65534..=65538 {
        case(Table { name: vec![b'n'; n - 14], ..good(vec![]) }.bytes());
        case(Table { tail: vec![0; n - 18], ..good(vec![]) }.bytes());
        case([&b"NSCT"[..], &vec![0; n - 4]].concat());
        case(good(vec![one_entry((n - 46) / 4, 0, 0, 0, vec![])]).bytes());
        case(good(vec![one_entry(0, ((n - 46) / 4) as u32, 1, (n - 46) / 4, vec![])]).bytes());
        case(good(vec![one_entry(0, 1, ((n - 46) / 4) as u32, (n - 46) / 4, vec![])]).bytes());
    }
    // products: k × (M + j) at 2^32 and 2^64 and about them
    for k in [0, 1, 2, 3, 65536, 1 << 31, u32::MAX - 1, u32::MAX] {
        for j in [0, 1, 2, 65536, 1 << 31, u32::MAX - 1, u32::MAX] {
            for m in 0..4 {
                for n in [0, 1, 2, 3, 4, 6] {
                    case(good(vec![one_entry(m, k, j, n, vec![])]).bytes());
                }
            }
        }
    }
    // spans: lone keys, later entries that differ, NaN, infinities, 0 and -0, keys twice, keys by other spellings
    for a in ODD {
        case(spans(&[&[(MIN_KEY, a)]]).bytes());
        case(spans(&[&[(MIN_KEY, a), (MAX_KEY, a)]]).bytes());
        case(spans(&[&[], &[(MAX_KEY, a)]]).bytes());
        for b in ODD {
            case(spans(&[&[(MIN_KEY, a), (MAX_KEY, 1)], &[(MIN_KEY, b), (MAX_KEY, 1)]]).bytes());
            case(spans(&[&[(MAX_KEY, a), (MIN_KEY, 1)], &[(MIN_KEY, 1), (MAX_KEY, b)]]).bytes());
            case(spans(&[&[(MIN_KEY, a), (MIN_KEY, b), (MAX_KEY, 0)], &[(MIN_KEY, a), (MAX_KEY, 0), (MAX_KEY, b)]]).bytes());
        }
    }
    let both: &[(&[u8], u32)] = &[(MIN_KEY, 5), (MAX_KEY, 6)];
    case(spans(&[both, &[], both]).bytes());
    case(spans(&[&[], both, &[]]).bytes());
    case(spans(&[both, both, &[(MIN_KEY, 5)]]).bytes());
    case(spans(&[both, both, &[(MIN_KEY, 5), (MAX_KEY, 7)], &[(MIN_KEY, 5)]]).bytes());
    case(spans(&[&[(b"noise_band_min_h", 5), (b"noise_band_max_hzz", 6)], &[]]).bytes());
}

// Strings of RFC 3629's edges: every one and two bytes; three and four by the edges of the ranges.
pub fn strings(f: &mut impl FnMut(Case)) {
    let mut name = |s: &[u8]| f(Case { image: Table { version: 1, name: s.to_vec(), ..Table::default() }.bytes(), channel: 0, slack: 0 });
    for a in 0..=255u8 {
        name(&[a]);
        for b in 0..=255u8 {
            name(&[a, b]);
        }
    }
    for a in EDGES {
        for b in EDGES {
            for c in EDGES {
                name(&[a, b, c]);
            }
        }
    }
    for a in [0xE1, 0xEF, 0xF0, 0xF1, 0xF3, 0xF4, 0xF5, 0xF7, 0xF8] {
        for b in EDGES {
            for c in EDGES {
                for d in EDGES {
                    name(&[a, b, c, d]);
                }
            }
        }
    }
    for s in crate::image::UTF8.iter().chain(&crate::image::NOT_UTF8) {
        f(Case { image: good(vec![one_entry(1, 1, 1, 2, vec![(s.to_vec(), 7)])]).bytes(), channel: 0, slack: 0 });
    }
}

pub fn any_case(r: &mut Rand) -> Case {
    Case { image: any_image(r), channel: r.pick(&[0, 0, 0, 1, 2, 3, 4, u32::MAX]), slack: r.pick(&[0, 0, 1, 9, -1, -2, -1000]) }
}

pub fn run(cases: usize, seed: u64, tally: &mut Tally) {
    fixed_cases(&mut |c| run_case(&c, tally));
    strings(&mut |c| run_case(&c, tally));
    let mut r = Rand(seed);
    for _ in 0..cases {
        run_case(&any_case(&mut r), tally);
    }
}
