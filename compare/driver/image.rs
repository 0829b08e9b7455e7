// Images: a table of the driver's own, how it is written, and how it is damaged.
use crate::rand::{ODD, Rand};

#[derive(Clone, Debug, Default)]
pub struct Entry {
    pub f0: u32,
    pub stretch: u32,
    pub partials: Vec<u32>,
    pub k: u32,
    pub j: u32,
    pub coeffs: Vec<u32>,
    pub meta: Vec<(Vec<u8>, u32)>,
}

#[derive(Clone, Debug, Default)]
pub struct Table {
    pub version: u16,
    pub name: Vec<u8>,
    pub entries: Vec<Entry>,
    pub tail: Vec<u8>,
}

pub const MIN_KEY: &[u8] = b"noise_band_min_hz";
pub const MAX_KEY: &[u8] = b"noise_band_max_hz";

struct Writer {
    out: Vec<u8>,
    counts: Vec<usize>,
}

impl Writer {
    fn word(&mut self, v: u32) {
        self.out.extend_from_slice(&v.to_le_bytes());
    }
    fn count(&mut self, v: usize) {
        self.counts.push(self.out.len());
        self.word(v as u32);
    }
    fn words(&mut self, l: &[u32]) {
        self.count(l.len());
        l.iter().for_each(|&v| self.word(v));
    }
    fn string(&mut self, s: &[u8]) {
        self.count(s.len());
        self.out.extend_from_slice(s);
    }
}

impl Table {
    // The image, and where its counts stand.
    pub fn written(&self) -> (Vec<u8>, Vec<usize>) {
        let mut w = Writer { out: b"MSCT".to_vec(), counts: Vec::new() };
        w.out.extend_from_slice(&self.version.to_le_bytes());
        w.string(&self.name);
        w.count(self.entries.len());
        for e in &self.entries {
            w.word(e.f0);
            w.word(e.stretch);
            w.words(&e.partials);
            w.count(e.k as usize);
            w.count(e.j as usize);
            w.words(&e.coeffs);
            w.count(e.meta.len());
            for (key, v) in &e.meta {
                w.string(key);
                w.word(*v);
            }
        }
        w.out.extend_from_slice(&self.tail);
        (w.out, w.counts)
    }
    pub fn bytes(&self) -> Vec<u8> {
        self.written().0
    }
}

fn words(r: &mut Rand, n: usize) -> Vec<u32> {
    (0..n).map(|_| r.odd_bits()).collect()
}

pub fn any_string(r: &mut Rand) -> Vec<u8> {
    match r.below(6) {
        0 => Vec::new(),
        1 => "Flöte 笛 \u{10FFFF}".as_bytes().to_vec(),
        2 => r.pick(&UTF8).to_vec(),
        3 => r.pick(&NOT_UTF8).to_vec(),
        _ => (0..r.below(9)).map(|_| b'a' + r.below(26) as u8).collect(),
    }
}

pub fn any_key(r: &mut Rand) -> Vec<u8> {
    match r.below(8) {
        0 => b"mainlobe_gain".to_vec(),
        1 => b"noise_gain".to_vec(),
        2 => MIN_KEY.to_vec(),
        3 => MAX_KEY.to_vec(),
        4 => b"noise_band_min_hz ".to_vec(),
        5 => b"Noise_band_max_hz".to_vec(),
        6 => r.pick(&UTF8).to_vec(),
        _ => b"x".to_vec(),
    }
}

fn any_entry(r: &mut Rand, span: &Span) -> Entry {
    let (m, j, k) = (r.below(4), r.below(4) as u32, r.below(4) as u32);
    let mut n = k as usize * (m + j as usize);
    if r.chance(2) {
        n = (n + r.below(3)).saturating_sub(1);
    }
    let mut meta: Vec<(Vec<u8>, u32)> = (0..r.below(3)).map(|_| (any_key(r), r.odd_bits())).collect();
    if r.chance(90) {
        meta.retain(|(key, _)| key != MIN_KEY && key != MAX_KEY);
    }
    if let Some((a, b)) = span {
        let zero = |r: &mut Rand, v: u32| if v << 1 == 0 && r.chance(50) { v ^ 0x80000000 } else { v };
        if r.chance(95) {
            meta.push((MIN_KEY.to_vec(), zero(r, *a)));
        }
        if r.chance(95) {
            meta.insert(r.below(meta.len() + 1), (MAX_KEY.to_vec(), zero(r, *b)));
        }
        if r.chance(20) {
            meta.push((r.pick(&[MIN_KEY, MAX_KEY]).to_vec(), r.odd_bits()));
        }
    }
    Entry { f0: r.odd_bits(), stretch: r.odd_bits(), partials: words(r, m), k, j, coeffs: words(r, n), meta }
}

// Both ends of a span as their bits; or none.
pub type Span = Option<(u32, u32)>;

pub fn any_span(r: &mut Rand) -> Span {
    if r.chance(50) { Some((r.pick(&ODD), r.pick(&ODD))) } else { None }
}

// A table of n entries, most of which have the span.
pub fn table_of(r: &mut Rand, n: usize, span: &Span) -> Table {
    Table {
        version: if r.chance(97) { r.below(2) as u16 } else { r.pick(&[2, 256, 257, 65535]) },
        name: if r.chance(80) { b"flute".to_vec() } else { any_string(r) },
        entries: (0..n).map(|_| any_entry(r, span)).collect(),
        tail: (0..r.below(3)).map(|_| r.next() as u8).collect(),
    }
}

fn any_table(r: &mut Rand) -> Table {
    let span = any_span(r);
    let n = r.pick(&[0, 1, 1, 1, 2, 2, 3, 5]);
    table_of(r, n, &span)
}

pub const COUNTS: [u32; 12] = [0, 1, 2, 3, 255, 256, 65535, 65536, 1 << 24, (1 << 31) - 1, 1 << 31, u32::MAX];

fn put(image: &mut [u8], at: usize, v: u32) {
    image[at..at + 4].copy_from_slice(&v.to_le_bytes());
}

pub fn any_image(r: &mut Rand) -> Vec<u8> {
    let t = any_table(r);
    perhaps_damaged(r, &t)
}

// A table's image, as it is or damaged.
pub fn perhaps_damaged(r: &mut Rand, t: &Table) -> Vec<u8> {
    let (mut image, counts) = t.written();
    match r.below(10) {
        0 => image.truncate(r.below(image.len() + 1)),
        1 => {
            let i = r.below(image.len());
            image[i] = r.next() as u8;
        }
        2 => {
            let at = r.pick(&counts);
            let v = r.pick(&COUNTS);
            put(&mut image, at, v);
        }
        3 => {
            let at = r.pick(&counts);
            let v = u32::from_le_bytes(image[at..at + 4].try_into().unwrap());
            put(&mut image, at, if r.chance(50) { v.wrapping_add(1) } else { v.wrapping_sub(1) });
        }
        4 => {
            let i = r.below(image.len() + 1);
            let n = r.below(5).min(image.len() - i);
            image.drain(i..i + n);
        }
        _ => {}
    }
    image
}

pub const UTF8: [&[u8]; 12] = [
    b"\x00",
    b"\x7F",
    b"\xC2\x80",
    b"\xDF\xBF",
    b"\xE0\xA0\x80",
    b"\xEF\xBF\xBF",
    b"\xED\x9F\xBF",
    b"\xEE\x80\x80",
    b"\xF0\x90\x80\x80",
    b"\xF4\x8F\xBF\xBF",
    b"\xEF\xBB\xBF",
    b"\xF3\xB0\x80\x80a",
];
pub const NOT_UTF8: [&[u8]; 16] = [
    b"\x80",
    b"\xBF",
    b"\xC0\x80",
    b"\xC1\xBF",
    b"\xC2",
    b"\xC2\x7F",
    b"\xE0\x9F\xBF",
    b"\xED\xA0\x80",
    b"\xED\xBF\xBF",
    b"\xE2\x82",
    b"\xF0\x8F\xBF\xBF",
    b"\xF4\x90\x80\x80",
    b"\xF5\x80\x80\x80",
    b"\xF0\x90\x80",
    b"\xFF",
    b"a\xFE",
];
// the bytes at the edges of RFC 3629's ranges
pub const EDGES: [u8; 24] =
    [0x00, 0x41, 0x7F, 0x80, 0x8F, 0x90, 0x9F, 0xA0, 0xBF, 0xC0, 0xC1, 0xC2, 0xDF, 0xE0, 0xE1, 0xEC, 0xED, 0xEE, 0xEF, 0xF0, 0xF1, 0xF4, 0xF5, 0xFF];
