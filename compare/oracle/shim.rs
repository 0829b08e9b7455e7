// The substitutions of document 01 (the wave S, the band centres), and what the comparison takes from the original.
use crate::coeff_table::{CoeffTable, CoeffTableCodecError};
use crate::wire::{Reader, WireError};
use alloc::vec::Vec;
use std::cell::RefCell;

// T(k) = k × (15707963 × 2^32 - 6415926 × k² × 2^16 + 707963 × k⁴) / (10,000,000 × 2^17), rounded down.
const fn t(k: i128) -> i128 {
    (k * (15707963 * (1 << 32) - 6415926 * k * k * (1 << 16) + 707963 * k * k * k * k)).div_euclid(10_000_000 * (1 << 17))
}

const fn w(k: i128) -> i128 {
    match k {
        0..=256 => t(k),
        257..=512 => t(512 - k),
        513..=768 => -t(k - 512),
        _ => -t(1024 - k),
    }
}

static W: [i32; 1025] = {
    let mut l = [0; 1025];
    let mut k = 0;
    while k < 1025 {
        l[k] = w(k as i128) as i32;
        k += 1;
    }
    l
};

// S(p) for p at least 0 and below 1. No accepted call asks for any other: NaN there, so that a phase that left its range is seen.
pub fn s(p: f32) -> f32 {
    if !(0.0..1.0).contains(&p) {
        return f32::NAN;
    }
    let q = p * 1024.0;
    let k = q as usize;
    let r = q - k as f32;
    (W[k] as f32 + r * (W[k + 1] - W[k]) as f32) * (1.0 / 8388608.0)
}

thread_local! {
    static CENTRES: RefCell<Vec<f32>> = const { RefCell::new(Vec::new()) };
    static SPAN: RefCell<(f32, f32)> = const { RefCell::new((0.0, 0.0)) };
    static RUNG: RefCell<Vec<usize>> = const { RefCell::new(Vec::new()) };
}

// The centres for the next constructor.
pub fn set_centres(c: &[f32]) {
    CENTRES.with(|x| *x.borrow_mut() = c.to_vec());
}

// In place of the original's own centres: those handed in, 0 for any that is missing. The span is kept to be looked at.
pub fn centres(j: usize, min_hz: f32, max_hz: f32) -> Vec<f32> {
    SPAN.with(|x| *x.borrow_mut() = (min_hz, max_hz));
    CENTRES.with(|x| (0..j).map(|i| x.borrow().get(i).copied().unwrap_or(0.0)).collect())
}

pub fn last_span() -> (f32, f32) {
    SPAN.with(|x| *x.borrow())
}

// The ring counts since they were last taken.
pub fn rung(n: usize) {
    RUNG.with(|x| x.borrow_mut().push(n));
}

pub fn take_rung() -> Vec<usize> {
    RUNG.with(|x| std::mem::take(&mut *x.borrow_mut()))
}

// A string at a position: document 01's number for the answer, and the position that the reader has come to.
pub fn string_at(image: &[u8], pos: usize) -> (u32, usize) {
    let mut r = Reader { buf: image, pos };
    let number = match r.string() {
        Ok(_) => 0,
        Err(WireError::UnexpectedEof) => 2,
        Err(WireError::BadUtf8) => 5,
    };
    (number, r.pos)
}

// A read, with document 01's number and values for each error.
pub fn read(image: &[u8]) -> Result<CoeffTable, (u32, usize, usize)> {
    CoeffTable::from_bytes(image).map_err(|e| match e {
        CoeffTableCodecError::UnexpectedEof => (2, 0, 0),
        CoeffTableCodecError::BadMagic => (3, 0, 0),
        CoeffTableCodecError::UnsupportedVersion(v) => (4, v as usize, 0),
        CoeffTableCodecError::BadUtf8 => (5, 0, 0),
        CoeffTableCodecError::MalformedEntry { index } => (6, index, 0),
        CoeffTableCodecError::InconsistentNoiseBandSpan { first_entry, index } => (7, first_entry, index),
    })
}

pub fn span(table: &CoeffTable) -> (f32, f32) {
    crate::ugens::partials::noise_band_span(table)
}

// The power and the ring count of a band.
pub fn noise_power(freq: f32, q: f32, rate: f32, c: [f32; 5]) -> (f32, usize) {
    take_rung();
    let p = crate::ugens::partials::biquad_noise_power_gain(freq, q, rate, (c[0], c[1], c[2], c[3], c[4]));
    (p, take_rung()[0])
}

// What a voice of the original holds.
#[derive(Clone, Debug)]
pub struct Inside {
    pub k: usize,
    pub m: usize,
    pub j: usize,
    pub live: Vec<usize>,
    // pitch, stretch, mainlobe gain, noise gain; rows of partials and of bands, channel after channel
    pub entries: Vec<([f32; 4], Vec<Vec<f32>>, Vec<Vec<f32>>)>,
}

// What `init` gives it: the rate, and the coefficients and the compensation of each band.
#[derive(Clone, Debug)]
pub struct InitGave {
    pub rate: f32,
    pub bands: Vec<[f32; 5]>,
    pub compensation: Vec<f32>,
}

// Its running state.
#[derive(Clone, Debug)]
pub struct Running {
    pub phases: Vec<f32>,
    pub memories: Vec<(f32, f32)>,
    pub noise: u32,
}
