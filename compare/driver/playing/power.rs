// The door of the noise power beside the original's function, with arguments that no voice has: a voice asks it with a quality of 1, a
// centre from 20 on, a rate from 8,000 on and a band-pass, which is rung the short way.
use super::*;

#[derive(Clone, Copy, Debug)]
pub struct Asked {
    freq: f32,
    q: f32,
    rate: f32,
    coeffs: [f32; 5],
}

// More rings than this are asked for now and then only: each takes milliseconds, and more where its numbers become subnormal.
const MANY: f32 = 20_000.0;

fn odd(r: &mut Rand) -> f32 {
    f32::from_bits(r.odd_bits())
}

fn any_frequency(r: &mut Rand) -> f32 {
    match r.below(4) {
        0 => r.between(-1.0, 2.0),
        1 => odd(r),
        _ => r.among(&[0.0, 1.0, 0.99999994, 1.0000001, 20.0, 1e9], 1.0, 20000.0),
    }
}

fn any_quality(r: &mut Rand) -> f32 {
    if r.chance(20) { odd(r) } else { r.among(&[1.0, 0.0, -1.0, 0.70710678, 10.0, 1e-6, 1e6], 0.0, 20.0) }
}

fn any_rate(r: &mut Rand) -> f32 {
    if r.chance(20) { odd(r) } else { r.among(&[48000.0, 7999.0, 192001.0, 1.0, 0.0, -48000.0, 1e12], 0.0, 200000.0) }
}

// Band-passes, their negatives, which ring the long way as do those with -0, any small numbers, and odd ones.
fn any_coeffs(r: &mut Rand) -> [f32; 5] {
    let b = r.unit();
    let pass = [b, 0.0, -b, r.between(-2.0, 2.0) * (1.0 - b), 1.0 - 2.0 * b];
    match r.below(6) {
        0 => pass,
        1 => pass.map(|x| -x),
        2 => [pass[0], -0.0, pass[2], pass[3], pass[4]],
        3 => std::array::from_fn(|_| r.tame()),
        4 => std::array::from_fn(|i| if r.chance(30) { odd(r) } else { pass[i] }),
        _ => std::array::from_fn(|_| odd(r)),
    }
}

fn any(r: &mut Rand) -> Asked {
    loop {
        let a = Asked { freq: any_frequency(r), q: any_quality(r), rate: any_rate(r), coeffs: any_coeffs(r) };
        let many = a.q * a.rate / (std::f32::consts::PI * a.freq.max(1.0)) * 25.0 > MANY;
        if !many || r.chance(1) {
            return a;
        }
    }
}

fn differs(a: &Asked) -> Result<(), String> {
    let ours = ffi::noise_power_gain(a.freq, a.q, a.rate, a.coeffs);
    let (power, n) = shim::noise_power(a.freq, a.q, a.rate, a.coeffs);
    numbers("ring count", ours.n as usize, n)?;
    floats("noise power", &[ours.power], &[power])
}

// Each argument made 1, or 0 of a coefficient, where the difference stays.
fn shrunk(a: &Asked) -> Asked {
    let mut best = *a;
    for i in 0..8 {
        let mut b = best;
        match i {
            0 => b.freq = 1.0,
            1 => b.q = 1.0,
            2 => b.rate = 1.0,
            _ => b.coeffs[i - 3] = 0.0,
        }
        if differs(&b).is_err() {
            best = b;
        }
    }
    best
}

pub fn powers(cases: usize, seed: u64, tally: &mut Tally) {
    let mut r = Rand(seed);
    for _ in 0..cases {
        let a = any(&mut r);
        tally.cases += 1;
        if let Err(e) = differs(&a) {
            tally.difference(&e, || {
                let s = shrunk(&a);
                (format!("{s:?}"), differs(&s).unwrap_err())
            });
        }
    }
}
