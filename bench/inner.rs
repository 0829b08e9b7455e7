// Times the inner functions beside the same Rust. Each side is called through a function that is not inlined.
use std::hint::black_box;
use std::time::Instant;

#[repr(C)]
#[derive(Clone, Copy)]
struct Coeffs {
    b0: f32,
    b1: f32,
    b2: f32,
    a1: f32,
    a2: f32,
}

#[repr(C)]
struct NoisePower {
    power: f32,
    n: u32,
}

extern "C" {
    fn probe_ring(freq: f32, q: f32, sample_rate: f32, c: Coeffs) -> NoisePower;
    fn probe_sqrt(x: f32) -> f32;
    fn probe_sqrt_each(roots: *mut f32, roots_len: usize, xs: *const f32, xs_len: usize, n: usize);
    fn probe_sine(t: *const u32, p: f32) -> f32;
    fn probe_advance(p: f32, inc: f32) -> f32;
}

#[inline(never)]
fn rust_advance(p: f32, inc: f32) -> f32 {
    let x = p + inc;
    x - x.floor()
}

#[inline(never)]
fn rust_sqrt(x: f32) -> f32 {
    x.sqrt()
}

#[inline(never)]
fn rust_sqrt_each(roots: &mut [f32], xs: &[f32]) {
    for (r, x) in roots.iter_mut().zip(xs) {
        *r = x.sqrt();
    }
}

fn w(t: &[u32; 257], k: usize) -> i32 {
    match k {
        0..=256 => t[k] as i32,
        257..=512 => t[512 - k] as i32,
        513..=768 => -(t[k - 512] as i32),
        _ => -(t[1024 - k] as i32),
    }
}

#[inline(never)]
fn rust_sine(t: &[u32; 257], p: f32) -> f32 {
    let q = p * 1024.0;
    let k = q as usize;
    let r = q - k as f32;
    let a = w(t, k);
    (a as f32 + r * (w(t, k + 1) - a) as f32) * (1.0 / 8388608.0)
}

#[inline(never)]
fn rust_ring(freq: f32, q: f32, sample_rate: f32, c: Coeffs) -> (f32, usize) {
    let f = freq.max(1.0);
    let tau = (q * sample_rate / (std::f32::consts::PI * f)).max(1.0);
    let n = ((25.0 * tau) as usize).clamp(64, 2_000_000);
    let (mut z1, mut z2, mut sum, mut x) = (0.0f32, 0.0f32, 0.0f32, 1.0f32);
    for _ in 0..n {
        let y = c.b0 * x + z1;
        z1 = c.b1 * x - c.a1 * y + z2;
        z2 = c.b2 * x - c.a2 * y;
        x = 0.0;
        sum += y * y;
    }
    (sum, n)
}

// The best of five: ns a turn.
fn best(turns: u64, mut f: impl FnMut() -> u64) -> f64 {
    (0..5)
        .map(|_| {
            let t = Instant::now();
            black_box(f());
            t.elapsed().as_nanos() as f64 / turns as f64
        })
        .fold(f64::MAX, f64::min)
}

fn line(what: &str, ours: f64, rust: f64) {
    println!("{what:<28} ours {ours:6.2} ns   rust {rust:6.2} ns   rust/ours {:.2}", rust / ours);
}

fn main() {
    let mut t = [0u32; 257];
    for k in 0..257i128 {
        t[k as usize] = (k * (15707963 * (1i128 << 32) - 6415926 * k * k * (1 << 16) + 707963 * k.pow(4)) / (10_000_000 * (1i128 << 17))) as u32;
    }
    let n = 20_000_000u64;
    for inc in [0.01f32, 0.37, 3.7] {
        let a = best(n, || unsafe {
            let mut p = 0.0;
            for _ in 0..n {
                p = probe_advance(p, inc);
            }
            p.to_bits() as u64
        });
        let b = best(n, || {
            let mut p = 0.0;
            for _ in 0..n {
                p = rust_advance(p, inc);
            }
            p.to_bits() as u64
        });
        line(&format!("phase step of {inc}"), a, b);
    }
    let phases: Vec<f32> = (0..4096).map(|i| (i as f32 * 0.618034) % 1.0).collect();
    let a = best(n, || unsafe { (0..n).map(|i| probe_sine(t.as_ptr(), phases[(i & 4095) as usize]).to_bits() as u64).fold(0, u64::wrapping_add) });
    let b = best(n, || (0..n).map(|i| rust_sine(&t, phases[(i & 4095) as usize]).to_bits() as u64).fold(0, u64::wrapping_add));
    line("wave S", a, b);
    let a = best(n, || unsafe { (0..n).map(|i| probe_sqrt(phases[(i & 4095) as usize] + 0.001).to_bits() as u64).fold(0, u64::wrapping_add) });
    let b = best(n, || (0..n).map(|i| rust_sqrt(phases[(i & 4095) as usize] + 0.001).to_bits() as u64).fold(0, u64::wrapping_add));
    line("square root (sqrtss)", a, b);
    let xs: Vec<f32> = phases.iter().map(|p| 1e-8f32.powf(*p)).collect();
    let column = |i: u64| &xs[(i & 255) as usize * 16..][..16];
    let mut roots = [0.0f32; 16];
    let a = best(n, || unsafe {
        for i in 0..n / 16 {
            probe_sqrt_each(roots.as_mut_ptr(), 16, column(i).as_ptr(), 16, 16);
        }
        roots[3].to_bits() as u64
    });
    let b = best(n, || {
        for i in 0..n / 16 {
            rust_sqrt_each(&mut roots, column(i));
        }
        roots[3].to_bits() as u64
    });
    line("each of 16 roots (sqrtps)", a, b);
    let c = Coeffs { b0: 0.01, b1: 0.0, b2: -0.01, a1: -1.98, a2: 0.98 };
    let steps = unsafe { probe_ring(200.0, 1.0, 48000.0, c).n } as u64 * 2000;
    let a = best(steps, || unsafe { (0..2000).map(|_| probe_ring(black_box(200.0), 1.0, 48000.0, c).power.to_bits() as u64).sum() });
    let b = best(steps, || (0..2000).map(|_| rust_ring(black_box(200.0), 1.0, 48000.0, c).0.to_bits() as u64).sum());
    line("a step of the ring", a, b);
}
