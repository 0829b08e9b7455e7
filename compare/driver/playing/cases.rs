// Random cases.
use super::*;

pub fn any_entry(r: &mut Rand, big: bool, wild: bool) -> Entry {
    let size = |r: &mut Rand, most: usize| if big { r.below(most + 1) } else { r.below(5) };
    let (mut m, mut j) = (size(r, 32), size(r, 16) as u32);
    if r.chance(15) {
        j = r.below(17) as u32;
    }
    let k = r.pick(&[1, 1, 1, 2, 2, 3, 4, 4, 0, 5]);
    if wild && r.chance(10) {
        m = r.pick(&[32, 33]);
        j = r.pick(&[16, 17]);
    }
    let zeros = r.pick(&[0, 20, 60, 100]);
    let coeffs = (0..k as usize * (m + j as usize)).map(|_| if r.chance(zeros) { r.pick(&[0, 0x80000000]) } else { r.tame().to_bits() }).collect();
    let mut meta = Vec::new();
    for key in ["mainlobe_gain", "noise_gain"] {
        for _ in 0..r.pick(&[0, 1, 1, 2]) {
            meta.push((key.as_bytes().to_vec(), (r.tame() * 3.0).to_bits()));
        }
    }
    let mut e = Entry {
        f0: r.among(&[50.0, 100.0, 100.0, 220.0, 440.0, 20000.0, 1e-45], 20.0, 2000.0).to_bits(),
        stretch: r.among(&[1.0, 1.0, 1.0005, 0.0, -0.0, 4.0], 0.9, 1.1).to_bits(),
        partials: (0..m).map(|_| r.odd_bits()).collect(),
        k,
        j,
        coeffs,
        meta,
    };
    if wild {
        match r.below(8) {
            0 => e.f0 = r.pick(&ODD),
            1 => e.stretch = r.pick(&[0x40800001, 0x80000001, 0x7FC00000, 0x7F800000]),
            2 if !e.coeffs.is_empty() => {
                let at = r.below(e.coeffs.len());
                e.coeffs[at] = r.pick(&ODD);
            }
            3 => e.meta.insert(0, (any_key(r), r.pick(&ODD))),
            _ => {}
        }
    }
    e
}

pub fn any_table(r: &mut Rand) -> Table {
    let big = r.chance(10);
    let wild = r.chance(15);
    let n = if wild && r.chance(10) { r.pick(&[16, 17]) } else { r.pick(&[0, 1, 1, 2, 2, 3, 4, 7]) };
    let n = if r.chance(2) { 16 } else { n };
    let mut entries: Vec<Entry> = (0..n).map(|_| any_entry(r, big, wild)).collect();
    if r.chance(30) {
        let s = (r.between(0.0, 100.0).to_bits(), r.between(5000.0, 12000.0).to_bits());
        for e in &mut entries {
            e.meta.push((MIN_KEY.to_vec(), s.0));
            e.meta.push((MAX_KEY.to_vec(), s.1));
        }
    }
    Table { version: 1, name: b"v".to_vec(), entries, tail: Vec::new() }
}

pub fn any_frequencies(r: &mut Rand, n: usize) -> Vec<f32> {
    let base = r.among(&[50.0, 100.0, 220.0, 440.0, 441.0, 5000.0, 20000.0], 20.0, 2000.0);
    match r.below(5) {
        0 => vec![base; n],
        1 => (0..n).map(|i| (base + i as f32 * 0.7).min(20000.0)).collect(),
        2 => (0..n).map(|_| r.between(0.0, 20000.0)).collect(),
        3 => (0..n)
            .map(|_| r.pick(&[100.0, 200.0, 220.0, 440.0, 50.0, f32::NAN, f32::INFINITY, f32::NEG_INFINITY, -1.0, -0.0, 0.0, 1e-45, 20000.0, -3e38]))
            .collect(),
        _ => (0..n).map(|i| base * (1.0 + 0.02 * ((i * 13 % 29) as f32 / 29.0))).map(|f| f.min(20000.0)).collect(),
    }
}

pub fn any_gains(r: &mut Rand, n: usize) -> Vec<f32> {
    match r.below(5) {
        0 => vec![r.tame(); n],
        1 => (0..n).map(|i| i as f32 / 128.0).collect(),
        2 => (0..n).map(|_| if r.chance(10) { f32::from_bits(r.pick(&ODD)) } else { r.tame() }).collect(),
        _ => (0..n).map(|_| r.tame()).collect(),
    }
}

pub fn any_play(r: &mut Rand) -> Play {
    let mut samples = r.pick(&[0, 1, 1, 2, 3, 7, 16, 16, 31, 64, 100, 127, 128]);
    let mut channels = r.pick(&[1, 1, 1, 2, 2, 3, 8]);
    if r.chance(2) {
        samples = r.pick(&[128, 129]);
    }
    if r.chance(2) {
        channels = r.pick(&[0, 8, 9, usize::MAX]);
    }
    let width = |r: &mut Rand, none: usize| if r.chance(none) { 0 } else { r.pick(&[1, 1, 1, 2, 3, 5, 8]) };
    let slice = |r: &mut Rand, (k, mut l): Input| {
        if r.chance(1) {
            l.push(1.0);
        } else if r.chance(1) {
            l.pop();
        } else if r.chance(1) {
            return (r.pick(&[9, usize::MAX, 1 << 63]), l);
        }
        (k, l)
    };
    let f = width(r, 20);
    let mut freq = (f, any_frequencies(r, f * samples));
    if r.chance(2) && !freq.1.is_empty() {
        let at = r.below(freq.1.len());
        freq.1[at] = r.pick(&[20000.002, 3e38, f32::MAX]);
    }
    let freq = slice(r, freq);
    let gains = std::array::from_fn(|_| {
        let w = width(r, 40);
        let l = any_gains(r, w * samples);
        slice(r, (w, l))
    });
    let mut out_len = channels.wrapping_mul(samples) % 4096;
    if r.chance(2) {
        out_len = (out_len + r.below(3)).saturating_sub(1);
    }
    Play { samples, freq, gains, channels, out_len }
}

// A rate that fits: a limit, a common one, or any other.
pub fn fit_rate(r: &mut Rand) -> f32 {
    r.among(&[8000.0, 192000.0, 44100.0, 48000.0], 8000.0, 192000.0)
}

// What no rate may be: a float outside each limit, and what is far from any rate.
pub fn unfit_rate(r: &mut Rand) -> f32 {
    r.pick(&[7999.9995, 192000.02, f32::NAN, f32::INFINITY, f32::NEG_INFINITY, 0.0, -0.0, -44100.0, 1e-45, f32::MAX])
}

pub fn any_call(r: &mut Rand, v: (usize, usize)) -> Call {
    match r.below(24) {
        0 | 1 => Call::Reset,
        2 | 3 => Call::Reseed(r.pick(&[0, 1, 0x9A271E55, u32::MAX, 12345])),
        4 => Call::Touch(Running {
            phases: (0..v.0).map(|_| r.among(&[0.0, -0.0, 1e-45, 0.99999994, 0.5], 0.0, 0.9999)).collect(),
            memories: (0..v.1).map(|_| if r.chance(10) { (f32::from_bits(r.pick(&ODD)), r.tame()) } else { (r.tame(), r.tame()) }).collect(),
            noise: r.next() as u32,
        }),
        5 => Call::Broken(r.below(BREAKS), any_play(r)),
        6 => Call::Spare(if r.chance(50) { r.pick(&ODD) } else { r.next() as u32 }),
        7..=9 => Call::Retune(if r.chance(25) { unfit_rate(r) } else { fit_rate(r) }),
        _ => Call::Play(any_play(r)),
    }
}

// Two calls of a list become retunes, at the first of which the rate goes down, so that centres are held to it, and at the second up again.
pub fn down_and_up(r: &mut Rand, calls: &mut [Call]) {
    if calls.len() < 2 {
        return;
    }
    let up = 1 + r.below(calls.len() - 1);
    calls[r.below(up)] = Call::Retune(r.among(&[8000.0, 11025.0], 8000.0, 16000.0));
    calls[up] = Call::Retune(r.among(&[44100.0, 48000.0, 192000.0], 32000.0, 192000.0));
}

// A case with a list of fewer than twelve calls.
pub fn any_case(r: &mut Rand) -> Case {
    case_of(r, |r| r.below(12))
}

// A case whose list has as many calls as are asked for.
pub fn case_of(r: &mut Rand, calls: impl FnOnce(&mut Rand) -> usize) -> Case {
    let table = any_table(r);
    let kind = r.pick(&[0, 1, 1, 7]);
    let channel = r.pick(&[0, 0, 0, 1, 2, 4, u32::MAX]);
    let mut rate = r.among(&[8000.0, 11025.0, 44100.0, 44100.0, 48000.0, 96000.0, 192000.0], 8000.0, 192000.0);
    if r.chance(3) {
        rate = unfit_rate(r);
    }
    let read = shim::read(&table.bytes());
    let (j, m) = read.map_or((0, 0), |t| {
        let j = band_count(&t, kind, channel);
        let fine = t.entries.len() <= 16 && t.entries.iter().all(|e| e.j_noise <= 16 && e.partial_freqs.len() <= 32);
        (j, if fine { made(&Arc::new(t), kind, channel, 44100.0, &[]).map_or(0, |(p, _)| p.running().phases.len()) } else { 0 })
    });
    let mut centres: Vec<f32> = (0..j).map(|_| r.pick(&[20.0, 19.0, 0.0, -5.0, 80.0, 440.0, 1000.0, 5000.0, 12000.0, 3e38])).collect();
    for c in &mut centres {
        if r.chance(60) {
            *c = r.between(20.0, 20000.0);
        }
    }
    if r.chance(2) {
        centres.push(100.0);
    } else if r.chance(2) && j > 0 {
        centres[j - 1] = r.pick(&[f32::NAN, f32::INFINITY]);
    } else if r.chance(1) {
        centres.pop();
    }
    let mut calls: Vec<Call> = (0..calls(r)).map(|_| any_call(r, (m, j))).collect();
    if r.chance(30) {
        down_and_up(r, &mut calls);
    }
    Case { kind, channel, table, rate, centres, calls }
}
