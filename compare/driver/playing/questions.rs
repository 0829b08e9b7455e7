// Document 01's questions 8 to 16, which the original does not ask (but for 10), and those of a retune.
use super::*;

pub fn gain(e: &oracle::coeff_table::PitchEntry, key: &str) -> Option<f32> {
    e.metadata.iter().find(|(k, _)| k == key).map(|(_, v)| *v)
}

pub fn band_count(t: &CoeffTable, kind: u32, channel: u32) -> usize {
    t.entries.iter().filter(|e| kind != 0 || channel < e.k_channels).map(|e| e.j_noise as usize).max().unwrap_or(0)
}

pub fn making_question(t: &CoeffTable, kind: u32, channel: u32, rate: f32, centres: &[f32]) -> (u32, usize, usize) {
    if t.entries.len() > 16 || t.entries.iter().any(|e| e.partial_freqs.len() > 32 || e.j_noise > 16) {
        return (8, 0, 0);
    }
    let fine = |e: &oracle::coeff_table::PitchEntry| {
        (e.f0_hz > 0.0 && e.f0_hz <= 20000.0)
            && (e.inharmonicity_stretch >= 0.0 && e.inharmonicity_stretch <= 4.0)
            && e.coefficients.iter().all(|c| c.is_finite())
            && gain(e, "mainlobe_gain").is_none_or(f32::is_finite)
            && gain(e, "noise_gain").is_none_or(f32::is_finite)
    };
    if let Some(i) = t.entries.iter().position(|e| !fine(e)) {
        return (9, i, 0);
    }
    if kind == 0 && !t.entries.is_empty() && t.entries.iter().all(|e| channel >= e.k_channels) {
        return (10, 0, 0);
    }
    if !rate_fits(rate) {
        return (11, 0, 0);
    }
    if centres.len() != band_count(t, kind, channel) || centres.iter().any(|c| !c.is_finite()) {
        return (12, 0, 0);
    }
    (0, 0, 0)
}

pub fn rate_fits(rate: f32) -> bool {
    rate >= 8000.0 && rate <= 192000.0
}

pub fn keeps_rules(v: &Voice) -> bool {
    let count = v.count <= 16 && v.m <= 32 && v.j <= 16 && v.k <= 4 && v.live_count <= 16;
    count
        && v.f0_hz[..v.count].iter().all(|&f| f > 0.0 && f <= 20000.0)
        && v.f0_hz[..v.count].windows(2).all(|w| w[0] <= w[1])
        && v.stretch[..v.count].iter().all(|&s| s >= 0.0 && s <= 4.0)
        && rate_fits(v.sample_rate)
        && v.live[..v.live_count].iter().all(|&b| (b as usize) < v.j)
        && v.live[..v.live_count].windows(2).all(|w| w[0] < w[1])
        && v.centres[..v.j].iter().all(|c| c.is_finite())
        && v.state.phases[..v.m].iter().all(|&p| p >= 0.0 && p < 1.0)
}

pub fn retune_question(v: &Voice, rate: f32) -> u32 {
    let asked = [(13, keeps_rules(v)), (11, rate_fits(rate))];
    asked.iter().find(|(_, yes)| !yes).map_or(0, |(number, _)| *number)
}

pub fn play_question(v: &Voice, p: &Play) -> u32 {
    let fits = |i: &Input| i.0 == 0 || i.0 <= 8 && i.1.len() == i.0 * p.samples;
    if !keeps_rules(v) {
        13
    } else if p.samples > 128 || p.channels < 1 || p.channels > 8 || p.out_len != p.channels * p.samples {
        14
    } else if !fits(&p.freq) || !p.gains.iter().all(fits) {
        15
    } else if p.freq.0 > 0 && p.freq.1.iter().any(|f| f.is_finite() && *f > 20000.0) {
        16
    } else {
        0
    }
}
