// Shrinking: without calls, entries, inputs, channels, samples; a plain rate for an odd one.
use super::*;

pub fn smaller(c: &Case) -> Vec<Case> {
    let mut l = Vec::new();
    for i in (0..c.calls.len()).rev() {
        let mut d = c.clone();
        d.calls.remove(i);
        l.push(d);
    }
    for i in 0..c.table.entries.len() {
        let mut d = c.clone();
        d.table.entries.remove(i);
        if let Ok(t) = shim::read(&d.table.bytes()) {
            d.centres.truncate(band_count(&t, c.kind, c.channel));
        }
        l.push(d);
    }
    for i in 0..c.table.entries.len() {
        let e = &c.table.entries[i];
        let mut put = |e: Entry| {
            let mut d = c.clone();
            d.table.entries[i] = e;
            if let Ok(t) = shim::read(&d.table.bytes()) {
                d.centres.truncate(band_count(&t, c.kind, c.channel));
            }
            l.push(d);
        };
        for n in 0..e.meta.len() {
            let mut f = e.clone();
            f.meta.remove(n);
            put(f);
        }
        // without the last partial, and without the last band
        let (m, j) = (e.partials.len(), e.j as usize);
        for (less_m, less_j) in [(1, 0), (0, 1)] {
            if less_m <= m && less_j <= j && e.coeffs.len() == e.k as usize * (m + j) {
                let row = |r: &[u32]| [&r[..m - less_m], &r[m..m + j - less_j]].concat();
                let coeffs = if m + j == 0 { Vec::new() } else { e.coeffs.chunks(m + j).flat_map(row).collect() };
                put(Entry { partials: e.partials[..m - less_m].to_vec(), j: (j - less_j) as u32, coeffs, ..e.clone() });
            }
        }
    }
    const PLAIN: [f32; 4] = [44100.0, 48000.0, 8000.0, 192000.0];
    for i in 0..c.calls.len() {
        if let Call::Retune(rate) = c.calls[i]
            && !PLAIN.contains(&rate)
        {
            for plain in PLAIN {
                let mut d = c.clone();
                d.calls[i] = Call::Retune(plain);
                l.push(d);
            }
        }
        let Call::Play(p) = &c.calls[i] else { continue };
        let mut put = |p: Play| {
            let mut d = c.clone();
            d.calls[i] = Call::Play(p);
            l.push(d);
        };
        if p.freq.0 > 0 {
            put(Play { freq: (0, Vec::new()), ..p.clone() });
        }
        for g in 0..4 {
            if p.gains[g].0 > 0 {
                let mut q = p.clone();
                q.gains[g] = (0, Vec::new());
                put(q);
            }
        }
        if p.channels > 1 && p.out_len == p.channels * p.samples {
            put(Play { channels: p.channels - 1, out_len: p.out_len - p.samples, ..p.clone() });
        }
        if p.samples > 1 && p.out_len == p.channels * p.samples {
            for n in [1, p.samples / 2, p.samples - 1] {
                let cut = |i: &Input| {
                    let w = i.1.len() / p.samples.max(1);
                    (i.0, (0..w).flat_map(|k| i.1[k * p.samples..k * p.samples + n].to_vec()).collect())
                };
                put(Play {
                    samples: n,
                    freq: cut(&p.freq),
                    gains: std::array::from_fn(|g| cut(&p.gains[g])),
                    channels: p.channels,
                    out_len: p.channels * n,
                });
            }
        }
    }
    l
}

pub fn shrunk(c: &Case) -> Case {
    let mut best = c.clone();
    'again: loop {
        for d in smaller(&best) {
            if check(&d, &mut Tally::default()).is_err() {
                best = d;
                continue 'again;
            }
        }
        return best;
    }
}

pub fn run_case(c: &Case, tally: &mut Tally) {
    tally.cases += 1;
    if let Err(e) = check(c, tally) {
        tally.difference(&e, || {
            let s = shrunk(c);
            let image: String = s.table.bytes().iter().map(|b| format!("{b:02X} ")).collect();
            let case = format!("kind {}, channel {}, rate {:?}, centres {:?}, image {image}, calls {:?}", s.kind, s.channel, s.rate, s.centres, s.calls);
            (case, check(&s, &mut Tally::default()).unwrap_err())
        });
    }
}

pub fn run(voices: usize, seed: u64, tally: &mut Tally) {
    let mut r = Rand(seed);
    for _ in 0..voices {
        run_case(&any_case(&mut r), tally);
    }
}

// Lists of exactly that many calls, each on a voice that was made; a refused making has no list and is not counted among them.
pub fn run_lists(lists: usize, calls: usize, seed: u64, tally: &mut Tally) {
    let mut r = Rand(seed);
    let mut done = 0;
    while done < lists {
        let before = tally.calls;
        run_case(&case_of(&mut r, |_| calls), tally);
        done += (tally.calls > before) as usize;
    }
    println!("{done} lists of {calls} calls");
}
