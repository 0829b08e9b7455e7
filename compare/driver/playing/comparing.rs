// A case on both sides, compared.
use super::*;

// the same bits, or both NaN
pub fn alike(a: f32, b: f32) -> bool {
    a.to_bits() == b.to_bits() || a.is_nan() && b.is_nan()
}

pub fn floats(what: &str, ours: &[f32], theirs: &[f32]) -> Result<(), String> {
    if ours.len() != theirs.len() {
        return Err(format!("{what}: ours are {}, the original's {}", ours.len(), theirs.len()));
    }
    match (0..ours.len()).find(|&i| !alike(ours[i], theirs[i])) {
        None => Ok(()),
        Some(i) => Err(format!(
            "{what} at {i}: ours {:?} ({:08X}), the original's {:?} ({:08X})",
            ours[i],
            ours[i].to_bits(),
            theirs[i],
            theirs[i].to_bits()
        )),
    }
}

pub fn numbers<T: PartialEq + std::fmt::Debug>(what: &str, ours: T, theirs: T) -> Result<(), String> {
    if ours == theirs { Ok(()) } else { Err(format!("{what}: ours {ours:?}, the original's {theirs:?}")) }
}

// The bytes of a voice; what C leaves between its fields counts as 0.
pub fn bytes(v: &Voice) -> [u8; ffi::SIZE] {
    let mut v = *v;
    (v.gap, v.rest) = (0, 0);
    unsafe { std::mem::transmute(v) }
}

// where the running state stands in them
pub const STATE: usize = std::mem::offset_of!(Voice, state);

pub fn padded(l: impl Iterator<Item = f32>, n: usize) -> Vec<f32> {
    let mut v: Vec<f32> = l.collect();
    v.resize(n, 0.0);
    v
}

// The fresh voice of a case against what the original holds; the centres are those that the making was given.
pub fn fresh(v: &Voice, p: &Theirs, c: &Case) -> Result<(), String> {
    let i = p.inside();
    numbers("kind", (v.blend, v.channel), if c.kind == 0 { (0, c.channel) } else { (1, 0) })?;
    numbers("counts", (v.count, v.k, v.m, v.j), (i.entries.len(), i.k, i.m, i.j))?;
    numbers("live bands", v.live[..v.live_count.min(16)].iter().map(|&b| b as usize).collect::<Vec<_>>(), i.live.clone())?;
    numbers("unused live bands", v.live[i.live.len()..].iter().any(|&b| b != 0), false)?;
    floats("rate given", &[v.sample_rate], &[c.rate])?;
    for (what, ours, at) in
        [("pitches", &v.f0_hz, 0), ("stretches", &v.stretch, 1), ("mainlobe gains", &v.mainlobe_gain, 2), ("noise gains", &v.noise_gain, 3)]
    {
        floats(what, ours, &padded(i.entries.iter().map(|e| e.0[at]), 16))?;
    }
    // the original's blend leaves out partials that are 0 or -0 in every channel: ours keeps their sign
    let (mut partials, mut noise) = (vec![0f32; 2048], vec![0f32; 1024]);
    for (n, e) in i.entries.iter().enumerate() {
        for (c, row) in e.1.iter().enumerate() {
            partials[n * 128 + c * 32..][..row.len()].copy_from_slice(row);
        }
        for (c, row) in e.2.iter().enumerate() {
            noise[n * 64 + c * 16..][..row.len()].copy_from_slice(row);
        }
    }
    let dropped = |x: usize, p: f32| c.kind != 0 && x % 32 >= i.m && p == 0.0;
    let ours: Vec<f32> = v.partials.iter().enumerate().map(|(x, &p)| if dropped(x, p) { 0.0 } else { p }).collect();
    floats("partials", &ours, &partials)?;
    floats("noise", &v.noise, &noise)?;
    floats("centres", &v.centres, &padded(c.centres.iter().copied(), 16))?;
    as_init_gave(v, &p.init_gave())?;
    unused_bands(v)
}

// The rate, and the coefficients and the compensation of each band, against what the original's `init` gave last.
pub fn as_init_gave(v: &Voice, t: &InitGave) -> Result<(), String> {
    let j = t.bands.len();
    floats("rate", &[v.sample_rate], &[t.rate])?;
    floats("band coefficients", &v.bands[..j].concat(), &t.bands.concat())?;
    floats("compensations", &v.compensation[..j], &t.compensation)
}

// A making and a retune leave 0 where the voice has no band.
pub fn unused_bands(v: &Voice) -> Result<(), String> {
    floats("coefficients beyond the bands", &v.bands[v.j..].concat(), &[0.0; 80][v.j * 5..])?;
    floats("compensations beyond the bands", &v.compensation[v.j..], &[0.0; 16][v.j..])
}

// The places beyond the voice's bands filled, each with another float.
pub fn spared(v: &Voice, bits: u32) -> Voice {
    let (mut w, j) = (*v, v.j);
    let places = w.bands[j..].iter_mut().flatten().chain(&mut w.compensation[j..]).chain(&mut w.centres[j..]);
    places.zip(0..).for_each(|(x, i)| *x = f32::from_bits(bits.wrapping_add(i)));
    w
}

// The running state against the original's; what is not in use must be as it was.
pub fn running(v: &State, before: &State, r: &Running) -> Result<(), String> {
    let (m, j) = (r.phases.len(), r.memories.len());
    floats("phases", &v.phases[..m], &r.phases)?;
    floats("memories", &v.memories[..j].concat(), &r.memories.iter().flat_map(|z| [z.0, z.1]).collect::<Vec<_>>())?;
    numbers("noise number", v.noise, r.noise)?;
    let rest = |s: &State| {
        (s.phases[m..].iter().map(|p| p.to_bits()).collect::<Vec<_>>(), s.memories[j..].iter().map(|z| z.map(f32::to_bits)).collect::<Vec<_>>())
    };
    numbers("unused phases and memories", rest(v), rest(before))
}

pub fn lent(i: &Input) -> (usize, &[f32]) {
    (i.0, &i.1)
}

// A block of the voice where it lies.
pub fn play_in(v: &mut Voice, p: &Play, out: &mut [f32]) -> u32 {
    ffi::play_in(v, p.samples, lent(&p.freq), std::array::from_fn(|g| lent(&p.gains[g])), p.channels, out)
}

// The same of the voice by value.
pub fn play_by_value(v: &Voice, p: &Play, out: &mut [f32]) -> ffi::PlayedAnswer {
    ffi::play(v, p.samples, lent(&p.freq), std::array::from_fn(|g| lent(&p.gains[g])), p.channels, out)
}

// A play both ways: they must give the same number, the same samples (NaN matching NaN) and the same voice byte for byte.
pub fn our_play(v: &Voice, p: &Play, out: &mut [f32]) -> Result<ffi::PlayedAnswer, String> {
    let (mut own, mut heard) = (*v, out.to_vec());
    let number = play_in(&mut own, p, &mut heard);
    let got = play_by_value(v, p, out);
    numbers("number of a play in place", number, got.number)?;
    if number != 0 {
        unwritten(&heard)?;
    }
    floats("samples of a play in place", &heard, out)?;
    if bytes(&own) != bytes(&got.voice) {
        return Err("a play in place leaves another voice".into());
    }
    if v.blend == 0 && number == 0 {
        by_its_bands(v, p, &own, &heard)?;
    }
    Ok(got)
}

// A reset, a reseed or a retune both ways: by value, and of the voice where it lies.
fn both_ways(what: &str, v: &Voice, got: ffi::PlayedAnswer, in_place: impl Fn(&mut Voice) -> u32) -> Result<ffi::PlayedAnswer, String> {
    let mut own = *v;
    numbers(&format!("number of a {what} in place"), in_place(&mut own), got.number)?;
    if bytes(&own) != bytes(&got.voice) {
        return Err(format!("a {what} in place leaves another voice"));
    }
    Ok(got)
}

pub fn our_reset(v: &Voice) -> Result<ffi::PlayedAnswer, String> {
    both_ways("reset", v, ffi::reset(v), ffi::reset_in)
}

pub fn our_reseed(v: &Voice, seed: u32) -> Result<ffi::PlayedAnswer, String> {
    both_ways("reseed", v, ffi::reseed(v, seed), |own| ffi::reseed_in(own, seed))
}

pub fn our_retune(v: &Voice, rate: f32) -> Result<ffi::PlayedAnswer, String> {
    both_ways("retune", v, ffi::retune(v, rate), |own| ffi::retune_in(own, rate))
}

// A single voice plays all its bands, whatever its list of live bands says, and takes no notice of k.
fn by_its_bands(v: &Voice, p: &Play, after: &Voice, heard: &[f32]) -> Result<(), String> {
    let (mut own, mut out) = (Voice { k: 4, live_count: 0, live: [0; 16], ..*v }, heard.to_vec());
    out.fill(f32::from_bits(0x7fc0_1234));
    numbers("number of a single voice without a list", play_in(&mut own, p, &mut out), 0)?;
    floats("samples of a single voice without a list", &out, heard)?;
    if bytes(&Voice { k: v.k, live_count: v.live_count, live: v.live, ..own }) != bytes(after) {
        return Err("a single voice without a list leaves another voice".into());
    }
    Ok(())
}

// A voice that breaks a rule of document 01, or nearly does.
pub fn broken(v: &Voice, which: usize) -> Voice {
    let mut b = *v;
    let next = |x: f32| f32::from_bits(x.to_bits() + 1);
    match which {
        0 => b.count = 17,
        1 => b.m = 33,
        2 => b.j = 17,
        3 => b.k = 5,
        4 => b.sample_rate = next(192000.0),
        5 => b.sample_rate = f32::NAN,
        6 => b.sample_rate = 7999.9995,
        7 => b.state.phases[0] = 1.0,
        8 => b.state.phases[v.m.max(1) - 1] = f32::NAN,
        9 => b.state.phases[v.m.max(1) - 1] = -1e-45,
        10 => b.f0_hz[v.count.max(1) - 1] = next(20000.0),
        11 => b.f0_hz[0] = 0.0,
        12 => b.f0_hz.swap(0, v.count.max(1) - 1),
        13 => b.stretch[v.count.max(1) - 1] = next(4.0),
        14 => b.stretch[0] = -1e-45,
        15 => b.live[v.live_count.max(1) - 1] = v.j as u8,
        16 => b.live.swap(0, v.live_count.max(1) - 1),
        17 => b.live_count = 17,
        18 => b.count = usize::MAX,
        19 => b.m = usize::MAX,
        20 => b.live_count = usize::MAX,
        21 => b.f0_hz[0] = f32::NAN,
        22 => {
            b.live_count = 2;
            b.live[1] = b.live[0];
        }
        23 => b.centres[v.j.max(1) - 1] = f32::NAN,
        24 => b.centres[0] = f32::INFINITY,
        25 => b.centres[v.j / 2] = f32::NEG_INFINITY,
        26 => (b.j, b.centres[15]) = (16, f32::NAN),
        _ => b.sample_rate = f32::INFINITY,
    }
    b
}

pub const BREAKS: usize = 28;

// The rates that a broken voice is retuned to: one that fits, and one that does not, which nothing asks about.
pub const BROKEN_RATES: [f32; 2] = [48000.0, 7999.9995];

// What an output holds before a play: every place another, NaNs with a payload among them.
pub fn filling(n: usize) -> Vec<f32> {
    (0..n as u32).map(|i| f32::from_bits(if i % 5 == 3 { 0xFFA00000 + i } else { 0x40490000 + i })).collect()
}

// The output of a refused play, bit for bit: no NaN may have lost its payload either.
pub fn unwritten(out: &[f32]) -> Result<(), String> {
    match out.iter().zip(filling(out.len())).position(|(a, b)| a.to_bits() != b.to_bits()) {
        None => Ok(()),
        Some(i) => Err(format!("a refused play writes sample {i}: {:08X}", out[i].to_bits())),
    }
}

// A call that must be refused: the number, the voice as given, the output as it was.
pub fn refusal(what: &str, number: u32, got: &ffi::PlayedAnswer, given: &Voice) -> Result<(), String> {
    numbers(&format!("{what}'s number"), got.number, number)?;
    if bytes(&got.voice) != bytes(given) {
        return Err(format!("{what}, refused {number}, does not return the voice as given"));
    }
    Ok(())
}

pub fn check_call(v: &mut Voice, p: &mut Theirs, call: &Call, tally: &mut Tally) -> Result<(), String> {
    tally.calls += 1;
    let given = *v;
    match call {
        Call::Play(c) => {
            let q = play_question(v, c);
            tally.number(q);
            let mut out = filling(c.out_len);
            let got = our_play(v, c, &mut out)?;
            if q != 0 {
                tally.paper += 1;
                unwritten(&out)?;
                return refusal("play", q, &got, v);
            }
            numbers("play's number", got.number, 0)?;
            tally.samples += out.len() as u64;
            floats("samples", &out, &their_play(p, c, given.sample_rate))?;
            *v = got.voice;
        }
        Call::Reset => {
            let got = our_reset(v)?;
            p.ugen().reset();
            numbers("reset's number", got.number, 0)?;
            *v = got.voice;
        }
        Call::Reseed(seed) => {
            let got = our_reseed(v, *seed)?;
            p.ugen().reseed_noise(*seed);
            numbers("reseed's number", got.number, 0)?;
            *v = got.voice;
        }
        Call::Retune(rate) => {
            let q = their_retune(p, v, *rate);
            tally.number(q);
            let got = our_retune(v, *rate)?;
            if q != 0 {
                tally.paper += 1;
                return refusal("retune", q, &got, v);
            }
            numbers("retune's number", got.number, 0)?;
            *v = got.voice;
            kept(v, &given)?;
            unused_bands(v)?;
            as_init_gave(v, &p.init_gave())?;
            return running(&v.state, &given.state, &p.running());
        }
        Call::Spare(bits) => *v = spared(v, *bits),
        Call::Touch(r) => {
            v.state.phases[..r.phases.len()].copy_from_slice(&r.phases);
            v.state.memories.iter_mut().zip(&r.memories).for_each(|(z, m)| *z = [m.0, m.1]);
            v.state.noise = r.noise;
            p.set_running(r);
        }
        Call::Broken(which, c) => {
            let b = broken(v, *which);
            if keeps_rules(&b) {
                return nearly_broken(&b);
            }
            tally.number(13);
            tally.paper += 1;
            let mut out = filling(c.out_len);
            refusal("play of a broken voice", 13, &our_play(&b, c, &mut out)?, &b)?;
            unwritten(&out)?;
            refusal("reset of a broken voice", 13, &our_reset(&b)?, &b)?;
            for rate in BROKEN_RATES {
                refusal("retune of a broken voice", retune_question(&b, rate), &our_retune(&b, rate)?, &b)?;
            }
            return refusal("reseed of a broken voice", 13, &our_reseed(&b, 7)?, &b);
        }
    }
    if !matches!(call, Call::Spare(_)) && bytes(v)[..STATE] != bytes(&given)[..STATE] {
        return Err(format!("{call:?} changes more than the running state"));
    }
    as_init_gave(v, &p.init_gave())?;
    // a reset zeroes the unused places too, which are 0 from the start; a reseed zeroes memories
    running(&v.state, &given.state, &p.running())
}

// A voice that keeps the rules all the same, as one with an odd centre where it has no band: it is not refused.
fn nearly_broken(v: &Voice) -> Result<(), String> {
    numbers("number of a reset of a voice that keeps the rules", our_reset(v)?.number, 0)?;
    let got = our_retune(v, BROKEN_RATES[0])?;
    numbers("number of a retune of a voice that keeps the rules", got.number, 0)?;
    kept(&got.voice, v)
}

// What a retune leaves, bit for bit: all but the rate, the bands' coefficients and the compensations.
fn kept(v: &Voice, given: &Voice) -> Result<(), String> {
    let before = Voice { sample_rate: given.sample_rate, bands: given.bands, compensation: given.compensation, ..*v };
    if bytes(&before) != bytes(given) {
        return Err("a retune changes more than the rate, the bands' coefficients and the compensations".into());
    }
    Ok(())
}

pub fn check(c: &Case, tally: &mut Tally) -> Result<(), String> {
    let image = c.table.bytes();
    let answer = |a: (u32, usize, usize)| Answer { number: a.0, first: a.1, second: a.2 };
    let got = ffi::make(c.kind, c.channel, &image, c.rate, &c.centres);
    let read = expected_read(&image, tally);
    let wanted = match &read {
        Ok(t) => making_question(t, c.kind, c.channel, c.rate, &c.centres),
        Err(e) => *e,
    };
    tally.number(wanted.0);
    numbers("make", got.answer, answer(wanted))?;
    if wanted.0 != 0 {
        tally.paper += 1;
        if let (Ok(t), 10) = (read, wanted.0) {
            numbers("the original makes no voice of the channel", made(&Arc::new(t), c.kind, c.channel, c.rate, &c.centres).is_none(), true)?;
        }
        return numbers("bytes of a refused making's voice that are not 0", bytes(&got.voice).iter().filter(|b| **b != 0).count(), 0);
    }
    let t = Arc::new(read.unwrap());
    let (mut p, rung) = made(&t, c.kind, c.channel, c.rate, &c.centres).ok_or("the original makes no voice of the channel")?;
    let mut v = got.voice;
    fresh(&v, &p, c)?;
    let zero = State { phases: [0.0; 32], memories: [[0.0; 2]; 16], noise: 0 };
    running(&v.state, &zero, &p.running())?;
    for (b, raw) in c.centres.iter().enumerate() {
        let centre = raw.min(c.rate * 0.5 * 0.9).max(20.0);
        let ours = ffi::noise_power_gain(centre, 1.0, c.rate, v.bands[b]);
        numbers("ring count", ours.n as usize, rung[b])?;
        floats("noise power", &[ours.power], &[shim::noise_power(centre, 1.0, c.rate, v.bands[b]).0])?;
    }
    if !keeps_rules(&v) {
        return Err("a fresh voice breaks the voice rules".into());
    }
    for (i, call) in c.calls.iter().enumerate() {
        check_call(&mut v, &mut p, call, tally).map_err(|e| format!("call {i}: {e}"))?;
    }
    Ok(())
}
