// The fixed list of the original's answers on making and playing (words.rs has the words).
// A record: kind, channel, image (length, bytes), rate, centres (count, bits); the making's number, first, second; the fresh voice
// as changes of the voice that is all zero. Of an accepted making then: ring count and noise power of each band; the count of calls, and each call:
//   changes of the voice before it (which the list goes on without where the call is refused);
//   0 and a play (samples; frequency and four gains, each with channels, count and bits; channels; length of the output),
//   or 1 for a reset, or 2 and a seed, or 3 and the rate of a retune;
//   the number; of an accepted call the running state as changes, with all else that it changes, and of an accepted play then the output.
// Changes: a count, and for each a place (field × 65536 + index) and what stands there. The fields are numbered in the order of
// `places`, which is this list's own: a voice has them in another.
use super::*;
use crate::image;
use crate::list::long_image;
use crate::words::{self, Words};

// Every place of a voice, with the field's name.
fn places(v: &Voice) -> Vec<(&'static str, usize, u32)> {
    let mut l = Vec::new();
    let mut field = 0;
    let mut put = |name: &'static str, words: &[u32]| {
        words.iter().enumerate().for_each(|(i, &w)| l.push((name, field * 65536 + i, w)));
        field += 1;
    };
    let whole = |n: usize| n.min(u32::MAX as usize) as u32;
    let bits = |l: &[f32]| l.iter().map(|x| if x.is_nan() { 0x7FC00000 } else { x.to_bits() }).collect::<Vec<u32>>();
    put("blend", &[v.blend]);
    put("channel", &[v.channel]);
    put("count", &[whole(v.count)]);
    put("k", &[whole(v.k)]);
    put("m", &[whole(v.m)]);
    put("j", &[whole(v.j)]);
    put("live_count", &[whole(v.live_count)]);
    put("live", &v.live.map(u32::from));
    put("sample_rate", &bits(&[v.sample_rate]));
    put("f0_hz", &bits(&v.f0_hz));
    put("stretch", &bits(&v.stretch));
    put("mainlobe_gain", &bits(&v.mainlobe_gain));
    put("noise_gain", &bits(&v.noise_gain));
    put("partials", &bits(&v.partials));
    put("noise", &bits(&v.noise));
    for (i, name) in ["b0", "b1", "b2", "a1", "a2"].into_iter().enumerate() {
        put(name, &bits(&v.bands.map(|b| b[i])));
    }
    put("compensation", &bits(&v.compensation));
    put("phases", &bits(&v.state.phases));
    for (i, name) in ["z1", "z2"].into_iter().enumerate() {
        put(name, &bits(&v.state.memories.map(|z| z[i])));
    }
    put("noise number", &[v.state.noise]);
    put("centres", &bits(&v.centres));
    l
}

// Whose answer a change is.
#[derive(Clone, Copy, PartialEq)]
enum Whose {
    // nobody's: it is made before a call
    Given,
    Making,
    Retune,
    // a play's, a reset's or a reseed's
    Call,
}

// The changes from one voice to another; of a call's answer all of the running state (m phases, j pairs of memories, noise number).
fn changes(w: &mut Words, from: &Voice, to: &Voice, whose: Whose) {
    let state = whose == Whose::Call || whose == Whose::Retune;
    let used = |place: usize| match place >> 16 {
        21 => (place & 0xFFFF) < to.m,
        22 | 23 => (place & 0xFFFF) < to.j,
        field => field == 24,
    };
    let l: Vec<_> = places(from).into_iter().zip(places(to)).filter(|(a, b)| a.2 != b.2 || state && used(b.1)).map(|x| x.1).collect();
    w.n(l.len());
    for (name, place, bits) in l {
        w.n(place);
        match whose {
            Whose::Given => {}
            Whose::Making | Whose::Call => w.expect(name),
            Whose::Retune => w.expect(&format!("the retune's {name}")),
        }
        w.n(bits as usize);
    }
}

fn blank() -> Voice {
    unsafe { std::mem::zeroed() }
}

// The voice that holds what the original's holds.
fn voice_of(p: &Theirs, c: &Case) -> Voice {
    let (i, mut v) = (p.inside(), blank());
    (v.blend, v.channel) = if c.kind == 0 { (0, c.channel) } else { (1, 0) };
    (v.count, v.k, v.m, v.j, v.live_count) = (i.entries.len(), i.k, i.m, i.j, i.live.len());
    v.live.iter_mut().zip(&i.live).for_each(|(to, &b)| *to = b as u8);
    for (n, e) in i.entries.iter().enumerate() {
        [v.f0_hz[n], v.stretch[n], v.mainlobe_gain[n], v.noise_gain[n]] = e.0;
        e.1.iter().enumerate().for_each(|(c, row)| v.partials[n * 128 + c * 32..][..row.len()].copy_from_slice(row));
        e.2.iter().enumerate().for_each(|(c, row)| v.noise[n * 64 + c * 16..][..row.len()].copy_from_slice(row));
    }
    v.centres[..i.j].copy_from_slice(&c.centres);
    run_to(&with_init(&v, &p.init_gave()), &p.running())
}

// The voice with the rate, the bands and the compensations that the original's `init` gave; 0 beyond the bands.
fn with_init(v: &Voice, t: &InitGave) -> Voice {
    let mut v = Voice { sample_rate: t.rate, bands: [[0.0; 5]; 16], compensation: [0.0; 16], ..*v };
    v.bands[..t.bands.len()].copy_from_slice(&t.bands);
    v.compensation[..t.bands.len()].copy_from_slice(&t.compensation);
    v
}

fn run_to(v: &Voice, r: &Running) -> Voice {
    let mut v = *v;
    v.state.phases[..r.phases.len()].copy_from_slice(&r.phases);
    v.state.memories.iter_mut().zip(&r.memories).for_each(|(z, m)| *z = [m.0, m.1]);
    v.state.noise = r.noise;
    v
}

fn play_words(w: &mut Words, play: &Play) {
    w.n(0);
    w.n(play.samples);
    for input in std::iter::once(&play.freq).chain(&play.gains) {
        w.n(input.0);
        w.floats(&input.1);
    }
    w.n(play.channels);
    w.n(play.out_len);
}

fn retune_words(w: &mut Words, rate: f32) {
    w.n(3);
    w.f(rate);
}

// A call that is refused.
fn refused(w: &mut Words, what: &'static str, number: u32, numbers: &mut [usize; 18]) {
    w.expect(what);
    w.n(number as usize);
    numbers[number as usize] += 1;
}

// A call of each kind on a voice that breaks a rule, and a retune to each of two rates; answers how many were written.
fn broken_calls(w: &mut Words, v: &Voice, b: &Voice, play: &Play, numbers: &mut [usize; 18]) -> usize {
    if keeps_rules(b) {
        return 0;
    }
    changes(w, v, b, Whose::Given);
    play_words(w, play);
    refused(w, "the play's number", 13, numbers);
    changes(w, v, b, Whose::Given);
    w.n(1);
    refused(w, "the reset's number", 13, numbers);
    changes(w, v, b, Whose::Given);
    w.n(2);
    w.n(7);
    refused(w, "the reseed's number", 13, numbers);
    for rate in BROKEN_RATES {
        changes(w, v, b, Whose::Given);
        retune_words(w, rate);
        refused(w, "the retune's number", retune_question(b, rate), numbers);
    }
    3 + BROKEN_RATES.len()
}

// The calls of the case one by one; answers how many were written.
fn calls(w: &mut Words, c: &Case, p: &mut Theirs, numbers: &mut [usize; 18]) -> usize {
    let mut v = voice_of(p, c);
    // the voice with what is changed before the next accepted call, and the running state that the original is then given too
    let mut given = v;
    let mut touched: Option<Running> = None;
    let mut n = 0;
    for call in &c.calls {
        match call {
            Call::Touch(r) => {
                given = run_to(&given, r);
                touched = Some(r.clone());
                continue;
            }
            Call::Spare(bits) => {
                given = spared(&given, *bits);
                continue;
            }
            Call::Broken(which, play) => {
                n += broken_calls(w, &v, &broken(&v, *which), play, numbers);
                continue;
            }
            _ => {}
        }
        n += 1;
        changes(w, &v, &given, Whose::Given);
        let mut out = Vec::new();
        if let Call::Play(play) = call {
            play_words(w, play);
            let q = play_question(&given, play);
            if q != 0 {
                refused(w, "the play's number", q, numbers);
                continue;
            }
        }
        if let Call::Retune(rate) = call {
            retune_words(w, *rate);
            let q = their_retune(p, &given, *rate);
            if q != 0 {
                refused(w, "the retune's number", q, numbers);
                continue;
            }
        }
        if let Some(r) = touched.take() {
            p.set_running(&r);
        }
        match call {
            Call::Play(play) => out = their_play(p, play, given.sample_rate),
            Call::Reset => {
                w.n(1);
                p.ugen().reset();
            }
            Call::Reseed(seed) => {
                w.n(2);
                w.n(*seed as usize);
                p.ugen().reseed_noise(*seed);
            }
            Call::Retune(_) => {}
            Call::Touch(_) | Call::Spare(_) | Call::Broken(..) => unreachable!(),
        }
        w.n(0);
        numbers[0] += 1;
        v = run_to(&given, &p.running());
        let mut whose = Whose::Call;
        if let Call::Retune(_) = call {
            v = with_init(&v, &p.init_gave());
            whose = Whose::Retune;
        }
        changes(w, &given, &v, whose);
        given = v;
        for x in out {
            w.expect("a sample");
            w.f(x);
        }
    }
    n
}

// The record, and the making's number.
fn record(c: &Case, image: &[u8], numbers: &mut [usize; 18]) -> (Words, u32) {
    let mut w = Words::default();
    w.n(c.kind as usize);
    w.n(c.channel as usize);
    w.part(image);
    w.f(c.rate);
    w.floats(&c.centres);
    let read = expected_read(image, &mut Tally::default());
    let q = read.as_ref().map_or_else(|e| *e, |t| making_question(t, c.kind, c.channel, c.rate, &c.centres));
    w.answer(["the making's number", "the making's first value", "the making's second value"], q);
    if q.0 != 0 {
        changes(&mut w, &blank(), &blank(), Whose::Given);
        return (w, q.0);
    }
    let (mut p, rung) = made(&Arc::new(read.unwrap()), c.kind, c.channel, c.rate, &c.centres).unwrap();
    changes(&mut w, &blank(), &voice_of(&p, c), Whose::Making);
    for (b, raw) in c.centres.iter().enumerate() {
        let centre = raw.min(c.rate * 0.5 * 0.9).max(20.0);
        w.expect("a ring count");
        w.n(rung[b]);
        w.expect("a noise power");
        w.f(shim::noise_power(centre, 1.0, c.rate, p.init_gave().bands[b]).0);
    }
    let mut list = Words::default();
    let n = calls(&mut list, c, &mut p, numbers);
    w.n(n);
    w.append(list);
    (w, 0)
}

// The words of a play's slices; of a play with a count that is no word, more than any list takes.
fn size(call: &Call) -> usize {
    let (Call::Play(p) | Call::Broken(_, p)) = call else { return 0 };
    let wide = [p.channels, p.freq.0].iter().chain(p.gains.iter().map(|g| &g.0)).any(|&n| n > u32::MAX as usize);
    if wide { usize::MAX } else { p.out_len + p.freq.1.len() + p.gains.iter().map(|g| g.1.len()).sum::<usize>() }
}

// A case that is short enough for the list: one call in ten may be long.
fn short_case(r: &mut Rand) -> Case {
    loop {
        let mut c = any_case(r);
        c.calls.retain(|call| size(call) <= if r.chance(10) { 700 } else { 120 });
        if c.table.bytes().len() <= 1200 && c.calls.iter().map(size).sum::<usize>() <= 900 {
            return c;
        }
    }
}

pub fn write_list(n: usize, seed: u64, path: &str) {
    let mut r = Rand(seed);
    let (mut made, mut played) = ([0; 18], [0; 18]);
    let mut records = Vec::new();
    while records.len() < n {
        let c = short_case(&mut r);
        // a making asks the questions of reading too
        let image = if records.is_empty() { long_image(1) } else if r.chance(25) { image::any_image(&mut r) } else { c.table.bytes() };
        let mut numbers = played;
        let (one, q) = record(&c, &image, &mut numbers);
        // no refusal takes more than a twentieth of the list, and the last places are kept for those that are not there yet
        let missing = (1..=12).filter(|&q| made[q] == 0).count();
        let fits = missing < n - records.len() || q != 0 && made[q as usize] == 0;
        if fits && (q == 0 || made[q as usize] * 20 <= n) {
            made[q as usize] += 1;
            played = numbers;
            records.push(one);
        }
    }
    words::write("making and playing", &records, path);
    println!("list: makings by number {made:?}, calls by number {played:?}");
}
