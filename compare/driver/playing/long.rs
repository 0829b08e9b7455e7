// One long list of plays on one voice, never reset, whose rate changes while it sounds: what adds up over millions of samples is compared.
use super::*;
use crate::race::table;

// A block of 1 to 128 samples with gliding or odd frequencies and gains; one in thirty is refused.
fn block(r: &mut Rand) -> Play {
    let samples = 1 + r.below(128);
    let channels = r.pick(&[1, 1, 1, 2]);
    let width = |r: &mut Rand| r.pick(&[1, 1, 2]);
    let f = width(r);
    let gains = std::array::from_fn(|_| {
        let w = width(r);
        (w, any_gains(r, w * samples))
    });
    let mut play = Play { samples, freq: (f, any_frequencies(r, f * samples)), gains, channels, out_len: channels * samples };
    match r.below(90) {
        0 => play.out_len += 1,
        1 => play.freq.1.push(220.0),
        2 => play.freq.1[r.below(samples)] = 20000.002,
        _ => {}
    }
    play
}

// What it is retuned to: mostly the two rates of a cabinet's clock, now and then a limit, or what is refused.
const RATES: [f32; 8] = [44100.0, 48000.0, 44100.0, 48000.0, 8000.0, 192000.0, 192000.02, f32::NAN];

// Plays a voice of 32 partials and 16 bands until that many samples of channel 0 are compared.
fn list(kind: u32, samples: u64, r: &mut Rand, tally: &mut Tally) -> Result<u64, String> {
    let (image, rate) = (table(4, 32, 4, 16).bytes(), 44100.0);
    let centres: Vec<f32> = (0..16).map(|b| 100.0 + 700.0 * b as f32).collect();
    let mut v = ffi::make(kind, 0, &image, rate, &centres).voice;
    let (mut p, _) = made(&Arc::new(shim::read(&image).unwrap()), kind, 0, rate, &centres).unwrap();
    numbers("partials and bands", (v.m, v.j), (32, 16))?;
    let mut done = 0;
    while done < samples {
        let within = |e| format!("after {done} samples: {e}");
        if r.below(100) == 0 {
            check_call(&mut v, &mut p, &Call::Retune(r.pick(&RATES)), tally).map_err(within)?;
        }
        let play = block(r);
        let accepted = play_question(&v, &play) == 0;
        check_call(&mut v, &mut p, &Call::Play(play.clone()), tally).map_err(within)?;
        done += if accepted { play.samples as u64 } else { 0 };
    }
    Ok(done)
}

pub fn long(samples: u64, seed: u64, tally: &mut Tally) {
    for (what, kind) in [("single voice", 0), ("blend of four", 1)] {
        tally.cases += 1;
        match list(kind, samples, &mut Rand(seed), tally) {
            Ok(n) => println!("one list of {n} samples on a {what} without a reset: the same"),
            Err(e) => tally.difference(&e, || (format!("seed {seed}, a {what}"), e.clone())),
        }
    }
}
