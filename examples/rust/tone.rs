// The library from Rust: reads a table, makes a voice of it, plays a block, goes on at another sample rate, plays softer by a plan of quiet
// windows, prints the first samples, and makes one table of two.
// Build it beside the static library (`tools/staticlib`):
//   rustc -O --edition 2024 -C link-arg=target/staticlib/libsounder.a -o target/tone examples/rust/tone.rs
// include/sounder.h says what each function promises; the declarations below are the same.

#[repr(C)]
#[derive(Debug, PartialEq)]
struct Answer {
    number: u32,
    first: usize,
    second: usize,
}

#[repr(C)]
#[derive(Debug)]
struct DeskAnswer {
    answer: Answer,
    bands: u32,
    min_hz: u32,
    max_hz: u32,
}

// `image`: which of the two a refusal 1 to 7 speaks of, 1 or 2; else 0.
#[repr(C)]
#[derive(Debug)]
struct MergeAnswer {
    answer: Answer,
    image: u32,
}

#[repr(C)]
#[derive(Clone, Copy)]
struct State {
    phases: [f32; 32],
    memories: [[f32; 2]; 16],
    noise: u32,
}

#[repr(C)]
#[derive(Clone, Copy)]
struct Voice {
    blend: u32,
    channel: u32,
    count: usize,
    k: usize,
    m: usize,
    j: usize,
    live_count: usize,
    sample_rate: f32,
    live: [u8; 16],
    gap: u32, // says nothing
    f0_hz: [f32; 16],
    stretch: [f32; 16],
    mainlobe_gain: [f32; 16],
    noise_gain: [f32; 16],
    bands: [[f32; 5]; 16],
    compensation: [f32; 16],
    centres: [f32; 16],
    partials: [f32; 2048],
    noise: [f32; 1024],
    state: State,
}

// SOUNDER_VOICE_BYTES
const _: () = assert!(size_of::<Voice>() == 13328);

// How long and how wide a block is, and how many channels each input has; 0: unconnected.
#[repr(C)]
#[derive(Clone, Copy)]
struct Shape {
    samples: usize,
    channels: usize,
    freq: usize,
    g0: usize,
    g1: usize,
    g2: usize,
    g3: usize,
}

#[repr(C)]
struct MadeAnswer {
    answer: Answer,
    voice: Voice,
}

#[repr(C)]
struct PlayedAnswer {
    number: u32,
    voice: Voice,
}

// From the minute of the week `start` on and before `end`, at `step` hundredths.
#[repr(C)]
#[derive(Clone, Copy)]
struct Window {
    start: u32,
    end: u32,
    step: u32,
}

// The first `count` windows; the rest is not looked at.
#[repr(C)]
#[derive(Clone, Copy)]
struct Plan {
    count: u32,
    windows: [Window; 64],
}

// SOUNDER_PLAN_BYTES
const _: () = assert!(size_of::<Plan>() == 772);

#[repr(C)]
#[derive(Debug)]
struct QuietAnswer {
    answer: Answer,
    gain: f32,
}

unsafe extern "C" {
    fn sounder_from_bytes(image: *const u8, len: usize) -> Answer;
    fn sounder_desk(kind: u32, channel: u32, image: *const u8, len: usize) -> DeskAnswer;
    #[rustfmt::skip]
    fn sounder_merge(
        first: *const u8, first_len: usize, second: *const u8, second_len: usize, target: *mut u8, target_len: usize,
    ) -> MergeAnswer;
    fn sounder_make(kind: u32, channel: u32, image: *const u8, len: usize, rate: f32, centres: *const f32, centres_len: usize) -> MadeAnswer;
    #[rustfmt::skip]
    fn sounder_play(
        voice: Voice, shape: Shape, freq: *const f32, freq_len: usize, g0: *const f32, g0_len: usize, g1: *const f32, g1_len: usize,
        g2: *const f32, g2_len: usize, g3: *const f32, g3_len: usize, out: *mut f32, out_len: usize,
    ) -> PlayedAnswer;
    #[rustfmt::skip]
    fn sounder_play_in(
        voice: *mut Voice, shape: Shape, freq: *const f32, freq_len: usize, g0: *const f32, g0_len: usize, g1: *const f32, g1_len: usize,
        g2: *const f32, g2_len: usize, g3: *const f32, g3_len: usize, out: *mut f32, out_len: usize,
    ) -> u32;
    fn sounder_retune_in(voice: *mut Voice, rate: f32) -> u32;
    fn sounder_quiet_gain(plan: Plan, minute: u32) -> QuietAnswer;
}

// A table with one entry of a pitch: one channel, three partials and a noise band.
fn image(pitch: f32) -> Vec<u8> {
    let mut b = b"MSCT\x01\x00\x04\x00\x00\x00tone\x01\x00\x00\x00".to_vec();
    let mut word = |w: u32| b.extend(w.to_le_bytes());
    word(pitch.to_bits());
    word(1f32.to_bits()); // stretch
    word(3); // partial frequencies, which no voice looks at
    for i in [1f32, 2.0, 3.0] {
        word((pitch * i).to_bits());
    }
    word(1); // channels
    word(1); // noise bands
    word(4); // coefficients
    for c in [0.5f32, 0.25, 0.125, 0.0625] {
        word(c.to_bits());
    }
    word(0); // metadata
    b
}

// The slice of an input that is not connected: its pointer may not be null.
const NONE: (*const f32, usize) = ([].as_ptr(), 0);

// A block of the voice where it lies: gain 0 is connected where its slice is not empty, the others are not.
#[rustfmt::skip]
fn play_in(voice: &mut Voice, shape: Shape, freq: &[f32], gain: &[f32], out: &mut [f32]) -> u32 {
    unsafe {
        sounder_play_in(
            voice, Shape { g0: !gain.is_empty() as usize, ..shape }, freq.as_ptr(), freq.len(), gain.as_ptr(), gain.len(),
            NONE.0, NONE.1, NONE.0, NONE.1, NONE.0, NONE.1, out.as_mut_ptr(), out.len(),
        )
    }
}

fn main() {
    let (image, extra) = (image(880.0), image(440.0));
    let read = unsafe { sounder_from_bytes(image.as_ptr(), image.len()) };
    println!("read: {read:?}");
    assert_eq!(read, Answer { number: 0, first: 1, second: image.len() });

    // the desk works out a centre for each band of the voice, between the span's ends
    let desk = unsafe { sounder_desk(0, 0, image.as_ptr(), image.len()) };
    println!("bands: {}, from {} to {} Hz", desk.bands, f32::from_bits(desk.min_hz), f32::from_bits(desk.max_hz));
    assert_eq!(desk.answer.number, 0);
    let centres = vec![1000f32; desk.bands as usize];

    let made = unsafe { sounder_make(0, 0, image.as_ptr(), image.len(), 48000.0, centres.as_ptr(), centres.len()) };
    println!("made: {:?}, {} partials", made.answer, made.voice.m);
    assert_eq!(made.answer.number, 0);

    // 128 samples of one channel at 880 Hz; the gains are not connected
    let freq = [880f32; 128];
    let shape = Shape { samples: 128, channels: 1, freq: 1, g0: 0, g1: 0, g2: 0, g3: 0 };
    let mut out = [0f32; 128];
    #[rustfmt::skip]
    let played = unsafe {
        sounder_play(
            made.voice, shape, freq.as_ptr(), freq.len(), NONE.0, NONE.1, NONE.0, NONE.1, NONE.0, NONE.1, NONE.0, NONE.1, out.as_mut_ptr(), out.len(),
        )
    };
    println!("played: {}, {:?}", played.number, &out[..6]);
    assert!(played.number == 0 && out.iter().all(|y| y.is_finite()) && out[1] != 0.0);
    assert!(played.voice.state.phases[0] > 0.0 && played.voice.state.noise != made.voice.state.noise);

    // the same block of the voice where it lies, which moves on: the way of a host that plays many short blocks
    let (mut own, mut heard) = (made.voice, [0f32; 128]);
    let number = play_in(&mut own, shape, &freq, &[], &mut heard);
    println!("played in place: {number}, {:?}", &heard[..6]);
    assert!(number == 0 && heard == out && own.state.noise == played.voice.state.noise && own.state.phases == played.voice.state.phases);

    // the clock moves to 44,100 while the tone sounds: the voice goes on from its phases, and the band is another for the same centre
    let number = unsafe { sounder_retune_in(&mut own, 44100.0) };
    println!("retuned: {number}, {} Hz, band {:?}", own.sample_rate, own.bands[0]);
    assert!(number == 0 && own.sample_rate == 44100.0 && own.centres[0] == 1000.0 && own.bands[0] != played.voice.bands[0]);
    assert!(own.state.phases == played.voice.state.phases && own.state.memories == played.voice.state.memories);
    // a rate that no voice has is refused, and the voice stays as it is
    let refused = unsafe { sounder_retune_in(&mut own, 7999.0) };
    assert!(refused == 11 && own.sample_rate == 44100.0);
    let number = play_in(&mut own, shape, &freq, &[], &mut heard);
    println!("played on: {number}, {:?}", &heard[..6]);
    assert!(number == 0 && heard.iter().all(|y| y.is_finite()) && heard != out);

    // Monday 22:00 to Tuesday 06:00 at 30 of 100, and the night over the week's end at 20: the gain of Monday 23:00 goes into gain 0
    let mut plan = Plan { count: 2, windows: [Window { start: 1320, end: 1800, step: 30 }; 64] };
    plan.windows[1] = Window { start: 9960, end: 360, step: 20 };
    let quiet = unsafe { sounder_quiet_gain(plan, 1380) };
    println!("quiet: {quiet:?}");
    assert!(quiet.answer == Answer { number: 0, first: 0, second: 0 } && quiet.gain == 30.0 / 100.0);
    let (mut soft, mut softly) = (own, [0f32; 128]);
    let number = play_in(&mut soft, shape, &freq, &[quiet.gain; 128], &mut softly);
    play_in(&mut own, shape, &freq, &[], &mut heard);
    println!("played softly: {number}, {:?}", &softly[..6]);
    assert!(number == 0 && softly.iter().zip(&heard).all(|(a, b)| (a - 0.3 * b).abs() < 1e-6));
    // the voice is the one that plays without a plan
    assert!(soft.state.phases == own.state.phases && soft.state.memories == own.state.memories && soft.state.noise == own.state.noise);

    // a pitch that was added later: both tables as one, the lower pitch first; 65,536 bytes hold every result
    let mut target = vec![0u8; 65536];
    let merged = unsafe { sounder_merge(image.as_ptr(), image.len(), extra.as_ptr(), extra.len(), target.as_mut_ptr(), target.len()) };
    println!("merged: {merged:?}");
    assert!(merged.answer == Answer { number: 0, first: 2, second: image.len() + extra.len() - 18 } && merged.image == 0);
    let both = &target[..merged.answer.second];
    let made = unsafe { sounder_make(0, 0, both.as_ptr(), both.len(), 48000.0, centres.as_ptr(), centres.len()) };
    assert!(made.answer.number == 0 && made.voice.count == 2 && made.voice.f0_hz[..2] == [440.0, 880.0]);
    // a table that was cut short is refused, and which of the two it is
    let cut = unsafe { sounder_merge(image.as_ptr(), image.len(), extra.as_ptr(), 20, target.as_mut_ptr(), target.len()) };
    assert!(cut.answer == Answer { number: 2, first: 0, second: 0 } && cut.image == 2);
}
