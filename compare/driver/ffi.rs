// The boundary of the library under comparison, as include/sounder.h declares it.
#[repr(C)]
#[derive(Clone, Copy, Debug, PartialEq)]
pub struct Answer {
    pub number: u32,
    pub first: usize,
    pub second: usize,
}

#[repr(C)]
#[derive(Clone, Copy, Debug, PartialEq)]
pub struct Place {
    pub start: usize,
    pub len: usize,
}

#[repr(C)]
#[derive(Clone, Copy, Debug, PartialEq)]
pub struct DeskAnswer {
    pub answer: Answer,
    pub bands: u32,
    pub min_hz: u32,
    pub max_hz: u32,
}

// `image`: which of the two a refusal 1 to 7 speaks of, 1 or 2; else 0.
#[repr(C)]
#[derive(Clone, Copy, Debug, PartialEq)]
pub struct MergeAnswer {
    pub answer: Answer,
    pub image: u32,
}

#[repr(C)]
#[derive(Clone, Copy, Debug)]
pub struct Window {
    pub start: u32,
    pub end: u32,
    pub step: u32,
}

#[repr(C)]
#[derive(Clone, Copy)]
pub struct Plan {
    pub count: u32,
    pub windows: [Window; 64],
}

const _: () = assert!(size_of::<Plan>() == 772);

#[repr(C)]
#[derive(Clone, Copy, Debug)]
pub struct QuietAnswer {
    pub answer: Answer,
    pub gain: f32,
}

mod c {
    use super::*;
    unsafe extern "C" {
        pub fn sounder_from_bytes(image: *const u8, len: usize) -> Answer;
        pub fn sounder_name(image: *const u8, len: usize) -> Place;
        pub fn sounder_desk(kind: u32, channel: u32, image: *const u8, len: usize) -> DeskAnswer;
        pub fn sounder_to_bytes(image: *const u8, len: usize, target: *mut u8, target_len: usize) -> Answer;
        #[rustfmt::skip]
        pub fn sounder_merge(
            first: *const u8, first_len: usize, second: *const u8, second_len: usize, target: *mut u8, target_len: usize,
        ) -> MergeAnswer;
        pub fn sounder_quiet_gain(plan: Plan, minute: u32) -> QuietAnswer;
    }
}

pub fn from_bytes(image: &[u8]) -> Answer {
    unsafe { c::sounder_from_bytes(image.as_ptr(), image.len()) }
}

pub fn name(image: &[u8]) -> Place {
    unsafe { c::sounder_name(image.as_ptr(), image.len()) }
}

pub fn desk(kind: u32, channel: u32, image: &[u8]) -> DeskAnswer {
    unsafe { c::sounder_desk(kind, channel, image.as_ptr(), image.len()) }
}

pub fn to_bytes(image: &[u8], target: &mut [u8]) -> Answer {
    unsafe { c::sounder_to_bytes(image.as_ptr(), image.len(), target.as_mut_ptr(), target.len()) }
}

pub fn merge(first: &[u8], second: &[u8], target: &mut [u8]) -> MergeAnswer {
    unsafe { c::sounder_merge(first.as_ptr(), first.len(), second.as_ptr(), second.len(), target.as_mut_ptr(), target.len()) }
}

pub fn quiet_gain(plan: &Plan, minute: u32) -> QuietAnswer {
    unsafe { c::sounder_quiet_gain(*plan, minute) }
}

// ---- voices
#[cfg(playing)]
pub use voices::*;

#[cfg(playing)]
mod voices {
    use super::Answer;

    #[repr(C)]
    #[derive(Clone, Copy, Debug)]
    pub struct State {
        pub phases: [f32; 32],
        pub memories: [[f32; 2]; 16],
        pub noise: u32,
    }

    // `gap` and `rest` are what C leaves between the fields and after them: they say nothing.
    #[repr(C)]
    #[derive(Clone, Copy)]
    pub struct Voice {
        pub blend: u32,
        pub channel: u32,
        pub count: usize,
        pub k: usize,
        pub m: usize,
        pub j: usize,
        pub live_count: usize,
        pub sample_rate: f32,
        pub live: [u8; 16],
        pub gap: u32,
        pub f0_hz: [f32; 16],
        pub stretch: [f32; 16],
        pub mainlobe_gain: [f32; 16],
        pub noise_gain: [f32; 16],
        pub bands: [[f32; 5]; 16],
        pub compensation: [f32; 16],
        pub centres: [f32; 16],
        pub partials: [f32; 2048],
        pub noise: [f32; 1024],
        pub state: State,
        pub rest: u32,
    }

    pub const SIZE: usize = 13328;
    const _: () = assert!(size_of::<Voice>() == SIZE);

    #[repr(C)]
    #[derive(Clone, Copy)]
    pub struct Shape {
        samples: usize,
        channels: usize,
        freq: usize,
        g: [usize; 4],
    }

    #[repr(C)]
    #[derive(Clone, Copy)]
    pub struct MadeAnswer {
        pub answer: Answer,
        pub voice: Voice,
    }

    #[repr(C)]
    #[derive(Clone, Copy)]
    pub struct PlayedAnswer {
        pub number: u32,
        pub voice: Voice,
    }

    #[repr(C)]
    #[derive(Clone, Copy, Debug)]
    pub struct NoisePower {
        pub power: f32,
        pub n: u32,
    }

    #[repr(C)]
    #[derive(Clone, Copy)]
    pub struct Coeffs(pub [f32; 5]);

    mod c {
        use super::*;
        unsafe extern "C" {
            pub fn sounder_make(kind: u32, channel: u32, image: *const u8, len: usize, rate: f32, centres: *const f32, n: usize) -> MadeAnswer;
            #[rustfmt::skip]
            pub fn sounder_play(
                voice: Voice,
                shape: Shape,
                freq: *const f32,
                freq_len: usize,
                g0: *const f32,
                g0_len: usize,
                g1: *const f32,
                g1_len: usize,
                g2: *const f32,
                g2_len: usize,
                g3: *const f32,
                g3_len: usize,
                out: *mut f32,
                out_len: usize,
            ) -> PlayedAnswer;
            #[rustfmt::skip]
            pub fn sounder_play_in(
                voice: *mut Voice,
                shape: Shape,
                freq: *const f32,
                freq_len: usize,
                g0: *const f32,
                g0_len: usize,
                g1: *const f32,
                g1_len: usize,
                g2: *const f32,
                g2_len: usize,
                g3: *const f32,
                g3_len: usize,
                out: *mut f32,
                out_len: usize,
            ) -> u32;
            pub fn sounder_reset(voice: Voice) -> PlayedAnswer;
            pub fn sounder_reseed(voice: Voice, seed: u32) -> PlayedAnswer;
            pub fn sounder_retune(voice: Voice, rate: f32) -> PlayedAnswer;
            pub fn sounder_reset_in(voice: *mut Voice) -> u32;
            pub fn sounder_reseed_in(voice: *mut Voice, seed: u32) -> u32;
            pub fn sounder_retune_in(voice: *mut Voice, rate: f32) -> u32;
            pub fn sounder_noise_power_gain(freq: f32, q: f32, rate: f32, coeffs: Coeffs) -> NoisePower;
        }
    }

    pub fn make(kind: u32, channel: u32, image: &[u8], rate: f32, centres: &[f32]) -> MadeAnswer {
        unsafe { c::sounder_make(kind, channel, image.as_ptr(), image.len(), rate, centres.as_ptr(), centres.len()) }
    }

    fn shape(samples: usize, freq: (usize, &[f32]), g: &[(usize, &[f32]); 4], channels: usize) -> Shape {
        Shape { samples, channels, freq: freq.0, g: g.map(|x| x.0) }
    }

    // An input is its channels (0: unconnected) and its slice.
    #[rustfmt::skip]
    pub fn play(v: &Voice, samples: usize, freq: (usize, &[f32]), g: [(usize, &[f32]); 4], channels: usize, out: &mut [f32]) -> PlayedAnswer {
        unsafe {
            c::sounder_play(
                *v, shape(samples, freq, &g, channels), freq.1.as_ptr(), freq.1.len(), g[0].1.as_ptr(), g[0].1.len(), g[1].1.as_ptr(), g[1].1.len(),
                g[2].1.as_ptr(), g[2].1.len(), g[3].1.as_ptr(), g[3].1.len(), out.as_mut_ptr(), out.len(),
            )
        }
    }

    // The same of the voice where it lies: it moves on, and the number is answered.
    #[rustfmt::skip]
    pub fn play_in(v: &mut Voice, samples: usize, freq: (usize, &[f32]), g: [(usize, &[f32]); 4], channels: usize, out: &mut [f32]) -> u32 {
        unsafe {
            c::sounder_play_in(
                v, shape(samples, freq, &g, channels), freq.1.as_ptr(), freq.1.len(), g[0].1.as_ptr(), g[0].1.len(), g[1].1.as_ptr(), g[1].1.len(),
                g[2].1.as_ptr(), g[2].1.len(), g[3].1.as_ptr(), g[3].1.len(), out.as_mut_ptr(), out.len(),
            )
        }
    }

    pub fn reset(v: &Voice) -> PlayedAnswer {
        unsafe { c::sounder_reset(*v) }
    }

    pub fn reseed(v: &Voice, seed: u32) -> PlayedAnswer {
        unsafe { c::sounder_reseed(*v, seed) }
    }

    pub fn retune(v: &Voice, rate: f32) -> PlayedAnswer {
        unsafe { c::sounder_retune(*v, rate) }
    }

    pub fn reset_in(v: &mut Voice) -> u32 {
        unsafe { c::sounder_reset_in(v) }
    }

    pub fn reseed_in(v: &mut Voice, seed: u32) -> u32 {
        unsafe { c::sounder_reseed_in(v, seed) }
    }

    pub fn retune_in(v: &mut Voice, rate: f32) -> u32 {
        unsafe { c::sounder_retune_in(v, rate) }
    }

    pub fn noise_power_gain(freq: f32, q: f32, rate: f32, coeffs: [f32; 5]) -> NoisePower {
        unsafe { c::sounder_noise_power_gain(freq, q, rate, Coeffs(coeffs)) }
    }
}
