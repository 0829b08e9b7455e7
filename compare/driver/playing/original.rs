// The original's voice of either kind.
use super::*;

pub enum Theirs {
    Single(PartialsNoise),
    Blend(PartialsBlend),
}

impl Theirs {
    pub fn ugen(&mut self) -> &mut dyn UGen {
        match self {
            Theirs::Single(p) => p,
            Theirs::Blend(p) => p,
        }
    }
    pub fn inside(&self) -> Inside {
        match self {
            Theirs::Single(p) => p.inside(),
            Theirs::Blend(p) => p.inside(),
        }
    }
    pub fn init_gave(&self) -> InitGave {
        match self {
            Theirs::Single(p) => p.init_gave(),
            Theirs::Blend(p) => p.init_gave(),
        }
    }
    // The original's `init`, also of a player that sounds; the ring counts of its bands.
    pub fn init(&mut self, rate: f32) -> Vec<usize> {
        shim::take_rung();
        self.ugen().init(&ProcessContext::new(rate, 128));
        shim::take_rung()
    }
    pub fn running(&self) -> Running {
        match self {
            Theirs::Single(p) => p.running(),
            Theirs::Blend(p) => p.running(),
        }
    }
    pub fn set_running(&mut self, r: &Running) {
        match self {
            Theirs::Single(p) => p.set_running(r),
            Theirs::Blend(p) => p.set_running(r),
        }
    }
}

pub fn made(t: &Arc<CoeffTable>, kind: u32, channel: u32, rate: f32, centres: &[f32]) -> Option<(Theirs, Vec<usize>)> {
    shim::set_centres(centres);
    let mut p =
        if kind == 0 { Theirs::Single(PartialsNoise::with_channel(t.clone(), channel).ok()?) } else { Theirs::Blend(PartialsBlend::new(t.clone())) };
    let rung = p.init(rate);
    Some((p, rung))
}

// A retune's question of a voice; where it is answered yes, the original is given the rate.
pub fn their_retune(p: &mut Theirs, v: &Voice, rate: f32) -> u32 {
    let q = retune_question(v, rate);
    if q == 0 {
        p.init(rate);
    }
    q
}

pub fn buffer(i: &Input, samples: usize) -> Option<AudioBuffer> {
    (i.0 > 0).then(|| {
        let mut b = AudioBuffer::new(i.0, samples);
        (0..i.0).for_each(|c| b.channel_mut(c).samples_mut().copy_from_slice(&i.1[c * samples..(c + 1) * samples]));
        b
    })
}

pub fn their_play(p: &mut Theirs, c: &Play, rate: f32) -> Vec<f32> {
    let inputs: Vec<Option<AudioBuffer>> = std::iter::once(&c.freq).chain(&c.gains).map(|i| buffer(i, c.samples)).collect();
    let lent: Vec<Option<&AudioBuffer>> = inputs.iter().map(|b| b.as_ref()).collect();
    let mut out = AudioBuffer::new(c.channels, c.samples);
    let n = if matches!(p, Theirs::Single(_)) { 2 } else { 5 };
    p.ugen().process(&ProcessContext::new(rate, c.samples), &lent[..n], &mut out);
    (0..c.channels).flat_map(|ch| out.channel(ch).samples().to_vec()).collect()
}
