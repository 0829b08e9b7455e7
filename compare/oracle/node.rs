// The trait that the original's generators implement, as far as these files use it.
use crate::buffer::AudioBuffer;
use crate::context::{ProcessContext, Rate};

pub struct UGenSpec {
    pub name: &'static str,
}

#[derive(Clone, Copy)]
pub enum UGenCategory {
    Oscillator,
    Filter,
}

pub struct InputSpec {
    pub name: &'static str,
    pub rate: Rate,
    pub required: bool,
}

pub struct OutputSpec {
    pub name: &'static str,
    pub rate: Rate,
}

pub trait UGen {
    fn spec(&self) -> UGenSpec;
    fn init(&mut self, context: &ProcessContext);
    fn reset(&mut self);
    fn reseed_noise(&mut self, _seed: u32) {}
    fn output_channels(&self, _input_channels: &[usize]) -> usize {
        1
    }
    fn process(&mut self, context: &ProcessContext, inputs: &[Option<&AudioBuffer>], output: &mut AudioBuffer);
}
