// Making voices, and lists of calls on them, beside the original.
mod cases;
mod comparing;
mod list;
mod long;
mod original;
mod power;
mod questions;
mod shrinking;
mod times;

use crate::ffi::{self, Answer, State, Voice};
use crate::image::{Entry, MAX_KEY, MIN_KEY, Table, any_key};
use crate::rand::{ODD, Rand};
use crate::reading::expected_read;
use crate::tally::Tally;
use oracle::buffer::AudioBuffer;
use oracle::coeff_table::CoeffTable;
use oracle::context::ProcessContext;
use oracle::node::UGen;
use oracle::shim::{self, Inside, Running, InitGave};
use oracle::ugens::partials::PartialsNoise;
use oracle::ugens::partials_blend::PartialsBlend;
use std::sync::Arc;

use cases::*;
use comparing::*;
use original::*;
use questions::*;

pub use list::write_list;
pub use long::long;
pub use power::powers;
pub use shrinking::{run, run_lists};
pub use times::race;

// An input: its channels (0: unconnected) and its slice.
pub type Input = (usize, Vec<f32>);

#[derive(Clone, Debug)]
pub struct Play {
    pub samples: usize,
    pub freq: Input,
    pub gains: [Input; 4],
    pub channels: usize,
    pub out_len: usize,
}

#[derive(Clone, Debug)]
pub enum Call {
    Play(Play),
    Reset,
    Reseed(u32),
    // another rate, which may be refused
    Retune(f32),
    // both sides' running state is set
    Touch(Running),
    // our places for more bands than the voice has are filled, with floats whose bits count up from these; the original has no such places
    Spare(u32),
    // a play, a reset, a reseed and retunes of a voice that breaks a rule; the list goes on with the voice before
    Broken(usize, Play),
}

#[derive(Clone)]
pub struct Case {
    pub kind: u32,
    pub channel: u32,
    pub table: Table,
    pub rate: f32,
    pub centres: Vec<f32>,
    pub calls: Vec<Call>,
}
