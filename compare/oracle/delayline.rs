// A delay line's interface, for the filters that hold one. None of them is run.
pub struct DelayLine;

impl DelayLine {
    pub fn new() -> Self {
        DelayLine
    }
    pub fn with_len(_n: usize) -> Self {
        DelayLine
    }
    pub fn resize(&mut self, _n: usize) {}
    pub fn clear(&mut self) {}
    pub fn len(&self) -> usize {
        unreachable!()
    }
    pub fn is_empty(&self) -> bool {
        unreachable!()
    }
    pub fn read(&self, _n: usize) -> f32 {
        unreachable!()
    }
    pub fn read_interp(&self, _n: f32) -> f32 {
        unreachable!()
    }
    pub fn write(&mut self, _x: f32) {
        unreachable!()
    }
    pub fn advance(&mut self) {
        unreachable!()
    }
    pub fn write_and_advance(&mut self, _x: f32) {
        unreachable!()
    }
}
