impl Rng {
    pub(crate) fn number(&self) -> u32 {
        self.state
    }
    pub(crate) fn of(number: u32) -> Self {
        Rng { state: number }
    }
}
