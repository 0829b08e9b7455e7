impl BiquadState {
    pub(crate) fn memories(&self) -> (f32, f32) {
        (self.z1, self.z2)
    }
    pub(crate) fn of(m: (f32, f32)) -> Self {
        BiquadState { z1: m.0, z2: m.1 }
    }
}
