impl PartialsNoise {
    pub fn band_count(&self) -> usize {
        self.j_max
    }
    pub fn inside(&self) -> crate::shim::Inside {
        crate::shim::Inside {
            k: 1,
            m: self.phase.len(),
            j: self.j_max,
            live: (0..self.j_max).collect(),
            entries: self
                .entries
                .iter()
                .map(|e| {
                    ([e.f0_hz, e.stretch, e.mainlobe_gain, e.noise_gain], alloc::vec![e.partial_coeffs.clone()], alloc::vec![e.noise_coeffs.clone()])
                })
                .collect(),
        }
    }
    pub fn init_gave(&self) -> crate::shim::InitGave {
        crate::shim::InitGave {
            rate: self.sample_rate,
            bands: self.noise_biquad.iter().map(|b| [b.0, b.1, b.2, b.3, b.4]).collect(),
            compensation: self.noise_power_compensation.clone(),
        }
    }
    pub fn running(&self) -> crate::shim::Running {
        crate::shim::Running {
            phases: self.phase.clone(),
            memories: self.noise_state.iter().map(|s| s.memories()).collect(),
            noise: self.rng.number(),
        }
    }
    pub fn set_running(&mut self, r: &crate::shim::Running) {
        self.phase = r.phases.clone();
        self.noise_state = r.memories.iter().map(|&m| BiquadState::of(m)).collect();
        self.rng = Rng::of(r.noise);
    }
}
