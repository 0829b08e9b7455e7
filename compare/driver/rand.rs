// Random numbers from a seed (SplitMix64), and the odd floats that every float field is given.
pub struct Rand(pub u64);

impl Rand {
    pub fn next(&mut self) -> u64 {
        self.0 = self.0.wrapping_add(0x9E3779B97F4A7C15);
        let mut z = self.0;
        z = (z ^ (z >> 30)).wrapping_mul(0xBF58476D1CE4E5B9);
        z = (z ^ (z >> 27)).wrapping_mul(0x94D049BB133111EB);
        z ^ (z >> 31)
    }
    // 0 to n - 1
    pub fn below(&mut self, n: usize) -> usize {
        (self.next() % n as u64) as usize
    }
    pub fn chance(&mut self, percent: usize) -> bool {
        self.below(100) < percent
    }
    pub fn pick<T: Copy>(&mut self, l: &[T]) -> T {
        l[self.below(l.len())]
    }
    // at least 0 and below 1
    pub fn unit(&mut self) -> f32 {
        (self.next() >> 40) as f32 / 16777216.0
    }
    pub fn between(&mut self, a: f32, b: f32) -> f32 {
        a + self.unit() * (b - a)
    }
    // one of a list, or one between two
    pub fn among(&mut self, l: &[f32], a: f32, b: f32) -> f32 {
        let i = self.below(l.len() + 1);
        if i < l.len() { l[i] } else { self.between(a, b) }
    }
    // a finite float that no field refuses by itself
    pub fn tame(&mut self) -> f32 {
        match self.below(8) {
            0 => 0.0,
            1 => -0.0,
            2 => self.pick(&[1.0, -1.0, 0.5, f32::MIN_POSITIVE, 1e-40, -1e-45]),
            _ => self.between(-1.0, 1.0),
        }
    }
    pub fn odd_bits(&mut self) -> u32 {
        match self.below(4) {
            0 => self.next() as u32,
            1 => self.between(-1000.0, 1000.0).to_bits(),
            _ => self.pick(&ODD),
        }
    }
}

// 0, -0, the smallest and largest subnormals, the smallest normal, 1, 80, 12,000, 20,000 and the next, the largest, infinities, NaNs (quiet, signalling, negative)
pub const ODD: [u32; 20] = [
    0, 0x80000000, 1, 0x80000001, 0x007FFFFF, 0x00800000, 0x3F800000, 0xBF800000, 0x42A00000, 0x463B8000, 0x469C4000, 0x469C4001, 0x7F7FFFFF,
    0xFF7FFFFF, 0x7F800000, 0xFF800000, 0x7FC00000, 0x7FC12345, 0x7F800001, 0xFFFFFFFF,
];
