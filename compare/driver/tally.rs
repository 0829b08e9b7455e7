// What a run counted.
#[derive(Default)]
pub struct Tally {
    pub cases: u64,
    pub samples: u64,
    pub calls: u64,
    pub differences: u64,
    // expected answers that are the documents' where the original has none
    pub paper: u64,
    // answers by their number
    pub numbers: [u64; 24],
    // of merges: refusals of the first image, and of the second
    pub images: [u64; 2],
}

impl Tally {
    pub fn number(&mut self, n: u32) {
        self.numbers[n as usize] += 1;
    }
    pub fn add(&mut self, other: &Tally) {
        self.cases += other.cases;
        self.samples += other.samples;
        self.calls += other.calls;
        self.differences += other.differences;
        self.paper += other.paper;
        self.numbers.iter_mut().zip(other.numbers).for_each(|(a, b)| *a += b);
        self.images.iter_mut().zip(other.images).for_each(|(a, b)| *a += b);
    }
    // Counts one difference and tells the first three: what differed, the smallest case with a difference that was found, and what differs there.
    pub fn difference(&mut self, what: &str, smallest: impl FnOnce() -> (String, String)) {
        self.differences += 1;
        if self.differences <= 3 {
            let (case, there) = smallest();
            println!("difference: {what}\n  smallest found: {case}\n  there: {there}");
        }
    }
    // The answers by their number.
    pub fn by_number(&self) -> String {
        self.numbers.iter().enumerate().filter(|(_, n)| **n > 0).map(|(i, n)| format!(" {i}:{n}")).collect()
    }
    pub fn print(&self, what: &str) {
        let by = self.by_number();
        println!(
            "{what}: {} cases, {} calls, {} samples, {} answers written out from document 01, answers by number{by}, {} differences",
            self.cases, self.calls, self.samples, self.paper, self.differences
        );
    }
}
