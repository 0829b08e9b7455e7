// The form of the fixed lists: little-endian u32 words, and floats as their bits (a NaN as 7FC00000).
// A list is a count of records, and each record a length in bytes and as many bytes.
use std::collections::BTreeSet;

// A record that is being written, and where its expected answers stand.
#[derive(Default)]
pub struct Words {
    pub bytes: Vec<u8>,
    expected: Vec<(String, usize)>,
}

impl Words {
    pub fn n(&mut self, v: usize) {
        self.bytes.extend_from_slice(&u32::try_from(v).unwrap().to_le_bytes());
    }
    pub fn f(&mut self, x: f32) {
        self.n(if x.is_nan() { 0x7FC00000 } else { x.to_bits() as usize });
    }
    pub fn part(&mut self, l: &[u8]) {
        self.n(l.len());
        self.bytes.extend_from_slice(l);
    }
    pub fn floats(&mut self, l: &[f32]) {
        self.n(l.len());
        l.iter().for_each(|&x| self.f(x));
    }
    // What follows is an expected answer.
    pub fn expect(&mut self, what: &str) {
        self.expected.push((what.to_string(), self.bytes.len()));
    }
    pub fn append(&mut self, other: Words) {
        let at = self.bytes.len();
        self.expected.extend(other.expected.into_iter().map(|e| (e.0, at + e.1)));
        self.bytes.extend(other.bytes);
    }
    pub fn answer(&mut self, what: [&str; 3], a: (u32, usize, usize)) {
        for (what, v) in what.iter().zip([a.0 as usize, a.1, a.2]) {
            self.expect(what);
            self.n(v);
        }
    }
}

fn list(records: &[Vec<u8>]) -> Vec<u8> {
    let mut w = Words::default();
    w.n(records.len());
    records.iter().for_each(|r| w.part(r));
    w.bytes
}

// One record for each kind of answer, the shortest that has it, with the lowest bit of that answer wrong. Where the number of an answer is wrong, it is a refusal's:
// what a record holds goes by whether a call is refused. No NaN is damaged: it would be another.
fn damaged(records: &[Words]) -> Vec<Vec<u8>> {
    let names: BTreeSet<&str> = records.iter().flat_map(|r| r.expected.iter().map(|e| e.0.as_str())).collect();
    let fits = |r: &Words, name: &str, at: usize| {
        let v = r.bytes[at..].iter().take(4).rev().fold(0u32, |v, &b| v << 8 | b as u32);
        v & 0x7FFFFFFF <= 0x7F800000 && (!name.ends_with("number") || name.ends_with("noise number") || v > 1)
    };
    let wrong = |name: &&str| {
        let places = records.iter().flat_map(|r| r.expected.iter().find(|e| e.0 == *name && fits(r, name, e.1)).map(|e| (r, e.1)));
        let (r, at) = places.min_by_key(|(r, _)| r.bytes.len())?;
        let mut bytes = r.bytes.clone();
        bytes[at] ^= 1;
        Some(bytes)
    };
    names.iter().map(|n| wrong(n).unwrap_or_else(|| panic!("no record to damage in: {n}"))).collect()
}

// Writes the list, and the damaged records beside it.
pub fn write(what: &str, records: &[Words], path: &str) {
    let all: Vec<Vec<u8>> = records.iter().map(|r| r.bytes.clone()).collect();
    for (path, records) in [(path.to_string(), all), (format!("{path}.damaged"), damaged(records))] {
        let bytes = list(&records);
        std::fs::write(&path, &bytes).unwrap();
        println!("list: {} records of {what}, {} bytes, to {path}", records.len(), bytes.len());
    }
}
