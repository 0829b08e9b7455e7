// The fixed lists of the original's answers on reading and rewriting, and on merging, for a program that needs no Rust (form: words.rs).
// A record of reading: the image (length, bytes); a channel; the read's number, first, second; the name's start and length;
// of a reader set at byte 0, then at byte 6, the number that it answers to `string` and the position that it comes to;
// the desk's bands, min_hz, max_hz for a single voice of the channel, then for a blend;
// the target before rewriting (length, bytes); the rewriting's number, first, second; the target afterwards (length, bytes).
// A record of merging: the first image and the second (length, bytes each); the target before (length, bytes); the merge's number, first,
// second and image; the target afterwards (length, bytes).
use crate::image::Table;
use crate::merging;
use crate::rand::Rand;
use crate::reading::{Case, any_case, expected_desk, expected_read, fixed_cases};
use crate::tally::Tally;
use crate::words::{self, Words};
use oracle::shim;
use std::sync::Arc;

// What a target holds afterwards.
fn after(w: &mut Words, what: &str, target: &[u8]) {
    w.n(target.len());
    if !target.is_empty() {
        w.expect(what);
        w.bytes.extend_from_slice(target);
    }
}

// The record, and the numbers of the read and of the rewriting.
fn record(c: &Case) -> (Words, [u32; 2]) {
    let mut tally = Tally::default();
    let mut w = Words::default();
    w.part(&c.image);
    w.n(c.channel as usize);
    let read = expected_read(&c.image, &mut tally).map(Arc::new);
    let canon = read.as_ref().map(|t| t.to_bytes()).unwrap_or_default();
    let wanted = read.as_ref().map_or_else(|e| *e, |t| (0, t.entries.len(), canon.len()));
    w.answer(["the read's number", "the read's first value", "the read's second value"], wanted);
    w.expect("the name's start");
    w.n(if read.is_ok() { 10 } else { 0 });
    w.expect("the name's length");
    w.n(read.as_ref().map_or(0, |t| t.name.len()));
    for pos in [0, 6] {
        let (number, end) = shim::string_at(&c.image, pos);
        w.expect("a string's number");
        w.n(number as usize);
        w.expect("a string's end");
        w.n(end);
    }
    for (kind, what) in [
        (0, ["a single voice's bands", "a single voice's min_hz", "a single voice's max_hz"]),
        (1, ["a blend's bands", "a blend's min_hz", "a blend's max_hz"]),
    ] {
        let d = read.as_ref().map_or((0, 0, 0), |t| expected_desk(t, kind, c.channel, &mut tally));
        w.answer(what, (d.0, d.1 as usize, d.2 as usize));
    }
    let mut target = vec![0xA5; (canon.len() as i64 + c.slack).max(0) as usize];
    w.part(&target);
    let rewriting = match &read {
        Ok(_) if canon.len() <= target.len() => wanted,
        Ok(_) => (17, 0, 0),
        Err(e) => *e,
    };
    if rewriting.0 == 0 {
        target[..canon.len()].copy_from_slice(&canon);
    }
    w.answer(["the rewriting's number", "the rewriting's first value", "the rewriting's second value"], rewriting);
    after(&mut w, "a byte of the target", &target);
    (w, [wanted.0, rewriting.0])
}

// An image of 65,536 bytes or one more, whose last entry ends early.
pub fn long_image(more: usize) -> Vec<u8> {
    let t = Table { version: 1, name: b"long".to_vec(), ..Table::default() };
    Table { tail: vec![0; 65536 + more - t.bytes().len()], ..t }.bytes()
}

pub fn write(n: usize, seed: u64, path: &str) {
    let mut fixed = Vec::new();
    fixed_cases(&mut |c| {
        if c.image.len() <= 600 {
            fixed.push(c)
        }
    });
    let mut r = Rand(seed);
    // a length without its byte, and with one that is not UTF-8: a reader is moved past what is there
    let strings = [vec![1, 0, 0, 0], vec![1, 0, 0, 0, 0xFF]];
    let first = (0..2).map(long_image).chain(strings);
    let mut records: Vec<Words> = first.map(|image| record(&Case { image, channel: 0, slack: 0 }).0).collect();
    let mut numbers = [0; 18];
    (numbers[0], numbers[1], numbers[2], numbers[3]) = (1, 1, 0, 2);
    // no answer takes more than a fifth of the list
    while records.len() < n {
        let c = if r.chance(50) { fixed[r.below(fixed.len())].clone() } else { any_case(&mut r) };
        let (one, [read, rewriting]) = record(&c);
        let number = if rewriting == 17 { 17 } else { read as usize };
        if numbers[number] * 5 <= n {
            numbers[number] += 1;
            records.push(one);
        }
    }
    words::write("reading", &records, path);
    println!("list: answers by number {numbers:?}");
}

// The record, and the merge's number; none where the entries of one pitch may stand in either order.
fn merge_record(c: &merging::Case) -> Option<(Words, u32)> {
    let e = merging::expected(c, &mut Tally::default());
    if e.table.as_ref().is_some_and(|t| !merging::settled_by_pitch(t)) {
        return None;
    }
    let mut target = vec![0xA5; e.room];
    let mut w = Words::default();
    w.part(&c.images[0]);
    w.part(&c.images[1]);
    w.part(&target);
    if let Some(t) = &e.table {
        target[..e.answer.answer.second].copy_from_slice(&t.to_bytes());
    }
    let a = e.answer.answer;
    w.answer(["the merge's number", "the merge's first value", "the merge's second value"], (a.number, a.first, a.second));
    w.expect("the merge's image");
    w.n(e.answer.image as usize);
    after(&mut w, "a byte of the merged table", &target);
    Some((w, a.number))
}

// Question 1 of the first image and of the second, and a result that is too long, into a target of one byte.
fn long_merges() -> [merging::Case; 3] {
    let (long, other) = (long_image(1), merging::small(b"other", []).bytes());
    let (named, one) = (merging::small(&[b'n'; 65536 - 14], []).bytes(), merging::small(b"", [1]).bytes());
    let pairs = [([long.clone(), other.clone()], 1 - 100), ([other, long], 1 - 100), ([named, one], 1 - (65536 + 28))];
    pairs.map(|(images, slack)| merging::Case { images, slack })
}

// No image in the list but those is longer than 300 bytes.
pub fn write_merges(n: usize, seed: u64, path: &str) {
    let mut r = Rand(seed);
    let short = |c: &merging::Case| c.images.iter().all(|i| i.len() <= 300) && c.slack <= 1000;
    let mut fixed = Vec::new();
    merging::by_hand(&mut r, &mut |images, slack| fixed.extend(Some(merging::Case { images, slack }).filter(short)));
    let mut records: Vec<Words> = long_merges().iter().map(|c| merge_record(c).unwrap().0).collect();
    let mut numbers = [0; 24];
    (numbers[1], numbers[22]) = (2, 1);
    // no answer takes more than a fifth of the list
    while records.len() < n {
        let c = match r.below(5) {
            0 => fixed[r.below(fixed.len())].clone(),
            1 | 2 => merging::any_piles(&mut r),
            _ => merging::any_case(&mut r),
        };
        let Some((one, number)) = merge_record(&c).filter(|_| short(&c)) else { continue };
        if numbers[number as usize] * 5 <= n {
            numbers[number as usize] += 1;
            records.push(one);
        }
    }
    words::write("merging", &records, path);
    println!("list: merges by number {numbers:?}");
}
