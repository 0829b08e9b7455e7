// Merges beside the original: it reads both images, their entries are joined and put in order by `total_cmp`, and it writes them; what we
// wrote it reads again. Question 7 of the joined list is its own too; that it is then 21, and 22 and 23, is card 3 of document 02. Entries
// of equal pitch, which may stand in either order, are put in the order of their bytes on both sides before they are compared.
use crate::ffi::{self, Answer, MergeAnswer};
use crate::image::{Entry, MAX_KEY, MIN_KEY, NOT_UTF8, Span, Table, any_span, perhaps_damaged, table_of};
use crate::race::{Race, table};
use crate::rand::{ODD, Rand};
use crate::reading::{each_damage, expected_read, good, hex, left_out, one_entry, samples, spans};
use crate::tally::Tally;
use oracle::coeff_table::{CoeffTable, PitchEntry};
use oracle::shim;
use std::hint::black_box;

const MOST: usize = 65536;

// Two images, and how much longer than the result the target is; 100 bytes stand for a result where an image is refused.
#[derive(Clone)]
pub struct Case {
    pub images: [Vec<u8>; 2],
    pub slack: i64,
}

// ---- what is expected
// How long the target is, the answer, and the table in order where it is written.
pub struct Expected {
    pub room: usize,
    pub answer: MergeAnswer,
    pub table: Option<CoeffTable>,
}

fn answer(number: u32, first: usize, second: usize, image: u32) -> MergeAnswer {
    MergeAnswer { answer: Answer { number, first, second }, image }
}

// The first table with the entries of both; or the refusal of an image.
fn joined(images: &[Vec<u8>; 2], tally: &mut Tally) -> Result<CoeffTable, MergeAnswer> {
    let mut read = |i: usize| expected_read(&images[i], tally).map_err(|e| answer(e.0, e.1, e.2, i as u32 + 1));
    let (mut t, u) = (read(0)?, read(1)?);
    t.entries.extend(u.entries);
    Ok(t)
}

// Questions 21 to 23 of the joined table, in their order, and the answer where all are answered yes.
fn asked(t: &CoeffTable, bytes: &[u8], room: usize) -> MergeAnswer {
    let spans = matches!(shim::read(bytes), Err((7, _, _)));
    let asked = [(21, spans), (22, bytes.len() > MOST), (23, bytes.len() > room)];
    match asked.into_iter().find(|a| a.1) {
        Some((number, _)) => answer(number, 0, 0, 0),
        None => answer(0, t.entries.len(), bytes.len(), 0),
    }
}

fn in_order(mut t: CoeffTable) -> CoeffTable {
    t.entries.sort_by(|a, b| a.f0_hz.total_cmp(&b.f0_hz));
    t
}

pub fn expected(c: &Case, tally: &mut Tally) -> Expected {
    let room = |len: usize| (len as i64 + c.slack).max(0) as usize;
    match joined(&c.images, tally) {
        Err(answer) => Expected { room: room(100), answer, table: None },
        Ok(t) => {
            let bytes = t.to_bytes();
            let room = room(bytes.len());
            let answer = asked(&t, &bytes, room);
            Expected { room, answer, table: (answer.answer.number == 0).then(|| in_order(t)) }
        }
    }
}

// Whether one result alone is allowed: entries of equal pitch have the same bytes.
pub fn settled_by_pitch(t: &CoeffTable) -> bool {
    t.entries.windows(2).all(|e| e[0].f0_hz.to_bits() != e[1].f0_hz.to_bits() || alone(&e[0]) == alone(&e[1]))
}

// ---- beside ours
fn same<T: PartialEq + std::fmt::Debug>(what: &str, ours: T, expected: T) -> Result<(), String> {
    if ours == expected { Ok(()) } else { Err(format!("{what}: ours {ours:?}, expected {expected:?}")) }
}

fn same_answer(ours: MergeAnswer, expected: MergeAnswer) -> Result<(), String> {
    let said = |a: MergeAnswer| format!("{} with {} and {}, image {}", a.answer.number, a.answer.first, a.answer.second, a.image);
    if ours == expected { Ok(()) } else { Err(format!("answer: ours {}, expected {}", said(ours), said(expected))) }
}

fn same_bytes(what: &str, ours: &[u8], expected: &[u8]) -> Result<(), String> {
    same(&format!("{what}, its length"), ours.len(), expected.len())?;
    match (0..ours.len()).find(|&i| ours[i] != expected[i]) {
        Some(i) => same(&format!("{what}, byte {i}"), ours[i], expected[i]),
        None => Ok(()),
    }
}

fn alone(e: &PitchEntry) -> Vec<u8> {
    CoeffTable { name: String::new(), entries: vec![e.clone()] }.to_bytes()
}

// A table's image with the entries that follow one another with one pitch in the order of their bytes.
fn settled(mut t: CoeffTable) -> Vec<u8> {
    for alike in t.entries.chunk_by_mut(|a, b| a.f0_hz.to_bits() == b.f0_hz.to_bits()) {
        alike.sort_by_cached_key(alone);
    }
    t.to_bytes()
}

// The original accepts what we wrote and would write the same; and it is what was expected, up to the order of entries of equal pitch.
fn same_result(ours: &[u8], expected: &[u8]) -> Result<(), String> {
    let read = |image: &[u8]| shim::read(image).map_err(|e| format!("the result: the original refuses it with {e:?}"));
    let t = read(ours)?;
    let head = 14 + t.name.len();
    same_bytes("the result, as the original writes it again", ours, &t.to_bytes())?;
    same_bytes("the result's head", &ours[..head], &expected[..head.min(expected.len())])?;
    if ours == expected { Ok(()) } else { same_bytes("the result", &settled(t), &settled(read(expected)?)) }
}

// What stands in memory before the target and after it.
const ABOUT: usize = 8;

fn check(c: &Case, tally: &mut Tally) -> Result<(), String> {
    let Expected { room, answer, table } = expected(c, tally);
    tally.number(answer.answer.number);
    tally.paper += (answer.answer.number > 20) as u64;
    if answer.image > 0 {
        tally.images[answer.image as usize - 1] += 1;
    }
    let before: Vec<u8> = (0..ABOUT + room + ABOUT).map(|i| (i * 7 + 3) as u8).collect();
    let mut after = before.clone();
    // two images with the same bytes are one in memory
    let second = if c.images[0] == c.images[1] { &c.images[0] } else { &c.images[1] };
    same_answer(ffi::merge(&c.images[0], second, &mut after[ABOUT..ABOUT + room]), answer)?;
    let end = ABOUT + table.as_ref().map_or(0, |_| answer.answer.second);
    same_bytes("what stands before the target", &after[..ABOUT], &before[..ABOUT])?;
    same_bytes("what is not written", &after[end..], &before[end..])?;
    table.map_or(Ok(()), |t| same_result(&after[ABOUT..end], &t.to_bytes()))
}

// ---- the smallest case
// No bytes, or no entries; else an accepted image of fewer entries, with less in each, and without its name.
fn smaller(image: &[u8], fails: &dyn Fn(&[u8]) -> bool) -> Vec<u8> {
    if let Some(least) = [vec![], small(b"", []).bytes()].into_iter().find(|i| fails(i)) {
        return least;
    }
    let Ok(mut t) = shim::read(image) else { return image.to_vec() };
    let with = |t: &CoeffTable, entries: &[PitchEntry]| CoeffTable { name: t.name.clone(), entries: entries.to_vec() }.to_bytes();
    if !fails(&t.to_bytes()) {
        return image.to_vec();
    }
    t.entries = left_out(&t.entries, |l| fails(&with(&t, l)));
    for (i, all) in (0..t.entries.len()).flat_map(|i| [(i, false), (i, true)]) {
        let mut d = t.clone();
        let e = &mut d.entries[i];
        (e.k_channels, e.j_noise) = (0, 0);
        (e.partial_freqs, e.coefficients) = (Vec::new(), Vec::new());
        if all {
            e.metadata.clear();
        }
        if fails(&d.to_bytes()) {
            t = d;
        }
    }
    let unnamed = CoeffTable { name: String::new(), entries: t.entries.clone() };
    if fails(&unnamed.to_bytes()) { unnamed.to_bytes() } else { t.to_bytes() }
}

// Each image made smaller as a table, and a short one then by leaving out bytes.
fn shrunk(c: &Case) -> Case {
    let fails = |c: &Case| check(c, &mut Tally::default()).is_err();
    let mut best = c.clone();
    if let Some(slack) = [0, -1, 1].into_iter().find(|&slack| fails(&Case { slack, ..best.clone() })) {
        best.slack = slack;
    }
    for side in [1, 0, 1] {
        let now = best.clone();
        let fails = |image: &[u8]| {
            let mut d = now.clone();
            d.images[side] = image.to_vec();
            fails(&d)
        };
        let image = smaller(&now.images[side], &fails);
        best.images[side] = if image.len() <= 1000 { left_out(&image, fails) } else { image };
    }
    best
}

fn run_case(c: &Case, tally: &mut Tally) {
    tally.cases += 1;
    if let Err(e) = check(c, tally) {
        tally.difference(&e, || {
            let s = shrunk(c);
            let shown = |i: usize| format!("{} bytes: {}", s.images[i].len(), hex(&s.images[i][..s.images[i].len().min(120)]));
            let case = format!("target {:+} bytes, first of {}, second of {}", s.slack, shown(0), shown(1));
            (case, check(&s, &mut Tally::default()).unwrap_err())
        });
    }
}

// ---- tables
fn smallest(f0: u32, stretch: usize) -> Entry {
    Entry { f0, stretch: stretch as u32, ..Entry::default() }
}

// A table of the smallest entries, 28 bytes each; the stretches tell them apart.
pub fn small(name: &[u8], pitches: impl IntoIterator<Item = u32>) -> Table {
    let entries = pitches.into_iter().enumerate().map(|(i, f0)| smallest(f0, i)).collect();
    Table { version: 1, name: name.to_vec(), entries, tail: Vec::new() }
}

// n smallest entries with any pitches: odd ones, equal ones, any bits.
fn pile(r: &mut Rand, name: &[u8], n: usize) -> Table {
    let pitches: Vec<u32> = (0..n).map(|_| r.odd_bits()).collect();
    small(name, pitches)
}

// A table's image made as long as asked by bytes after its last entry.
fn padded(t: Table, len: usize) -> Vec<u8> {
    let n = len - t.bytes().len();
    Table { tail: vec![0xEE; n], ..t }.bytes()
}

fn spanned(min: u32, max: u32) -> Vec<(Vec<u8>, u32)> {
    vec![(MIN_KEY.to_vec(), min), (MAX_KEY.to_vec(), max)]
}

// ---- cases by hand
// Images that each question refuses.
fn refused() -> Vec<Vec<u8>> {
    let two = good(vec![one_entry(1, 1, 1, 2, vec![]), one_entry(0, 1, 2, 2, vec![])]);
    let whole = two.bytes();
    let wrong = one_entry(1, 1, 1, 3, vec![]);
    let late = |e: &Entry| good(vec![two.entries[0].clone(), two.entries[1].clone(), e.clone()]).bytes();
    vec![
        padded(two.clone(), MOST + 1),
        vec![0; MOST + 1],
        vec![],
        whole[..whole.len() - 1].to_vec(),
        [b"MSCU", &whole[4..]].concat(),
        Table { version: 2, ..two.clone() }.bytes(),
        Table { version: 65535, ..two.clone() }.bytes(),
        Table { name: NOT_UTF8[0].to_vec(), ..two.clone() }.bytes(),
        late(&one_entry(1, 1, 1, 2, vec![(NOT_UTF8[3].to_vec(), 0)])),
        good(vec![wrong.clone()]).bytes(),
        late(&wrong),
        spans(&[&[(MIN_KEY, 5)]]).bytes(),
        spans(&[&[(MIN_KEY, 5), (MAX_KEY, 6)], &[(MIN_KEY, 5), (MAX_KEY, 6)], &[]]).bytes(),
        spans(&[&[], &[(MAX_KEY, 6)]]).bytes(),
    ]
}

fn accepted() -> Vec<Vec<u8>> {
    let mut images: Vec<Vec<u8>> = samples().iter().map(Table::bytes).collect();
    images.push(padded(good(vec![one_entry(1, 2, 1, 4, vec![])]), MOST));
    images.push(small("Flöte 笛".as_bytes(), [3, 1, 2, 1]).bytes());
    images.push(Table { version: 0, ..small(b"", ODD) }.bytes());
    images
}

// Every image beside every other, with targets of no bytes, one too few, just enough and more.
fn together(f: &mut impl FnMut([Vec<u8>; 2], i64)) {
    let all = [refused(), accepted()].concat();
    for a in &all {
        for b in &all {
            for slack in [-(MOST as i64), -1, 0, 5] {
                f([a.clone(), b.clone()], slack);
            }
        }
    }
}

// Each sample damaged at every byte, as the first image and as the second.
fn damages(f: &mut impl FnMut([Vec<u8>; 2], i64)) {
    let other = small(b"other", [2, 0x80000001, 7]).bytes();
    for t in samples() {
        each_damage(&t.bytes(), &mut |image| {
            f([image.clone(), other.clone()], 0);
            f([other.clone(), image], 3);
        });
    }
}

// Spans of one entry beside one, and of two beside two: NaN, 0 and -0, lone keys, none, keys twice, of which the first counts.
fn agreeing(f: &mut impl FnMut([Vec<u8>; 2], i64)) {
    let mut each = |a: &[&[(&[u8], u32)]], b: &[&[(&[u8], u32)]]| f([spans(a).bytes(), spans(b).bytes()], 0);
    for a in ODD {
        each(&[&[(MIN_KEY, a), (MAX_KEY, a)]], &[]);
        each(&[], &[&[(MIN_KEY, a), (MAX_KEY, a)]]);
        each(&[&[(MIN_KEY, a), (MAX_KEY, a)]], &[&[]]);
        each(&[&[]], &[&[(MIN_KEY, a), (MAX_KEY, a)]]);
        each(&[&[(MIN_KEY, a)]], &[&[(MIN_KEY, a)]]);
        for b in ODD {
            each(&[&[(MIN_KEY, a), (MAX_KEY, 1)]], &[&[(MIN_KEY, b), (MAX_KEY, 1)]]);
            each(&[&[(MAX_KEY, a), (MIN_KEY, 1)]], &[&[(MIN_KEY, 1), (MAX_KEY, b)]]);
            each(&[&[(MIN_KEY, a), (MAX_KEY, b)]], &[&[(MIN_KEY, b), (MAX_KEY, a)]]);
            let (one, other): (&[(&[u8], u32)], &[(&[u8], u32)]) = (&[(MIN_KEY, a), (MAX_KEY, 1)], &[(MIN_KEY, b), (MAX_KEY, 1)]);
            each(&[one; 2], &[other; 2]);
            each(&[&[(MIN_KEY, a), (MIN_KEY, b), (MAX_KEY, 0)]], &[&[(MIN_KEY, a), (MAX_KEY, 0), (MAX_KEY, b)]]);
        }
    }
}

// Results of 65,535, 65,536 and 65,537 bytes, with every target: by the name, by an entry, by 2,340 entries on either side or on both.
fn lengths(r: &mut Rand, f: &mut impl FnMut([Vec<u8>; 2], i64)) {
    let named = |n: usize| Table { name: vec![b'n'; n], ..good(vec![]) };
    for more in 0..3 {
        let len = MOST - 1 + more;
        let many = |r: &mut Rand, n: usize, m: usize| [pile(r, &vec![b'n'; len - 14 - 28 * 2340], n).bytes(), pile(r, b"other", m).bytes()];
        let entry = one_entry(700, 1, 2, 702, vec![]);
        let one = good(vec![entry.clone()]).bytes().len() - 18;
        let pairs = [
            [named(len.min(MOST) - 14).bytes(), named(more).bytes()],
            [named(len - 14 - 28).bytes(), small(b"a long name", [5]).bytes()],
            [Table { entries: vec![entry.clone()], ..named(len - 14 - 2 * one) }.bytes(), good(vec![entry.clone()]).bytes()],
            [padded(named(len - 14 - one), MOST), padded(good(vec![entry]), MOST)],
            many(r, 1170, 1170),
            many(r, 2, 2338),
            many(r, 0, 2340),
            many(r, 2339, 1),
            many(r, 2340, 0),
        ];
        for pair in pairs {
            for slack in [-(2 * MOST as i64), -2, -1, 0, 1, 300] {
                f(pair.clone(), slack);
            }
        }
    }
    // far too long, the longest that two images can come to among them
    for (n, m) in [(2340, 2340), (2339, 2340), (2340, 1), (1, 2340), (1171, 1170), (1170, 1171)] {
        f([pile(r, b"", n).bytes(), pile(r, b"", m).bytes()], 0);
    }
}

// Every two counts of entries up to 20; and all that the race has.
fn counts(r: &mut Rand, f: &mut impl FnMut([Vec<u8>; 2], i64)) {
    for (n, m) in (0..=20).flat_map(|n| (0..=20).map(move |m| (n, m))) {
        f([pile(r, b"one", n).bytes(), pile(r, b"other", m).bytes()], 0);
    }
    for (_, tables) in ways().into_iter().chain(few()) {
        f(tables.map(|t| t.bytes()), 0);
    }
}

// Every order of up to six different pitches, the list cut between the two images at every place.
fn orders(l: &[u32], f: &mut impl FnMut([Vec<u8>; 2], i64)) {
    for cut in 0..=l.len() {
        f([small(b"one", l[..cut].to_vec()).bytes(), small(b"two", l[cut..].to_vec()).bytes()], 0);
    }
    if l.len() < 6 {
        (0..=l.len()).for_each(|at| orders(&[&l[..at], &[l.len() as u32], &l[at..]].concat(), f));
    }
}

// Spans that do not agree, a result that is too long and a target that is too short: each with each and without it.
fn at_once(f: &mut impl FnMut([Vec<u8>; 2], i64)) {
    let both = |name: usize, min: u32| {
        let mut t = good(vec![one_entry(1, 1, 1, 2, spanned(min, 9))]);
        t.name = vec![b'n'; name];
        t.bytes()
    };
    let rest = both(0, 5).len() * 2 - 14;
    for min in [5, 6] {
        for long in [0, 1, 600] {
            for slack in [-(2 * MOST as i64), -601, -600, -1, 0, 1] {
                f([both(MOST - rest + long, 5), both(3, min)], slack);
            }
        }
    }
}

// Patterns at the edges of floats, with either sign.
fn edges() -> Vec<u32> {
    let near = [0.0, 1.0, 0.1, 110.0, 220.0, 440.0, 1000.0, 20000.0, 1e-40, 1e30, f32::MIN_POSITIVE, f32::MAX, f32::INFINITY];
    let nans = [0x7F812345, 0x7FAAAAAA, 0x7FC00000, 0x7FC12345, 0x7FD55555, 0x7FFFFFFE];
    let bits = (0..31).map(|i| 1u32 << i);
    let all = near.map(f32::to_bits).into_iter().chain(nans).chain(bits).flat_map(|b| [b.saturating_sub(1), b, b + 1]);
    let all = all.flat_map(|b| [b, b | 0x80000000]);
    let mut all: Vec<u32> = all.chain(ODD).collect();
    all.sort();
    all.dedup();
    all
}

// The order of two pitches: of every two edges, and of each of some thousand patterns with the next.
fn pitches(r: &mut Rand, f: &mut impl FnMut([Vec<u8>; 2], i64)) {
    let mut two = |a: u32, b: u32| f([small(b"", [a]).bytes(), small(b"", [b]).bytes()], 0);
    for a in edges() {
        edges().into_iter().for_each(|b| two(a, b));
    }
    let mut all: Vec<u32> = (0..2000).map(|_| r.next() as u32).flat_map(|b| [b, b.wrapping_add(1), b ^ 0x80000000]).collect();
    all.sort_by(|a, b| f32::from_bits(*a).total_cmp(&f32::from_bits(*b)));
    for next in all.windows(2) {
        two(next[0], next[1]);
        two(next[1], next[0]);
    }
}

// ---- random cases
// Most questions answered yes: coefficients as many as they must be, and the span in every entry.
fn mended(mut t: Table, span: &Span) -> Table {
    for e in &mut t.entries {
        e.coeffs.resize(e.k as usize * (e.partials.len() + e.j as usize), 0);
        e.meta.retain(|(key, _)| key != MIN_KEY && key != MAX_KEY);
        e.meta.extend(span.map_or(vec![], |s| spanned(s.0, s.1)));
    }
    t
}

// Up to nine smallest entries in each image.
pub fn any_piles(r: &mut Rand) -> Case {
    let images = [b"one", b"two"].map(|name| {
        let n = r.below(10);
        pile(r, name, n).bytes()
    });
    Case { images, slack: r.pick(&[0, 0, 0, 5, -1]) }
}

// The first one's name made so long that the result has about 65,536 bytes.
fn stretched(r: &mut Rand, tables: &mut [Table; 2]) {
    let bare = tables.each_ref().map(|t| Table { name: vec![], tail: vec![], ..t.clone() }.bytes().len());
    let most = (MOST + r.below(5)).saturating_sub(2 + bare[0] + bare[1] - 14);
    tables[0].name = vec![b'n'; most];
}

// Both with one span or each with its own, with any pitches or with a few that come again, whole or damaged.
pub fn any_case(r: &mut Rand) -> Case {
    let span = any_span(r);
    let spans = [span, if r.chance(85) { span } else { any_span(r) }];
    let pool: Option<Vec<u32>> = r.chance(50).then(|| (0..1 + r.below(4)).map(|_| r.odd_bits()).collect());
    let mut tables = spans.map(|span| {
        let n = if r.chance(2) { r.below(300) } else { r.pick(&[0, 1, 1, 2, 2, 3, 5, 8, 17]) };
        let mut t = table_of(r, n, &span);
        if r.chance(75) || n > 5 {
            t = mended(t, &span);
        }
        if let Some(pool) = &pool {
            t.entries.iter_mut().for_each(|e| e.f0 = r.pick(pool));
        }
        t
    });
    if r.chance(2) {
        stretched(r, &mut tables);
    }
    let images = tables.map(|t| if r.chance(20) { perhaps_damaged(r, &t) } else { t.bytes() });
    Case { images, slack: r.pick(&[0, 0, 0, 1, 9, 1000, -1, -2, -1000]) }
}

// The cases that are the same at each run, but for some of their pitches.
pub fn by_hand(r: &mut Rand, f: &mut impl FnMut([Vec<u8>; 2], i64)) {
    together(f);
    damages(f);
    agreeing(f);
    lengths(r, f);
    counts(r, f);
    orders(&[], f);
    at_once(f);
    pitches(r, f);
}

pub fn run(merges: usize, seed: u64, tally: &mut Tally) {
    let mut r = Rand(seed);
    by_hand(&mut r, &mut |images, slack| run_case(&Case { images, slack }, tally));
    for _ in 0..merges {
        run_case(&any_case(&mut r), tally);
    }
}

// ---- the race
fn original(images: &[Vec<u8>; 2]) -> Vec<u8> {
    let (mut t, u) = (shim::read(&images[0]).unwrap(), shim::read(&images[1]).unwrap());
    t.entries.extend(u.entries);
    in_order(t).to_bytes()
}

// 2,340 smallest entries, n of them in the first image, by how their pitches stand: entry i has the place that is answered.
fn full(n: u32, place: impl Fn(u32) -> u32) -> [Table; 2] {
    let pitch = |i: u32| (20.0 + place(i) as f32).to_bits();
    [small(b"ab", (0..n).map(&pitch)), small(b"ab", (n..2340).map(&pitch))]
}

// Orders that a sort may be quick or slow at: none, one right through, one in each image, and nearly one.
fn ways() -> Vec<(&'static str, [Table; 2])> {
    let both = |place: fn(u32) -> u32| full(1170, place);
    vec![
        ("1,170 + 1,170 smallest entries, any order", both(|i| i.wrapping_mul(0x9E3779B9) % 100_000)),
        ("1,170 + 1,170 smallest entries, ascending", both(|i| i)),
        ("1,170 + 1,170 smallest entries, descending", both(|i| 2340 - i)),
        ("1,170 + 1,170 smallest entries, by turns", both(|i| i % 1170 * 2 + i / 1170)),
        ("1,170 + 1,170 smallest entries, by turns downwards", both(|i| 2339 - (i % 1170 * 2 + i / 1170))),
        ("1,170 + 1,170 smallest entries, up and then down", both(|i| if i < 1170 { 2 * i } else { 4679 - 2 * i })),
        ("1,170 + 1,170 smallest entries, down and then up", both(|i| if i < 1170 { 2339 - 2 * i } else { 2 * i - 2340 })),
        ("1,170 + 1,170 smallest entries, neighbours swapped", both(|i| i ^ 1)),
        ("1,170 + 1,170 smallest entries, each pitch twice, descending", both(|i| 1170 - i / 2)),
        ("1,170 + 1,170 smallest entries, second before first", both(|i| (i + 1170) % 2340)),
        ("1,170 + 1,170 smallest entries, runs of 45", both(|i| i % 45 * 52 + i / 45)),
        ("1,170 + 1,170 smallest entries, one of 20 out of place", both(|i| if i % 20 == 0 { (i + 777) % 2340 } else { i })),
        ("1,170 + 1,170 smallest entries, 10 pitches in any order", both(|i| i.wrapping_mul(0x9E3779B9) % 10)),
        ("1,170 + 1,170 smallest entries, one pitch", both(|_| 7)),
        ("2,300 + 40 smallest entries, each ascending", full(2300, |i| if i < 2300 { i } else { (i - 2300) * 57 })),
        ("40 + 2,300 smallest entries, each ascending", full(40, |i| if i < 40 { i * 57 } else { i - 40 })),
        ("2,340 smallest entries + none, ascending", full(2340, |i| i)),
        ("none + 2,340 smallest entries, descending", full(0, |i| 2340 - i)),
    ]
}

// A base table, and the pitches that a planner adds.
fn planned(m: usize, k: u32, j: u32) -> [Table; 2] {
    let mut extra = table(2, m, k, j);
    extra.entries.iter_mut().for_each(|e| e.f0 = (f32::from_bits(e.f0) * 1.5).to_bits());
    [table(3, m, k, j), extra]
}

// Few entries, as a planner adds them, and large ones. Those of 32 partials have four channels, the others with partials one.
fn few() -> Vec<(&'static str, [Table; 2])> {
    vec![
        ("no entries", [table(0, 0, 0, 0), table(0, 0, 0, 0)]),
        ("1 + 1 smallest entries", [small(b"ab", [2]), small(b"ab", [1])]),
        ("3 + 2 smallest entries", [small(b"ab", [1, 3, 5]), small(b"ab", [2, 4])]),
        ("3 + 2 entries of 4 partials, 2 bands", planned(4, 1, 2)),
        ("3 + 2 entries of 32 partials, 16 bands", planned(32, 4, 16)),
        ("16 + 16 entries of 4 partials, 2 bands", [table(16, 4, 1, 2), table(16, 4, 1, 2)]),
        ("16 + 16 entries of 32 partials, 16 bands", [table(16, 32, 4, 16), table(16, 32, 4, 16)]),
        ("200 + 20 entries of 8 partials, 2 bands", [table(200, 8, 1, 2), table(20, 8, 1, 2)]),
    ]
}

pub fn race(race: &Race) {
    for (what, tables) in ways().into_iter().chain(few()) {
        let images = tables.map(|t| t.bytes());
        let mut target = vec![0; MOST];
        race.line(
            &format!("merging {what} ({} bytes)", original(&images).len()),
            1.0,
            || {
                black_box(ffi::merge(black_box(&images[0]), black_box(&images[1]), &mut target));
            },
            || drop(black_box(original(black_box(&images)))),
        );
    }
}
