// The comparison with the original: compare/run builds and starts it.
mod ffi;
mod heap;
mod image;
mod list;
mod merging;
#[cfg(playing)]
mod playing;
mod quiet;
mod race;
mod rand;
mod reading;
mod tally;
mod words;

use tally::Tally;

#[global_allocator]
static HEAP: heap::Lazy = heap::Lazy;

fn main() {
    let a: Vec<String> = std::env::args().collect();
    let value = |name: &str| a.iter().position(|x| x == name).and_then(|i| a.get(i + 1)).cloned();
    let number = |name: &str, other: u64| value(name).map_or(other, |v| v.parse().unwrap_or_else(|_| panic!("{name} {v}: not a number")));
    let (cases, seed) = (number("--cases", 300_000), number("--seed", 1));
    if a.iter().any(|x| x == "--race" || x == "--race-only") {
        race::run(&race::Race { only: value("--race-only").unwrap_or_default() });
        return;
    }
    if let Some(path) = value("--out") {
        let records = number("--list", 450) as usize;
        list::write(records, seed, &format!("{path}/reading"));
        list::write_merges(records, seed, &format!("{path}/merging"));
        #[cfg(playing)]
        playing::write_list(records, seed, &format!("{path}/playing"));
        return;
    }
    // a part runs where it is the only one asked for, or none is
    let runs = |part: &str| !a.iter().any(|x| x.starts_with("--only-")) || a.contains(&format!("--only-{part}"));
    let (mut reading, mut merges, mut plans) = (Tally::default(), Tally::default(), Tally::default());
    if runs("reading") {
        reading::run(cases as usize, seed, &mut reading);
        reading.print("reading");
    }
    if runs("merges") {
        merging::run(number("--merges", 100_000) as usize, seed, &mut merges);
        let (by, [first, second]) = (merges.by_number(), merges.images);
        println!(
            "merging: {} merges, {first} refused for the first image, {second} for the second, {} answers written out from the documents, \
             answers by number{by}, {} differences",
            merges.cases, merges.paper, merges.differences
        );
    }
    if runs("plans") {
        quiet::run(number("--plans", 10_000) as usize, seed, &mut plans);
        let by = plans.by_number();
        println!("plans: {} plans, {} minutes asked, answers by number{by}, {} differences", plans.cases, plans.calls, plans.differences);
    }
    #[allow(unused_mut)]
    let (mut playing, mut powers) = (Tally::default(), Tally::default());
    #[cfg(playing)]
    if runs("playing") {
        playing::run(number("--voices", 3000) as usize, seed, &mut playing);
        playing.print("playing");
        playing::powers(number("--powers", 10_000) as usize, seed, &mut powers);
        println!("noise powers: {} cases, {} differences", powers.cases, powers.differences);
        for (what, asked) in [("lists", number("--lists", 0)), ("long", number("--long", 0))] {
            if asked == 0 {
                continue;
            }
            let mut tally = Tally::default();
            if what == "lists" {
                playing::run_lists(asked as usize, number("--calls", 100).max(1) as usize, seed, &mut tally);
            } else {
                playing::long(asked, seed, &mut tally);
            }
            tally.print(what);
            playing.add(&tally);
        }
    }
    let differences = [&reading, &merges, &plans, &playing, &powers].iter().map(|t| t.differences).sum::<u64>();
    let cases = reading.cases + playing.cases;
    println!(
        "compare: seed {seed}, {cases} cases, {} samples, {} noise powers, {} plans, {} merges, {differences} differences",
        playing.samples, powers.cases, plans.cases, merges.cases
    );
    if differences > 0 {
        std::process::exit(1)
    }
}
