// prepare SRC SHIMS OUT [EDIT DRIVER]: puts the original's files and the shims together in OUT, as a crate to compare with.
// The original is copied unchanged but for the substitutions below, each counted. EDIT is a planted fault (see faults/): lines
// `file: ..`, `old: ..`, `new: ..`, once or several times; each must be found exactly once. A file is the original's, or one of the
// driver (`driver/..`), which gives document 01's answers where the original has none: DRIVER is the copy of it that is damaged.
use std::{env, fs, path::Path, process::exit};

struct Substitution {
    file: &'static str,
    count: usize,
    old: &'static str,
    new: &'static str,
}

const SUBSTITUTIONS: [Substitution; 6] = [
    // document 01, module 3: S for the sine of a phase
    Substitution { file: "ugens/partials.rs", count: 1, old: "(TAU * *ph).sin()", new: "crate::shim::s(*ph)" },
    Substitution { file: "ugens/partials_blend.rs", count: 1, old: "(TAU * *ph).sin()", new: "crate::shim::s(*ph)" },
    // module 3: in biquad_params, S of the quotient for the sine, S of the quotient plus 0.25 for the cosine
    Substitution {
        file: "ugens/filters.rs",
        count: 1,
        old: "(w0.sin(), w0.cos())",
        new: "(crate::shim::s(freq / sample_rate), crate::shim::s(freq / sample_rate + 0.25))",
    },
    // module 5: the Rust gets the same centres in place of its own
    Substitution {
        file: "ugens/partials.rs",
        count: 1,
        old: "noise_band_centers(j_max, band_min_hz, band_max_hz)",
        new: "crate::shim::centres(j_max, band_min_hz, band_max_hz)",
    },
    Substitution {
        file: "ugens/partials_blend.rs",
        count: 1,
        old: "noise_band_centers(j_max, band_min_hz, band_max_hz)",
        new: "crate::shim::centres(j_max, band_min_hz, band_max_hz)",
    },
    // module 8: the ring count is shown
    Substitution {
        file: "ugens/partials.rs",
        count: 1,
        old: "let n = ((25.0 * tau_samples) as usize).clamp(64, 2_000_000);",
        new: "let n = ((25.0 * tau_samples) as usize).clamp(64, 2_000_000); crate::shim::rung(n);",
    },
];

const COPIED: [&str; 8] =
    ["buffer.rs", "coeff_table.rs", "context.rs", "wire.rs", "ugens/filters.rs", "ugens/partials.rs", "ugens/partials_blend.rs", "ugens/rng.rs"];

const SHIMS: [(&str, &str); 6] = [
    ("lib.rs", "lib.rs"),
    ("node.rs", "node.rs"),
    ("dsl.rs", "dsl.rs"),
    ("ugens.rs", "ugens.rs"),
    ("shim.rs", "shim.rs"),
    ("delayline.rs", "ugens/delayline.rs"),
];

const APPENDED: [(&str, &str); 4] = [
    ("append_filters.rs", "ugens/filters.rs"),
    ("append_rng.rs", "ugens/rng.rs"),
    ("append_partials.rs", "ugens/partials.rs"),
    ("append_partials_blend.rs", "ugens/partials_blend.rs"),
];

fn read(p: &Path) -> String {
    fs::read_to_string(p).unwrap_or_else(|e| {
        eprintln!("prepare: {}: {e}", p.display());
        exit(2)
    })
}

fn replace(text: &str, file: &str, count: usize, old: &str, new: &str) -> String {
    let found = text.matches(old).count();
    if found != count {
        eprintln!("prepare: {file}: `{old}` stands {found} times, not {count}");
        exit(1)
    }
    text.replace(old, new)
}

fn main() {
    let a: Vec<String> = env::args().collect();
    let (src, shims, out) = (Path::new(&a[1]).join("src"), Path::new(&a[2]), Path::new(&a[3]));
    fs::create_dir_all(out.join("ugens")).unwrap();
    let fault = a.get(4).map_or(String::new(), |p| read(Path::new(p)));
    let lines = |k: &str| fault.lines().filter_map(|l| l.strip_prefix(k)).map(String::from).collect::<Vec<_>>();
    let (files, olds, news) = (lines("file: "), lines("old: "), lines("new: "));
    let known = |f: &String| COPIED.contains(&f.as_str()) || f.starts_with("driver/");
    if files.len() != olds.len() || olds.len() != news.len() || a.len() > 4 && files.is_empty() || !files.iter().all(known) {
        eprintln!("prepare: {}: not a planted fault", a[4]);
        exit(1)
    }
    for file in COPIED {
        let mut text = read(&src.join(file));
        for s in SUBSTITUTIONS.iter().filter(|s| s.file == file) {
            text = replace(&text, file, s.count, s.old, s.new);
        }
        for i in (0..files.len()).filter(|&i| files[i] == file) {
            text = replace(&text, file, 1, &olds[i], &news[i]);
        }
        for (name, _) in APPENDED.iter().filter(|(_, to)| *to == file) {
            text += "\n";
            text += &read(&shims.join(name));
        }
        fs::write(out.join(file), text).unwrap();
    }
    for i in 0..files.len() {
        if let Some(file) = files[i].strip_prefix("driver/") {
            let path = Path::new(&a[5]).join(file);
            fs::write(&path, replace(&read(&path), file, 1, &olds[i], &news[i])).unwrap();
        }
    }
    for (from, to) in SHIMS {
        fs::write(out.join(to), read(&shims.join(from))).unwrap();
    }
}
