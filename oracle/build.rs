//! Takes the original sources from the folder that JAMTRACK_SRC names, absolute or from here (it holds `lapjv.rs`, `rect.rs`
//! and `oc_sort_tracker/`, or a checkout with it as `src/`), makes the listed substitutions, appends the
//! accessors, and writes the result and its whole difference to the originals into OUT_DIR.
use std::fmt::Write;
use std::ops::Range;
use std::path::{Path, PathBuf};
use std::{env, fs};

const FILES: [&str; 8] = [
    "error.rs",
    "rect.rs",
    "object.rs",
    "lapjv.rs",
    "oc_sort_tracker/assoc.rs",
    "oc_sort_tracker/kalman_filter.rs",
    "oc_sort_tracker/strack.rs",
    "oc_sort_tracker/oc_sort_tracker.rs",
];

/// A file, what is sought in it, what takes its place, and how often it must occur.
type Substitution = (&'static str, &'static str, &'static str, usize);

/// The calls of float methods, turned to the stand-ins. A plain build leaves them.
const FLOATS: [Substitution; 9] = [
    ("oc_sort_tracker/assoc.rs", ".max(t[", ".standin_max(t[", 2),
    ("oc_sort_tracker/assoc.rs", ".min(t[", ".standin_min(t[", 2),
    ("oc_sort_tracker/assoc.rs", ".max(0.0)", ".standin_max(0.0)", 2),
    ("oc_sort_tracker/assoc.rs", ".sqrt()", ".standin_sqrt()", 1),
    ("oc_sort_tracker/assoc.rs", ".clamp(", ".standin_clamp(", 1),
    ("oc_sort_tracker/assoc.rs", ".acos()", ".standin_acos()", 1),
    ("oc_sort_tracker/assoc.rs", ".abs()", ".standin_abs()", 1),
    ("oc_sort_tracker/kalman_filter.rs", ".sqrt()", ".standin_sqrt()", 4),
    ("oc_sort_tracker/strack.rs", ".sqrt()", ".standin_sqrt()", 2),
];

/// What is told by functions appended here: what the test of the shortcut says, and each read of a cost. The benchmark, which
/// appends nothing, leaves them.
const TOLD: [Substitution; 2] = [
    ("oc_sort_tracker/assoc.rs", "if row_max == 1 && col_max == 1 {", "if kept(row_max == 1 && col_max == 1) {", 1),
    ("lapjv.rs", "cost[", "read(cost)[", 7),
];

/// `unfreeze` keeps the new list, the gap's last box included, so that the next replay starts from it (document 02, 2.5).
/// The feature `restored` leaves the original as it is.
const KEPT: [Substitution; 2] = [
    ("oc_sort_tracker/kalman_filter.rs", "self.history_obs = saved.history_obs;", "", 1),
    ("oc_sort_tracker/kalman_filter.rs", "self.history_obs.pop();", "", 1),
];

/// How two blocks of `update` begin that change places: the round on last boxes runs before the one on spares (document 02, 2.8).
/// The feature `spares_first` leaves them as they are.
const EXCHANGED: (&str, [&str; 2]) =
    ("oc_sort_tracker/oc_sort_tracker.rs", ["if self.use_byte", "if !unmatched_dets.is_empty()"]);

/// `lapjv.rs` over signed 64-bit numbers (document 02, 2.3), beside the one that the tracker uses.
const WHOLE: [Substitution; 3] = [
    ("lapjv.rs", "f64", "i64", 22),
    ("lapjv.rs", "vec![0.0; n]", "vec![0; n]", 2),
    ("lapjv.rs", "LARGE: isize = 1000000;", "LARGE: isize = 1_000_000_000_000;", 1),
];

const IMPORT: &str = "use crate::stand_ins::StandIns;\n";

fn main() {
    println!("cargo:rerun-if-env-changed=JAMTRACK_SRC");
    println!("cargo:rerun-if-changed=build.rs");
    println!("cargo:rerun-if-changed=appended");
    let sources = sources();
    let out = PathBuf::from(env::var("OUT_DIR").unwrap());
    fs::create_dir_all(out.join("oc_sort_tracker")).unwrap();
    let mut difference = String::new();
    for file in FILES {
        let path = sources.join(file);
        println!("cargo:rerun-if-changed={}", path.display());
        let original = fs::read_to_string(&path).unwrap_or_else(|e| panic!("{}: {e}", path.display()));
        let built = substituted(file, &original) + &appended(file);
        difference += &unified(file, &original, &built);
        fs::write(out.join(file), built).unwrap();
        if file == "lapjv.rs" {
            let whole = replaced(file, &original, WHOLE.iter());
            difference += &unified("lapjv.rs over whole numbers", &original, &whole);
            fs::write(out.join("whole_lapjv.rs"), whole).unwrap();
        }
    }
    fs::write(out.join("difference.diff"), &difference).unwrap();
}

fn sources() -> PathBuf {
    let given = env::var("JAMTRACK_SRC")
        .expect("JAMTRACK_SRC must name the folder of the original sources (the one that holds lapjv.rs)");
    let given = Path::new(&env::var("CARGO_MANIFEST_DIR").unwrap()).join(given);
    let found = [given.clone(), given.join("src")].into_iter().find(|p| p.join("lapjv.rs").exists());
    found.unwrap_or_else(|| panic!("no lapjv.rs in {}", given.display()))
}

fn has(feature: &str) -> bool {
    env::var(format!("CARGO_FEATURE_{feature}")).is_ok()
}

fn substituted(file: &str, original: &str) -> String {
    let floats = FLOATS.iter().filter(|_| !has("PLAIN"));
    let told = TOLD.iter().filter(|_| Path::new("appended").exists());
    let kept = KEPT.iter().filter(|_| !has("RESTORED"));
    let text = replaced(file, original, floats.chain(told).chain(kept));
    if file == EXCHANGED.0 && !has("SPARES_FIRST") {
        exchanged(&text, EXCHANGED.1)
    } else {
        text
    }
}

/// The text with the two blocks that begin so in each other's place.
fn exchanged(text: &str, beginnings: [&str; 2]) -> String {
    let [first, second] = beginnings.map(|beginning| block(text, beginning));
    assert!(first.end <= second.start, "the blocks to exchange stand in another order");
    let between = &text[first.end..second.start];
    [&text[..first.start], &text[second.clone()], between, &text[first], &text[second.end..]].concat()
}

/// The one block that begins so, to the brace that closes it, in the same column.
fn block(text: &str, beginning: &str) -> Range<usize> {
    assert_eq!(text.matches(beginning).count(), 1, "{beginning}");
    let start = text.find(beginning).unwrap();
    let indent = &text[text[..start].rfind('\n').unwrap()..start];
    let close = format!("{indent}}}\n");
    let length = text[start..].find(&close).unwrap() + close.len() - 1;
    start..start + length
}

fn replaced<'a>(file: &str, original: &str, substitutions: impl Iterator<Item = &'a Substitution>) -> String {
    let mut text = original.to_string();
    for (_, sought, given, times) in substitutions.filter(|s| s.0 == file) {
        assert_eq!(text.matches(sought).count(), *times, "{file}: {sought}");
        text = text.replace(sought, given);
    }
    text
}

/// The import of the stand-ins where a call was turned to them, and the accessors to private state.
fn appended(file: &str) -> String {
    let import = !has("PLAIN") && FLOATS.iter().any(|s| s.0 == file);
    let name = Path::new(file).file_name().unwrap();
    let accessors = fs::read_to_string(Path::new("appended").join(name)).unwrap_or_default();
    format!("{}{accessors}", if import { IMPORT } else { "" })
}

/// A unified difference with three lines of context.
fn unified(file: &str, old: &str, new: &str) -> String {
    const CONTEXT: usize = 3;
    let (a, b): (Vec<&str>, Vec<&str>) = (old.lines().collect(), new.lines().collect());
    let lines = aligned(&a, &b);
    let changed = |i: usize| lines[i].0 != ' ';
    let near = |i: usize| (i.saturating_sub(CONTEXT)..=(i + CONTEXT).min(lines.len() - 1)).any(changed);
    let mut text = String::new();
    let mut at = 0;
    while at < lines.len() {
        if !near(at) {
            at += 1;
            continue;
        }
        let end = (at..lines.len()).find(|&i| !near(i)).unwrap_or(lines.len());
        let count = |part: &[(char, &str)], mark: char| part.iter().filter(|l| l.0 != mark).count();
        let (before, hunk) = (&lines[..at], &lines[at..end]);
        if text.is_empty() {
            write!(text, "--- original/{file}\n+++ built/{file}\n").unwrap();
        }
        let (from, to) = (count(before, '+') + 1, count(before, '-') + 1);
        writeln!(text, "@@ -{from},{} +{to},{} @@", count(hunk, '+'), count(hunk, '-')).unwrap();
        for (mark, line) in hunk {
            writeln!(text, "{mark}{line}").unwrap();
        }
        at = end;
    }
    text
}

/// The lines of both texts in one order along a longest common subsequence: ' ' in both, '-' old, '+' new.
fn aligned<'a>(a: &[&'a str], b: &[&'a str]) -> Vec<(char, &'a str)> {
    let mut common = vec![vec![0usize; b.len() + 1]; a.len() + 1];
    for i in (0..a.len()).rev() {
        for j in (0..b.len()).rev() {
            common[i][j] = if a[i] == b[j] { common[i + 1][j + 1] + 1 } else { common[i + 1][j].max(common[i][j + 1]) };
        }
    }
    let (mut i, mut j, mut lines) = (0, 0, Vec::new());
    while i < a.len() || j < b.len() {
        if i < a.len() && j < b.len() && a[i] == b[j] {
            lines.push((' ', a[i]));
            i += 1;
            j += 1;
        } else if j == b.len() || (i < a.len() && common[i + 1][j] >= common[i][j + 1]) {
            lines.push(('-', a[i]));
            i += 1;
        } else {
            lines.push(('+', b[j]));
            j += 1;
        }
    }
    lines
}
