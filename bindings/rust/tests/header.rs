//! The C header and this crate say the same: version, sizes, refusals.
use satinjacks::{Refusal, TrackerImage, ROOM, VERSION};
use std::collections::HashSet;
use std::error::Error;

const HEADER: &str = include_str!("../../../include/satinjacks.h");

/// What the header defines `name` as.
fn defined(name: &str) -> usize {
    let line = HEADER.lines().find_map(|l| l.strip_prefix(&format!("#define {name} "))).expect(name);
    line.split_whitespace().next().unwrap().parse().unwrap()
}

/// The header's refusals, their names as they are written here, and their numbers.
fn refusals() -> Vec<(String, u64)> {
    let of = |line: &str| {
        let (name, rest) = line.trim().strip_prefix("SATINJACKS_")?.split_once(" = ")?;
        let number = rest.split([',', ' ']).next()?.parse().ok()?;
        let word = |w: &str| w[..1].to_owned() + &w[1..].to_lowercase();
        Some((name.split('_').map(word).collect(), number))
    };
    HEADER.lines().filter_map(of).collect()
}

#[test]
fn versions() {
    assert_eq!(defined("SATINJACKS_VERSION"), VERSION as usize);
    let parts = [VERSION / 10_000, VERSION / 100 % 100, VERSION % 100].map(|p| p.to_string()).join(".");
    assert_eq!(parts, env!("CARGO_PKG_VERSION"));
    assert!(HEADER.contains(&format!(" * {parts}, as one number")), "the header's remark says another version");
}

#[test]
fn sizes() {
    assert_eq!((defined("SATINJACKS_IDS"), defined("SATINJACKS_OBJECTS")), (ROOM, ROOM));
    assert_eq!(defined("SATINJACKS_BOXES"), 4 * ROOM);
    assert!(HEADER.contains(&format!("sizeof(SatinjacksTracker) == {}", TrackerImage::SIZE)));
}

/// Each number of the header has its name here, and no other has one.
#[test]
fn numbers() {
    let refusals = refusals();
    assert_eq!(refusals[0], ("Accepted".to_owned(), 0));
    assert_eq!(Refusal::from_number(0), None);
    for (name, number) in &refusals[1..] {
        let refusal = Refusal::from_number(*number).unwrap();
        assert_eq!((format!("{refusal:?}"), refusal.number()), (name.clone(), *number));
    }
    let named: HashSet<u64> = refusals.into_iter().map(|(_, number)| number).collect();
    for number in (1..=1000).chain([u64::MAX]).filter(|n| !named.contains(n)) {
        let refusal = Refusal::from_number(number).unwrap();
        assert!(matches!(refusal, Refusal::Other { .. }));
        assert_eq!(refusal.number(), number);
    }
}

/// Each begins with document 01's word; one without a name says its number.
#[test]
fn words() {
    for (number, word) in [
        (1, "unsound state"),
        (2, "bad setting"),
        (3, "ragged frame"),
        (4, "crowded frame"),
        (5, "short answer"),
        (6, "run over"),
        (7, "full table"),
        (8, "bad matrix"),
        (12, "cost out of range"),
        (1000, "refusal 1000"),
    ] {
        let refusal: Box<dyn Error + Send + Sync> = Refusal::from_number(number).unwrap().into();
        assert!(refusal.to_string().starts_with(&format!("{word}: ")), "{refusal}");
    }
}
