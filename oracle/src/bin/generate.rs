//! `generate SEED KIND..`: prints the seeded lines of these kinds.
use oracle::vectors::{lines, KINDS};
use std::io::Write;

fn main() -> std::io::Result<()> {
    let mut words = std::env::args().skip(1);
    let seed = words.next().and_then(|w| w.parse().ok()).expect("generate SEED KIND..");
    for kind in words {
        if !KINDS.contains(&kind.as_str()) {
            eprintln!("generate: no such kind: {kind}; there are {}", KINDS.join(", "));
            std::process::exit(2);
        }
        std::io::stdout().write_all(&lines(&kind, seed))?;
    }
    Ok(())
}
