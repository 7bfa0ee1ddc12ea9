//! A state that is put out as text and loaded goes on as the run it came from.
use oracle::runs::run;
use oracle::session::Session;

fn answers(session: &mut Session, lines: &[String]) -> String {
    let mut out = Vec::new();
    lines.iter().for_each(|line| session.line(line, &mut out));
    String::from_utf8(out).unwrap()
}

/// The lines that load the session's state under the settings of a `new` line.
fn load_lines(session: &mut Session, made: &str) -> Vec<String> {
    let state = answers(session, &["state".to_string()]);
    let (counts, tracks) = state.split_once('\n').unwrap();
    let head = format!("load{}{}", &made["new".len()..], &counts["state".len()..]);
    std::iter::once(head).chain(tracks.lines().map(str::to_string)).collect()
}

#[test]
fn a_loaded_state_goes_on_as_the_run() {
    let mut compared = 0;
    for seed in 0..240 {
        let lines = run(seed).lines();
        if !lines[0].starts_with("new") {
            continue;
        }
        let cut = 1 + lines.len() / 4 * 2;
        let mut whole = Session::new();
        if answers(&mut whole, &lines[..cut]).starts_with("refused") {
            continue;
        }
        let mut loaded = Session::new();
        let load = load_lines(&mut whole, &lines[0]);
        assert_eq!(answers(&mut loaded, &load), "");
        assert_eq!(answers(&mut loaded, &lines[cut..]), answers(&mut whole, &lines[cut..]), "seed {seed}");
        compared += 1;
    }
    assert!(compared > 100);
}
