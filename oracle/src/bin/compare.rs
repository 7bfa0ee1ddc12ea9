//! `compare PROGRAM RUNS [FIRST]`: gives PROGRAM the runs of the seeds from FIRST on, and holds each answer, the whole
//! state by its hash after every frame included, against the original's. A run whose answers differ is cut to its
//! shortest start, then to as few frames, objects and plain numbers as still differ, and shown.
//! `compare --count PROGRAM RUNS [FIRST]` goes on after a difference and counts them, for a program that is known to differ.
//! Ends with 1 after a difference, with 2 where PROGRAM can't be run.
use oracle::runs::{run, Frame, Run, FAMILIES};
use oracle::session::Session;
use std::io::{BufRead, BufReader, BufWriter, Write};
use std::process::{Child, ChildStdin, ChildStdout, Command, Stdio};
use std::sync::mpsc::{sync_channel, Receiver, SyncSender};
use std::thread;

/// A run's lines, and the original's answer to each.
struct Expected {
    lines: Vec<String>,
    answers: Vec<String>,
}

fn expected(run: &Run) -> Expected {
    let (mut session, mut answers) = (Session::new(), Vec::new());
    let lines = run.lines();
    for line in &lines {
        let mut out = Vec::new();
        session.line(line, &mut out);
        answers.push(String::from_utf8(out).unwrap());
    }
    Expected { lines, answers }
}

/// The program, with the runs' lines going in by a thread of their own.
struct Program {
    child: Child,
    given: SyncSender<String>,
    answers: BufReader<ChildStdout>,
}

impl Program {
    fn start(path: &str) -> Program {
        let piped = Command::new(path).stdin(Stdio::piped()).stdout(Stdio::piped()).spawn();
        let mut child = piped.unwrap_or_else(|e| stop(&format!("{path} can't be run: {e}")));
        let (given, texts) = sync_channel(64);
        let input = child.stdin.take().unwrap();
        thread::spawn(move || feed(input, texts));
        let answers = BufReader::with_capacity(1 << 16, child.stdout.take().unwrap());
        Program { child, given, answers }
    }

    /// The answer to a line: one line, but for a frame's reports and a state.
    fn answer(&mut self, line: &str) -> String {
        let mut answer = String::new();
        let word = line.split(' ').next().unwrap();
        if !matches!(word, "new" | "frame" | "repeat" | "hash" | "state") {
            return answer;
        }
        self.answers.read_line(&mut answer).unwrap();
        let reports = answer.strip_prefix("ok ").and_then(|n| n.trim().parse().ok()).unwrap_or(0);
        for _ in 0..reports {
            self.answers.read_line(&mut answer).unwrap();
        }
        if word == "state" && answer.starts_with("state ") {
            while !answer.ends_with("\nend\n") && self.answers.read_line(&mut answer).unwrap() > 0 {}
        }
        answer
    }

    /// The place of the first line whose answer differs, with the answer.
    fn first_difference(&mut self, run: &Expected) -> Option<(usize, String)> {
        for (i, line) in run.lines.iter().enumerate() {
            let answer = self.answer(line);
            if answer != run.answers[i] {
                return Some((i, answer));
            }
        }
        None
    }

    fn stop(mut self) {
        let _ = self.child.kill();
        let _ = self.child.wait();
    }
}

fn feed(input: ChildStdin, texts: Receiver<String>) {
    let mut input = BufWriter::with_capacity(1 << 16, input);
    while let Ok(text) = texts.recv() {
        if input.write_all(text.as_bytes()).and_then(|_| input.flush()).is_err() {
            return;
        }
    }
}

fn difference(path: &str, run: &Run) -> Option<(usize, String)> {
    let expected = expected(run);
    let mut program = Program::start(path);
    program.given.send(expected.lines.join("\n") + "\n").unwrap();
    let found = program.first_difference(&expected);
    program.stop();
    found
}

/// The run up to the frame whose answer or hash differs.
fn cut(run: &Run, line: usize) -> Run {
    let frames = (line.saturating_sub(run.head.len()) / 2 + 1).min(run.frames.len());
    Run { frames: run.frames[..frames].to_vec(), ..run.clone() }
}

/// Leaves out frames and objects, and makes numbers plain, as long as the run still differs.
fn shrunk(path: &str, run: Run) -> Run {
    let mut run = run;
    loop {
        let smaller = candidates(&run).into_iter().find(|c| difference(path, c).is_some());
        match smaller {
            Some(found) => run = found,
            None => return run,
        }
    }
}

fn with(run: &Run, at: usize, frame: Frame) -> Run {
    let mut frames = run.frames.clone();
    frames[at] = frame;
    Run { frames, ..run.clone() }
}

fn candidates(run: &Run) -> Vec<Run> {
    let n = run.frames.len();
    let without = |from: usize, count: usize| {
        let frames = [&run.frames[..from], &run.frames[(from + count).min(n)..]].concat();
        Run { frames, ..run.clone() }
    };
    let mut found = Vec::new();
    for size in [n / 2, n / 4, 8, 2, 1] {
        if size > 0 && size < n {
            found.extend((0..n).step_by(size).map(|from| without(from, size)));
        }
    }
    for (at, frame) in run.frames.iter().enumerate() {
        if frame.times > 1 {
            found.push(with(run, at, Frame { times: 1, ..frame.clone() }));
        }
        for o in 0..frame.numbers.len() / 5 {
            let mut numbers = frame.numbers.clone();
            numbers.drain(5 * o..5 * o + 5);
            found.push(with(run, at, Frame { numbers, ..frame.clone() }));
        }
    }
    for (at, frame) in run.frames.iter().enumerate() {
        for (i, &x) in frame.numbers.iter().enumerate() {
            for plain in [0.0, 1.0, x.round()] {
                if plain.to_bits() != x.to_bits() && x.is_finite() && x != 0.0 && x != 1.0 {
                    let mut numbers = frame.numbers.clone();
                    numbers[i] = plain;
                    found.push(with(run, at, Frame { numbers, ..frame.clone() }));
                }
            }
        }
    }
    found
}

fn show(path: &str, seed: u64, run: Run, line: usize) {
    println!("seed {seed} ({}): the answer to line {} differs", run.family, line + 1);
    let run = shrunk(path, cut(&run, line));
    let expected = expected(&run);
    let (at, answer) = difference(path, &run).expect("the shortened run differs");
    println!("shortened to {} frames:", run.frames.len());
    expected.lines[..=at].iter().for_each(|l| println!("  {l}"));
    println!("the original answers:\n{}the program answers:\n{answer}", expected.answers[at]);
}

/// The runs with what the original answers, worked out beside the program, which is given each run's lines.
fn expectations(first: u64, runs: u64, given: SyncSender<String>) -> Receiver<(u64, Run, Expected)> {
    let (ready, expectations) = sync_channel(64);
    thread::spawn(move || {
        for seed in first..first + runs {
            let run = run(seed);
            let expected = expected(&run);
            if given.send(expected.lines.join("\n") + "\n").is_err() || ready.send((seed, run, expected)).is_err() {
                return;
            }
        }
    });
    expectations
}

/// What was compared.
#[derive(Default)]
struct Sums {
    frames: usize,
    by_family: [usize; FAMILIES.len()],
    refusals: [usize; 9],
}

impl Sums {
    fn add(&mut self, seed: u64, run: &Run, expected: &Expected) {
        self.frames += run.frames.len();
        self.by_family[(seed % FAMILIES.len() as u64) as usize] += run.frames.len();
        for number in expected.answers.iter().filter_map(|a| a.strip_prefix("refused ")) {
            self.refusals[number.trim().parse::<usize>().unwrap()] += 1;
        }
    }

    fn show(&self) {
        for (family, frames) in FAMILIES.iter().zip(&self.by_family) {
            println!("{family:9} {frames} frames");
        }
        let refusals: Vec<String> = (1..9).map(|n| format!("{n}: {}", self.refusals[n])).collect();
        println!("refusals by number: {}", refusals.join(", "));
    }
}

fn compare(path: &str, runs: u64, first: u64) -> bool {
    let mut program = Program::start(path);
    let mut sums = Sums::default();
    for (seed, run, expected) in expectations(first, runs, program.given.clone()) {
        if let Some((line, _)) = program.first_difference(&expected) {
            let frames = sums.frames + line.saturating_sub(run.head.len()) / 2;
            println!("{frames} frames compared before a difference");
            program.stop();
            show(path, seed, run, line);
            return false;
        }
        sums.add(seed, &run, &expected);
        if (seed - first + 1) % 1000 == 0 {
            eprintln!("{} runs, {} frames so far, no difference", seed - first + 1, sums.frames);
        }
    }
    program.stop();
    sums.show();
    println!("{runs} runs, {} frames compared, 0 differences", sums.frames);
    true
}

/// A frame's answer without its numbers: the word and the ids.
fn ids(answer: &str) -> Vec<&str> {
    answer.lines().map(|l| if l.starts_with("ok") { l } else { l.split(' ').next().unwrap() }).collect()
}

fn count(path: &str, runs: u64, first: u64) {
    let mut program = Program::start(path);
    let mut sums = Sums::default();
    let (mut differing, mut states, mut answers, mut identities) = (0, 0, 0, 0);
    let mut by_family = [0; FAMILIES.len()];
    for (seed, run, expected) in expectations(first, runs, program.given.clone()) {
        let mut differs = false;
        for (line, expected) in expected.lines.iter().zip(&expected.answers) {
            let answer = program.answer(line);
            if answer != *expected {
                differs = true;
                match line.as_str() {
                    "hash" => states += 1,
                    "state" => {}
                    _ => answers += 1,
                }
                identities += (line != "hash" && line != "state" && ids(&answer) != ids(expected)) as usize;
            }
        }
        differing += differs as u64;
        by_family[(seed % FAMILIES.len() as u64) as usize] += differs as u64;
        sums.add(seed, &run, &expected);
    }
    program.stop();
    for (family, runs) in FAMILIES.iter().zip(&by_family) {
        println!("{family:9} {runs} runs differ");
    }
    println!("{runs} runs, {} frames; {differing} runs differ, in {states} states, {answers} answers, {identities} of them in their ids", sums.frames);
}

/// Ends with one line on what the caller has to mend.
fn stop(why: &str) -> ! {
    eprintln!("compare: {why}");
    std::process::exit(2)
}

fn number(word: &str) -> u64 {
    word.parse().unwrap_or_else(|_| stop(&format!("`{word}` is no number of runs, and no first seed")))
}

fn main() {
    let words: Vec<String> = std::env::args().skip(1).collect();
    let counts = words.first().is_some_and(|w| w == "--count");
    let words = &words[counts as usize..];
    let [path, runs, first @ ..] = words else { stop("RUNS is missing: compare [--count] PROGRAM RUNS [FIRST]") };
    let (runs, first) = (number(runs), first.first().map_or(0, |w| number(w)));
    if counts {
        count(path, runs, first);
    } else if !compare(path, runs, first) {
        std::process::exit(1);
    }
}
