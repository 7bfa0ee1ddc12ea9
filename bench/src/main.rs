//! Times the proved library, the original built plainly, and the original's comparison build, on the same frames in one
//! process, and holds the library's answers to the comparison build's on every timed frame.
//! `bench SVG PASSES ROW` times one row alone, for a profile.
mod inputs;
mod plot;

use inputs::{costs, frames, is_return, whole_costs, Frame, Kind, TIMED, WARM};
use satinjacks::{Detection, Tracker};
use std::hint::black_box;
use std::time::Instant;

const DET_THRESH: f32 = 0.5;
/// Frames that one of the three goes on before the next has its turn.
const BLOCK: usize = 10;

/// Nanoseconds of the library, the plain original, the comparison build.
pub type Times = [f64; 3];

pub struct Row {
    pub name: String,
    pub kind: Option<Kind>,
    pub count: usize,
    pub times: Times,
}

/// Id and the bits of x, y, width, height.
type Reports = Vec<(u64, [u32; 4])>;

/// Takes a frame by its place; nanoseconds, and the reports.
type Runner = Box<dyn FnMut(usize) -> (u64, Reports)>;

fn timed<T>(call: impl FnOnce() -> T) -> (u64, T) {
    let start = Instant::now();
    let answer = black_box(call());
    (start.elapsed().as_nanos() as u64, answer)
}

fn library(given: &[Frame]) -> Runner {
    let of = |&[x, y, width, height, score]: &[f32; 5]| Detection { x, y, width, height, score };
    let given: Vec<Vec<Detection>> = given.iter().map(|f| f.iter().map(of).collect()).collect();
    let mut tracker = Tracker::new(DET_THRESH).expect("a setting in range");
    Box::new(move |t: usize| {
        let (time, answer) = timed(|| tracker.update(black_box(&given[t])));
        let tracks = answer.unwrap_or_else(|refusal| panic!("frame {t}: {refusal}"));
        (time, tracks.iter().map(|r| (r.id, [r.x, r.y, r.width, r.height].map(f32::to_bits))).collect())
    })
}

macro_rules! original {
    ($build:ident) => {
        fn $build(given: &[Frame]) -> Runner {
            let given: Vec<Vec<_>> = given.iter().map(|f| f.iter().map(|&o| $build::object(o)).collect()).collect();
            let mut tracker = $build::OCSort::new(DET_THRESH);
            Box::new(move |t: usize| {
                let (time, answer) = timed(|| tracker.update(black_box(&given[t])));
                let report = |o: &$build::Object| {
                    let numbers = [o.get_x(), o.get_y(), o.get_width(), o.get_height()];
                    (o.get_track_id().expect("a report has an id") as u64, numbers.map(f32::to_bits))
                };
                (time, answer.expect("the original answers").iter().map(report).collect())
            })
        }
    };
}
original!(plain);
original!(comparison);

fn median(values: &mut [u64]) -> f64 {
    values.sort_unstable();
    values[values.len() / 2] as f64
}

/// A run of frames, and of each timed frame its times by each of the three, one a pass.
struct Scenario {
    kind: Kind,
    count: usize,
    given: Vec<Frame>,
    times: Vec<[Vec<u64>; 3]>,
}

impl Scenario {
    fn of(kind: Kind, count: usize) -> Scenario {
        Scenario { kind, count, given: frames(kind, count), times: vec![Default::default(); TIMED] }
    }

    fn name(&self) -> String {
        format!("{} {}", word(self.kind), self.count)
    }

    /// Goes through the frames once, with new trackers.
    fn pass(&mut self, pass: usize) {
        let name = self.name();
        let given = &self.given;
        let mut runners = [library(given), plain(given), comparison(given)];
        let mut plain_differs = 0;
        for start in (0..given.len()).step_by(BLOCK) {
            let block = start..(start + BLOCK).min(given.len());
            let mut answers: [Vec<Reports>; 3] = Default::default();
            for turn in 0..3 {
                let who = (turn + pass + start / BLOCK) % 3;
                for t in block.clone() {
                    let (time, reports) = runners[who](t);
                    answers[who].push(reports);
                    if t >= WARM {
                        self.times[t - WARM][who].push(time);
                    }
                }
            }
            let [own, plain, compared] = answers;
            for (k, t) in block.enumerate() {
                assert_eq!(own[k], compared[k], "{name}, frame {t}: library and comparison build differ");
                plain_differs += usize::from(own[k] != plain[k]);
            }
        }
        if pass == 0 && plain_differs > 0 {
            eprintln!("note: {name}: the plain build answers otherwise on {plain_differs} of {} frames", given.len());
        }
    }

    fn rows(self) -> Vec<Row> {
        let name = self.name();
        let Scenario { kind, count, times, .. } = self;
        let times: Vec<Times> = times.into_iter().map(|frame| frame.map(|mut of| median(&mut of))).collect();
        let mut rows = vec![Row { name: name.clone(), kind: Some(kind), count, times: mean(times.iter()) }];
        if kind == Kind::Gaps {
            let back = |t: &usize| is_return(t + WARM);
            let replays = mean((0..TIMED).filter(back).map(|t| &times[t]));
            rows.push(Row { name: format!("{name}, frames that replay"), kind: None, count, times: replays });
        }
        rows
    }
}

/// The mean over frames; a frame's own figure is a median, so a pause of the machine counts nowhere.
fn mean<'a>(frames: impl Iterator<Item = &'a Times>) -> Times {
    let all: Vec<&Times> = frames.collect();
    std::array::from_fn(|who| all.iter().map(|t| t[who]).sum::<f64>() / all.len() as f64)
}

fn word(kind: Kind) -> &'static str {
    match kind {
        Kind::Steady => "steady",
        Kind::Crowd => "crowd",
        Kind::Crossings => "crossings",
        Kind::Gaps => "gaps",
    }
}

/// The assignment alone.
fn assignment(n: usize, repeat: usize) -> Row {
    let mut times: [Vec<u64>; 3] = Default::default();
    for seed in 0..8 * repeat as u64 {
        let flat = costs(n, seed);
        let nested: Vec<Vec<f64>> = flat.chunks(n).map(<[f64]>::to_vec).collect();
        let (mut rows, mut columns) = ([0i64; 64], [0i64; 64]);
        let call = || satinjacks::assign(n, &flat, &mut rows[..n], &mut columns[..n]);
        let (time, answer) = timed(call);
        answer.expect("sizes agree");
        times[0].push(time);
        let mut of = |who: usize, assign: fn(&mut Vec<Vec<f64>>, &mut Vec<isize>, &mut Vec<isize>)| {
            let (mut cost, mut x, mut y) = (nested.clone(), vec![-1; n], vec![-1; n]);
            times[who].push(timed(|| assign(&mut cost, &mut x, &mut y)).0);
            assert!(x.iter().zip(&rows).all(|(&a, &b)| a as i64 == b), "assignment {seed}: pairs differ");
        };
        of(1, plain::assign);
        of(2, comparison::assign);
    }
    Row { name: format!("assignment {n} by {n}"), kind: None, count: n, times: times.map(|mut t| median(&mut t)) }
}

/// The assignment by whole costs and by the same numbers as f64s, nanoseconds.
fn whole_assignment(n: usize, repeat: usize, range: std::ops::RangeInclusive<i64>) -> [f64; 2] {
    let mut times: [Vec<u64>; 2] = Default::default();
    for seed in 0..8 * repeat as u64 {
        let whole = whole_costs(n, seed, &range);
        let floats: Vec<f64> = whole.iter().map(|&c| c as f64).collect();
        let total = |rows: &[i64]| rows.iter().enumerate().map(|(i, &j)| whole[i * n + j as usize]).sum::<i64>();
        let (mut rows, mut others, mut columns) = ([0i64; 64], [0i64; 64], [0i64; 64]);
        let mut own = || timed(|| satinjacks::assign_whole(n, black_box(&whole), &mut rows[..n], &mut columns[..n]));
        let early = (seed % 2 == 0).then(&mut own);
        let by_floats = || satinjacks::assign(n, black_box(&floats), &mut others[..n], &mut [0; 64][..n]);
        let (time, answer) = timed(by_floats);
        answer.expect("sizes agree");
        times[1].push(time);
        let (time, answer) = early.unwrap_or_else(own);
        answer.expect("costs in range");
        times[0].push(time);
        assert!(total(&rows[..n]) <= total(&others[..n]), "whole costs {seed}: the f64 assignment is cheaper");
    }
    times.map(|mut t| median(&mut t))
}

/// What the goal says of a row: a ratio of at most 1, or at most 5 us above; nothing of the rows that it does not name.
fn verdict(row: &Row) -> &'static str {
    let [own, plain, _] = row.times;
    let met = match row.kind {
        Some(Kind::Steady) if row.count < 16 => own - plain <= 5000.0,
        Some(Kind::Crowd) if row.count < 32 => own - plain <= 5000.0,
        None => return "",
        _ => own <= plain,
    };
    if met {
        "yes"
    } else {
        "no"
    }
}

fn main() {
    let mut args = std::env::args().skip(1);
    let drawn = args.next().expect("bench SVG [PASSES [ONLY]]");
    let repeat: usize = args.next().map_or(25, |a| a.parse().expect("a number of passes"));
    let only = args.next();
    let mut wanted: Vec<(Kind, usize)> = Vec::new();
    wanted.extend([0, 1, 8, 16, 32, 64].map(|n| (Kind::Steady, n)));
    wanted.extend([8, 16, 32, 64].map(|n| (Kind::Crowd, n)));
    wanted.extend([16, 32].map(|n| (Kind::Crossings, n)));
    wanted.extend([16, 32].map(|n| (Kind::Gaps, n)));
    let named = wanted.into_iter().map(|(kind, count)| Scenario::of(kind, count));
    let mut scenarios: Vec<Scenario> = named.filter(|s| only.as_ref().is_none_or(|o| *o == s.name())).collect();
    // each pass goes through all rows, so that other load on the machine hits them alike
    for pass in 0..repeat {
        scenarios.iter_mut().for_each(|s| s.pass(pass));
    }
    let rows: Vec<Row> = scenarios.into_iter().flat_map(Scenario::rows).collect();
    println!("| frames | library, us | plain, us | comparison, us | library / plain | library / comparison | above plain, us | goal met |");
    println!("|---|--:|--:|--:|--:|--:|--:|---|");
    let show = |row: &Row| {
        let [own, plain, compared] = row.times;
        println!(
            "| {} | {:.2} | {:.2} | {:.2} | {:.2} | {:.2} | {:+.2} | {} |",
            row.name,
            own / 1e3,
            plain / 1e3,
            compared / 1e3,
            own / plain,
            own / compared,
            (own - plain) / 1e3,
            verdict(row)
        );
    };
    rows.iter().for_each(show);
    if only.is_some() {
        return;
    }
    show(&assignment(64, repeat));
    println!("\n| 64 by 64 whole costs | by whole numbers, us | by f64s, us | whole / f64 |");
    println!("|---|--:|--:|--:|");
    for (name, range) in [("random, -1,000,000 to 1,000,000", -1_000_000..=1_000_000), ("tied, 0 to 9", 0..=9)] {
        let [whole, floats] = whole_assignment(64, repeat, range);
        println!("| {name} | {:.2} | {:.2} | {:.2} |", whole / 1e3, floats / 1e3, whole / floats);
    }
    for kind in [Kind::Steady, Kind::Crowd] {
        let of = |n: usize| rows.iter().find(|r| r.kind == Some(kind) && r.count == n).map(|r| r.times).expect("a row");
        let grown = |who: usize| format!("{:+.0} us", (of(64)[who] - of(16)[who]) / 1e3);
        let (own, plain, compared) = (grown(0), grown(1), grown(2));
        println!("\nFrom 16 to 64, {}: library {own}, plain {plain}, comparison {compared}.", word(kind));
    }
    std::fs::write(&drawn, plot::svg(&rows)).expect("the plot is written");
}
