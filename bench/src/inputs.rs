//! The frames to be timed, settled by a seed.

#[path = "../../oracle/src/random.rs"]
#[allow(dead_code)]
mod random;

use random::Random;

/// x, y, width, height, score of each object.
pub type Frame = Vec<[f32; 5]>;

/// Frames before the timed ones: births, and kept boxes to fill.
pub const WARM: usize = 20;
pub const TIMED: usize = 120;

#[derive(Clone, Copy, PartialEq)]
pub enum Kind {
    /// Boxes apart, each drifting, so slowly that none ever meets another.
    Steady,
    /// Boxes that overlap their neighbours beyond the threshold, so that the assignment runs.
    Crowd,
    /// Pairs that walk through one another.
    Crossings,
    /// Boxes apart, every other one hidden for `GAP` frames of each `ROUND`: the frame that brings them back replays those.
    Gaps,
}

const GAP: usize = 12;
const ROUND: usize = 24;

const SIDE: f32 = 64.0;

pub fn frames(kind: Kind, count: usize) -> Vec<Frame> {
    let mut random = Random::of(0x5A71 + 64 * kind as u64 + count as u64);
    let columns = (count as f32).sqrt().ceil() as usize;
    let apart = if kind == Kind::Crowd { 0.45 * SIDE } else { 3.0 * SIDE };
    let place = |i: usize| ((i % columns) as f32 * apart, (i / columns) as f32 * apart);
    let speeds: Vec<(f32, f32)> = (0..count).map(|_| (random.between(-0.4, 0.4), random.between(-0.4, 0.4))).collect();
    let frame = |t: usize, random: &mut Random| {
        let object = |i: usize| {
            let now = t as f32;
            let (x, y) = match kind {
                // neighbours i and i+1 start 160 apart and meet half way, again and again
                Kind::Crossings => {
                    let phase = ((now * 4.0 + (i / 2) as f32 * 20.0) % 320.0 - 160.0).abs();
                    let (x, y) = (((i / 2) % 4) as f32 * 400.0, (i / 8) as f32 * 200.0 + (i % 2) as f32 * 12.0);
                    (x + if i % 2 == 0 { phase } else { 160.0 - phase }, y)
                }
                // the crowd moves as one, so that it stays a crowd
                Kind::Crowd => (place(i).0 + now * 1.5, place(i).1 + now * 0.5),
                Kind::Steady | Kind::Gaps => (place(i).0 + speeds[i].0 * now, place(i).1 + speeds[i].1 * now),
            };
            let mut noise = || random.between(-1.0, 1.0);
            let (x, y, width, height) = (x + noise(), y + noise(), SIDE + noise(), SIDE + noise());
            [x, y, width, height, random.between(0.7, 0.95)]
        };
        let all: Frame = (0..count).map(object).collect();
        all.into_iter().enumerate().filter(|&(i, _)| !hidden(kind, i, t)).map(|(_, o)| o).collect()
    };
    (0..WARM + TIMED).map(|t| frame(t, &mut random)).collect()
}

fn hidden(kind: Kind, i: usize, t: usize) -> bool {
    kind == Kind::Gaps && i % 2 == 0 && t >= WARM && (t - WARM) % ROUND < GAP
}

/// Whether frame t of the gaps brings the hidden boxes back.
pub fn is_return(t: usize) -> bool {
    hidden(Kind::Gaps, 0, t - 1) && !hidden(Kind::Gaps, 0, t)
}

/// Costs of n rows and n columns as a crowd's would be: below zero near the diagonal, otherwise 0.
pub fn costs(n: usize, seed: u64) -> Vec<f64> {
    let mut random = Random::of(seed);
    let cost = |k: usize, random: &mut Random| {
        let far = (k / n).abs_diff(k % n);
        if far < 6 {
            -f64::from(random.between(0.0, 1.0))
        } else {
            0.0
        }
    };
    (0..n * n).map(|k| cost(k, &mut random)).collect()
}

/// Whole costs of n rows and n columns within a range.
pub fn whole_costs(n: usize, seed: u64, range: &std::ops::RangeInclusive<i64>) -> Vec<i64> {
    let mut random = Random::of(seed);
    let count = (range.end() - range.start() + 1) as usize;
    (0..n * n).map(|_| range.start() + random.below(count) as i64).collect()
}
