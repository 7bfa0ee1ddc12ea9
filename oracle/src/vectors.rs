//! The lines that need no tracker, by kind: patterns around every boundary, and seeded random ones.
use crate::random::Random;
use crate::runs;
use crate::words::put_f64;

/// Patterns around the class boundaries, without their sign.
const EDGES: [u32; 27] = [
    0x0000_0000,
    0x0000_0001,
    0x0000_0002,
    0x0000_0003,
    0x0040_0000,
    0x007F_FFFE,
    0x007F_FFFF,
    0x0080_0000,
    0x0080_0001,
    0x00FF_FFFF,
    0x0100_0000,
    0x3EFF_FFFF,
    0x3F00_0000,
    0x3F00_0001,
    0x3F7F_FFFF,
    0x3F80_0000,
    0x3F80_0001,
    0x3FFF_FFFF,
    0x4000_0000,
    0x4B7F_FFFF,
    0x7F7F_FFFE,
    0x7F7F_FFFF,
    0x7F80_0000,
    0x7F80_0001,
    0x7FBF_FFFF,
    0x7FC0_0000,
    0x7FFF_FFFF,
];

pub const KINDS: [&str; 12] = [
    "floats",
    "matrices",
    "lap",
    "lapint",
    "boxes",
    "filter",
    "assoc",
    "states",
    "calls",
    "runs",
    "shortcuts",
    "lapreads",
];

/// All lines of a kind.
pub fn lines(kind: &str, seed: u64) -> Vec<u8> {
    let mut v = Vectors { random: Random::of(seed), out: Vec::new() };
    match kind {
        "floats" => v.floats(),
        "matrices" => v.matrices(),
        "lap" => v.laps("lap", |n| n % 8 == 0 || n < 24 || n > 62),
        "lapreads" => v.laps("lapreads", |n| n % 16 == 0 || n < 12),
        "lapint" => v.whole_laps(),
        "boxes" => v.boxes(),
        "filter" => v.filters(),
        "assoc" => v.assocs(),
        "states" => v.states(),
        "calls" => v.calls(),
        "runs" => v.runs(),
        "shortcuts" => v.shortcuts(),
        _ => panic!("no such kind: {kind}"),
    }
    v.out
}

struct Vectors {
    random: Random,
    out: Vec<u8>,
}

/// Both signs of the edges.
fn edges() -> Vec<f32> {
    EDGES.iter().flat_map(|&b| [f32::from_bits(b), f32::from_bits(b | 0x8000_0000)]).collect()
}

impl Vectors {
    fn line(&mut self, words: &str, numbers: &[f32]) {
        self.out.extend(words.as_bytes());
        for &x in numbers {
            self.put_raw(x);
        }
        self.out.push(b'\n');
    }

    /// A pattern as it is: a NaN keeps its bits.
    fn put_raw(&mut self, x: f32) {
        self.out.extend(format!(" {:08X}", x.to_bits()).as_bytes());
    }

    fn floats(&mut self) {
        let mut roots = edges();
        for root in (1..=64).chain([1000, 2047, 2048, 2049, 4094, 4095, 4096]) {
            let square = ((root * root) as f32).to_bits();
            roots.extend([square - 1, square, square + 1].map(f32::from_bits));
        }
        roots.extend((0..200).map(|_| f32::from_bits(self.random.bits() as u32 & 0x7FFF_FFFF)));
        for x in roots {
            self.line("sqrt", &[x]);
        }
        let mut angles = edges();
        angles.extend((0..300).map(|_| self.random.between(-1.0, 1.0)));
        angles.extend((0..50).map(|_| self.random.pattern()));
        for x in angles {
            self.line("acos", &[x]);
        }
        let mut any = edges();
        any.extend((0..200).map(|_| self.random.pattern()));
        for x in any {
            self.line("widen", &[x]);
            self.line("clamp", &[x]);
        }
        // each biased exponent once, and subnormals with their leading digit at each place, all others 0 or all 1
        let exponents = (0..256).map(|e: u32| e << 31 | e << 23 | (e + 1).wrapping_mul(0x9E_3779) & 0x7F_FFFF);
        let places = (0..23).flat_map(|k| [1 << k, (2 << k) - 1]).flat_map(|b: u32| [b, b | 0x8000_0000]);
        for b in exponents.chain(places) {
            self.line("widen", &[f32::from_bits(b)]);
        }
        let some: Vec<f32> = edges().into_iter().step_by(3).collect();
        for &a in &some {
            for &b in &some {
                self.line("max", &[a, b]);
                self.line("min", &[a, b]);
            }
        }
    }

    /// A number of a kind: ordinary, whole, of any size, or one of the edges.
    fn number(&mut self, kind: usize) -> f32 {
        match kind {
            0 => self.random.between(-100.0, 100.0),
            1 => self.random.within(0, 8) as f32 - 4.0,
            2 => self.random.between(-1.0, 1.0) * 10f32.powi(self.random.within(0, 60) as i32 - 30),
            3 if self.random.once_in(4) => self.random.pattern(),
            _ if self.random.once_in(3) => {
                let edges = edges();
                self.random.pick(&edges)
            }
            _ => self.random.between(-100.0, 100.0),
        }
    }

    fn numbers(&mut self, count: usize, kind: usize) -> Vec<f32> {
        (0..count).map(|_| self.number(kind)).collect()
    }

    fn matrices(&mut self) {
        for (n, k, m) in [(7, 7, 1), (7, 7, 7), (7, 7, 4), (4, 7, 1), (4, 7, 4), (7, 4, 4), (7, 4, 1), (7, 4, 7)] {
            for case in 0..15 {
                let numbers = self.numbers(n * k + k * m, case % 5);
                self.line(&format!("product {n} {k} {m}"), &numbers);
            }
        }
        for case in 0..150 {
            let mut s = self.numbers(16, case % 5);
            if case % 3 == 0 {
                (0..4).for_each(|i| s[5 * i] = 400.0 + s[5 * i].abs());
            }
            if case % 7 == 1 {
                let unusable = [0.0, -0.0, f32::NAN, f32::from_bits(0xFFC0_0001)];
                s[5 * (case / 7 % 4)] = self.random.pick(&unusable);
            }
            if case % 7 == 2 {
                // The second row is a multiple of the first, so that a later pivot is 0.
                (0..4).for_each(|j| s[4 + j] = 2.0 * s[j]);
            }
            self.line("inverse", &s);
        }
    }

    fn lap_line(&mut self, word: &str, n: usize, x: usize, y: usize, costs: &[f64]) {
        self.out.extend(format!("{word} {n} {x} {y}").as_bytes());
        for &c in costs {
            self.out.push(b' ');
            put_f64(&mut self.out, c);
        }
        self.out.push(b'\n');
    }

    /// A matrix of a kind, n by n.
    fn costs(&mut self, n: usize, kind: usize) -> Vec<f64> {
        let r = &mut self.random;
        let unit = |r: &mut Random| (r.bits() >> 11) as f64 / (1u64 << 53) as f64;
        let rank: Vec<f64> = (0..2 * n).map(|_| r.within(1, 9) as f64).collect();
        let special = [f64::NAN, f64::INFINITY, f64::NEG_INFINITY, 1e308, -1e308, -0.0, 0.0, 5e-324];
        let bad_row = r.below(n);
        let cost = |r: &mut Random, i: usize, j: usize| match kind {
            0 => unit(r),
            1 => -unit(r),
            2 => r.below(3) as f64,
            3 => r.below(2) as f64 - 0.0,
            4 => 7.25,
            5 => rank[i] * rank[n + j],
            6 if i == bad_row => f64::NAN,
            7 if r.once_in(6) => r.pick(&special),
            8 => r.pick(&special),
            9 => unit(r) * 2e6,
            10 if j >= n - n / 3 => 1e5,
            10 => -unit(r),
            _ => (r.below(10) * r.below(10)) as f64,
        };
        (0..n * n).map(|q| cost(r, q / n, q % n)).collect()
    }

    /// Matrices of every kind, of the sizes asked for, and sizes to refuse.
    fn laps(&mut self, word: &str, is_asked: fn(usize) -> bool) {
        const COSTS: usize = 12;
        for n in (1..=64).filter(|&n| is_asked(n)) {
            let cases = if n <= 6 {
                3 * COSTS
            } else if n <= 16 {
                COSTS
            } else {
                3
            };
            for case in 0..cases {
                let kind = if n <= 16 { case } else { case * 4 + n };
                let costs = self.costs(n, kind % COSTS);
                self.lap_line(word, n, n, n, &costs);
            }
        }
        for (n, x, y, given) in
            [(0, 0, 0, 0), (65, 65, 65, 4225), (2, 2, 2, 3), (2, 2, 2, 5), (2, 1, 2, 4), (2, 2, 3, 4)]
        {
            self.lap_line(word, n, x, y, &vec![1.0; given]);
        }
    }

    fn whole_lap_line(&mut self, n: usize, x: usize, y: usize, costs: &[i64]) {
        self.out.extend(format!("lapint {n} {x} {y}").as_bytes());
        for c in costs {
            self.out.extend(format!(" {c}").as_bytes());
        }
        self.out.push(b'\n');
    }

    /// A matrix of whole costs of a kind, n by n; the ends of the range and ties are in most.
    fn whole_costs(&mut self, n: usize, kind: usize) -> Vec<i64> {
        const END: i64 = 1_000_000;
        let r = &mut self.random;
        let rank: Vec<i64> = (0..2 * n).map(|_| r.below(2001) as i64 - 1000).collect();
        let cost = |r: &mut Random, i: usize, j: usize| match kind {
            0 => r.below(2_000_001) as i64 - END,
            1 => r.below(3) as i64,
            2 => r.pick(&[END, -END]),
            3 => r.pick(&[END, -END, 0, END - 1, 1 - END]),
            4 => rank[i] * rank[n + j],
            5 if r.once_in(n) => r.below(2) as i64 - END,
            5 => END - r.below(4) as i64,
            6 if j <= i => 1000 * r.below(4) as i64 - END,
            6 => END,
            7 if j == 0 => -END,
            7 => r.below(10) as i64 - if i == j { END / 2 } else { 0 },
            8 => 7,
            _ => (rank[i] + rank[n + j]) * 400 + r.below(3) as i64,
        };
        (0..n * n).map(|q| cost(r, q / n, q % n)).collect()
    }

    fn whole_laps(&mut self) {
        const COSTS: usize = 10;
        for n in (1..=64).filter(|n| n % 8 == 0 || *n < 24 || *n > 62) {
            let cases = if n <= 9 {
                3 * COSTS
            } else if n <= 16 {
                COSTS
            } else {
                3
            };
            for case in 0..cases {
                let kind = if n <= 16 { case } else { case * 3 + n };
                let costs = self.whole_costs(n, kind % COSTS);
                self.whole_lap_line(n, n, n, &costs);
            }
        }
        for (n, x, y, given) in
            [(0, 0, 0, 0), (65, 65, 65, 4225), (2, 2, 2, 3), (2, 2, 2, 5), (2, 1, 2, 4), (2, 2, 3, 4)]
        {
            self.whole_lap_line(n, x, y, &vec![1; given]);
            self.whole_lap_line(n, x, y, &vec![2_000_000; given]);
        }
        for cost in [1_000_001, -1_000_001, i64::MAX, i64::MIN, 1_000_000, -1_000_000] {
            for place in 0..4 {
                let mut costs = [0; 4];
                costs[place] = cost;
                self.whole_lap_line(2, 2, 2, &costs);
            }
        }
        for word in ["9223372036854775808", "-9223372036854775809", "-", "+1", "1.", "", "00000000000000000000"] {
            self.out.extend(format!("lapint 1 1 1 {word}\n").as_bytes());
        }
    }

    /// Corners and whatever stands behind them: mostly a box, sometimes odd numbers.
    fn corners(&mut self, case: usize) -> [f32; 4] {
        if case % 4 == 3 {
            return self.numbers(4, 4).try_into().unwrap();
        }
        let (x, y) = (self.number(0), self.number(0));
        let (w, h) = (self.random.between(0.0, 80.0), self.random.between(0.0, 80.0));
        let whole = |v: f32| if case % 4 == 1 { v.round() } else { v };
        [whole(x), whole(y), whole(x) + whole(w), whole(y) + whole(h)]
    }

    fn boxes(&mut self) {
        for case in 0..200 {
            let (a, b) = (self.corners(case), self.corners(case));
            self.line("measure", &a);
            self.line("iou", &[a, b].concat());
            self.line("dir", &[a, b].concat());
            let (s, r) = (self.random.between(0.0, 4000.0), self.random.between(0.1, 3.0));
            let given = if case % 4 == 3 { self.numbers(4, 3) } else { vec![a[0], a[1], s, r] };
            self.line("box", &given);
        }
    }

    /// Numbers of a filter as runs have them, or any.
    fn filter(&mut self, case: usize) -> Vec<f32> {
        if case % 4 == 3 {
            return self.numbers(56, 4);
        }
        let mut x = self.numbers(7, 0);
        x[2] = self.random.between(1.0, 5000.0);
        x[3] = self.random.between(0.2, 3.0);
        let half: Vec<f32> = self.numbers(49, 0).iter().map(|v| v / 100.0).collect();
        let symmetric = |q: usize| half[q] + half[q % 7 * 7 + q / 7] + if q / 7 == q % 7 { 10.0 } else { 0.0 };
        x.extend((0..49).map(symmetric));
        x
    }

    fn filters(&mut self) {
        for case in 0..60 {
            let filter = self.filter(case);
            self.line("predict", &filter);
            let z = [self.number(0), self.number(0), self.random.between(1.0, 5000.0), self.random.between(0.2, 3.0)];
            self.line("update", &[&z, &filter[..]].concat());
        }
        for case in 0..60 {
            let gap = if case < 20 { case + 2 } else { self.random.pick(&[2, 3, 30, 31, 100, 255, 256]) };
            let filter = self.filter(case);
            let a = [filter[0], filter[1], filter[2], filter[3]];
            let z = [a[0] + gap as f32, a[1] - 2.0 * gap as f32, a[2] * 1.25, a[3] * 0.75];
            self.line(&format!("replay {gap}"), &[&a, &z, &filter[..]].concat());
        }
    }

    fn assocs(&mut self) {
        const LARGE: [(usize, usize); 8] = [(64, 64), (64, 0), (0, 64), (64, 63), (33, 64), (64, 7), (7, 64), (0, 0)];
        for case in 0..240 {
            let counts = [0, 1, 2, 3, 5, 8, 13];
            let mut sizes = (self.random.pick(&counts), self.random.pick(&counts));
            if case % 15 == 14 {
                sizes = LARGE[case / 15 % LARGE.len()];
            }
            self.assoc(case, sizes);
        }
        (0..40).for_each(|case| self.crossing(case));
    }

    /// Each size of document 02, 2.14, and sizes that it leaves out.
    fn shortcuts(&mut self) {
        let sizes = (0..=5).flat_map(|rows| (0..=5).map(move |columns| (rows, columns)));
        for (rows, columns) in sizes.chain([(64, 64), (4, u32::MAX), (u32::MAX, 4), (u32::MAX, u32::MAX)]) {
            self.line(&format!("shortcuts {rows} {columns}"), &[]);
        }
    }

    fn assoc_settings(&mut self) -> Vec<f32> {
        vec![self.random.pick(&[0.3, 0.3, 0.3, 0.0, -0.0, 1.0, 0.05]), self.random.pick(&[0.2, 0.2, 0.0, 1.0])]
    }

    /// Objects on or near the tracks, or anywhere; every fourth case on whole numbers, every fourth with odd ones.
    fn assoc(&mut self, case: usize, (nd, nt): (usize, usize)) {
        let mut numbers = self.assoc_settings();
        let tracks: Vec<[f32; 4]> = (0..nt).map(|_| self.crowd(case)).collect();
        for d in 0..nd {
            let near = tracks.get(d).copied().filter(|_| self.random.once_in(2));
            let shift = if self.random.once_in(4) { 0.0 } else { self.random.between(-6.0, 6.0) };
            let corners = near.map_or_else(|| self.crowd(case), |b| b.map(|v| v + shift));
            numbers.extend(corners);
            let score = match case % 4 {
                2 => self.random.between(-1.0, 1.0),
                3 => self.number(4),
                _ => self.random.between(0.1, 1.0),
            };
            numbers.push(score);
        }
        numbers.extend(tracks.concat());
        for _ in 0..nt {
            let known = !self.random.once_in(4);
            let (dy, dx) = (self.random.between(-1.0, 1.0), self.random.between(-1.0, 1.0));
            numbers.extend(if known { [dy, dx] } else { [0.0, 0.0] });
        }
        for _ in 0..nt {
            let seen = !self.random.once_in(4);
            let corners = self.crowd(case);
            numbers.extend(if seen { corners } else { [-1.0; 4] });
            numbers.push(if seen { 0.9 } else { -1.0 });
        }
        self.line(&format!("assoc {nd} {nt}"), &numbers);
    }

    /// Two tracks, or four, that meet from opposite sides, so that the direction decides, or the order where nothing else does.
    fn crossing(&mut self, case: usize) {
        let n = 2 + case % 2 * 2;
        let meet = self.random.between(20.0, 60.0);
        let (step, shift) = (self.random.between(2.0, 12.0), self.random.pick(&[0.0, 0.0, 1.0, 3.0]));
        let side = |i: usize| if i % 2 == 0 { 1.0f32 } else { -1.0 };
        let at = |x: f32, i: usize| [x, 10.0 + 4.0 * (i / 2) as f32, x + 16.0, 42.0 + 4.0 * (i / 2) as f32];
        let mut numbers = self.assoc_settings();
        for i in 0..n {
            numbers.extend(at(meet - side(i) * shift, i));
            numbers.push(0.9);
        }
        (0..n).for_each(|i| numbers.extend(at(meet + side(i) * shift, i)));
        (0..n).for_each(|i| numbers.extend([0.0, side(i)]));
        for i in 0..n {
            numbers.extend(at(meet - side(i) * step, i));
            numbers.push(0.8);
        }
        self.line(&format!("assoc {n} {n}"), &numbers);
    }

    /// States that runs come to, sound and unsound, loaded and shown.
    fn states(&mut self) {
        let loads = (0..).map(|_| runs::run(self.random.bits())).filter(|r| r.family == "loaded");
        for run in loads.take(30).collect::<Vec<_>>() {
            self.out.extend(run.head.join("\n").as_bytes());
            self.out.extend(b"\nhash\nstate\n");
        }
    }

    fn text(&mut self, line: &str) {
        self.out.extend(line.as_bytes());
        self.out.push(b'\n');
    }

    /// A frame on the usual buffers, and the state's hash behind it.
    fn frame(&mut self, numbers: &[f32]) {
        self.line("frame 256 64", numbers);
        self.text("hash");
    }

    /// Each line in its plain forms: what is asked of no tracker, every setting at and past its ends, each refusal, what can't be
    /// read, a track that is lost twice, and an overlap at the threshold.
    fn calls(&mut self) {
        const USUAL: [&str; 7] = ["3F000000", "3E99999A", "3E4CCCCD", "30", "3", "3", "0"];
        const GIVEN: [&[&str]; 7] = [
            &["7FC00000", "FFC00001", "7F800000", "FF800000", "80000000", "BF800000"],
            &["7FC00000", "80000001", "80000000", "00000000", "3F800000", "3F800001", "7F800000"],
            &["7FC00000", "80000001", "80000000", "00000000", "3F800000", "3F800001", "FF800000"],
            &["0", "255", "256", "4294967295", "4294967296", "-1"],
            &["0", "255", "256", "4294967295", "4294967296"],
            &["0", "8", "9", "4294967295", "x"],
            &["0", "1", "2"],
        ];
        for line in ["frame 256 64", "repeat 2 256 64", "state", "hash", "# a remark", "", "no such line"] {
            self.text(line);
        }
        for (i, given) in GIVEN.iter().enumerate() {
            for word in *given {
                let mut words = USUAL;
                words[i] = word;
                self.text(&format!("new {}", words.join(" ")));
                self.frame(&[10.0, 10.0, 20.0, 40.0, 0.9]);
            }
        }
        let usual = format!("new {}", USUAL.join(" "));
        self.text(&usual);
        for line in
            ["new", "new 3F000000", "frame", "frame 256", "frame 256 64 3F80000", "frame 256 64 3f800000", "hash 1"]
        {
            self.text(line);
        }
        for line in ["repeat 0 256 64", "repeat 256 64", "frame 256 64 ", "frame  256 64", "Frame 256 64", "state 1"] {
            self.text(line);
        }
        self.text("state");
        self.refusals();
        self.text(&usual);
        self.lost_twice(3);
        self.text(&format!("{} 1", usual.strip_suffix(" 0").unwrap()));
        self.lost_twice(29);
        self.text(&usual);
        self.lost_twice(31);
        self.at_threshold();
    }

    /// A round on spares that pairs one at an overlap of just the threshold, 0, beside one above it.
    fn at_threshold(&mut self) {
        let (unit, point) = ([0.0, 0.0, 1.0, 1.0], [0.0; 4]);
        let seen = |b: [f32; 4], score: f32| [b[0], b[1], b[2], b[3], score];
        self.text("new 3F666666 00000000 00000000 2 0 0 1");
        self.frame(&[seen(unit, 1.0), seen(unit, 1.0)].concat());
        self.frame(&[seen(point, 0.2), seen(unit, 0.875)].concat());
        self.text("state");
    }

    /// Each row of the table of refusals alone and with the rows behind it, then a table that is full to the last place.
    fn refusals(&mut self) {
        let far = |n: usize| (0..n).flat_map(|i| [i as f32 * 100.0, 5000.0, 50.0, 50.0, 0.9]).collect::<Vec<f32>>();
        self.frame(&far(3)[..14]);
        self.frame(&far(65));
        self.frame(&far(100)[..499]);
        for (boxes, ids) in [(255u32, 64u32), (256, 63), (0, 0), (1024, 256), (4_294_967_295, 4_294_967_295)] {
            self.line(&format!("frame {boxes} {ids}"), &far(2));
            self.line(&format!("frame {boxes} {ids}"), &far(2)[1..]);
        }
        self.frame(&far(64));
        self.frame(&[1.0, 1.0, 5.0, 5.0, 0.9]);
        self.line("repeat 3 256 64", &far(64));
        self.line("repeat 40 256 64", &[]);
        self.frame(&far(64));
        self.text("state");
        for frames in [999_999, 1_000_000, 1_000_001] {
            self.text(&format!("load 3F000000 3E99999A 3E4CCCCD 30 3 3 0 {frames} 5 0"));
            self.text("end");
            self.frame(&far(2));
            self.frame(&far(2));
        }
    }

    /// A track that is seen, then unseen for a number of frames, seen once, and unseen again.
    fn lost_twice(&mut self, gap: usize) {
        let at = |i: usize| [40.0 + 3.0 * i as f32, 50.0 + i as f32, 30.0, 60.0, 0.9];
        (0..5).for_each(|i| self.frame(&at(i)));
        (0..gap).for_each(|_| self.frame(&[]));
        self.frame(&at(5 + gap));
        (0..gap).for_each(|_| self.frame(&[]));
        (6 + 2 * gap..10 + 2 * gap).for_each(|i| self.frame(&at(i)));
        self.text("state");
    }

    /// Runs of each family, cut to a length at which many fit.
    fn runs(&mut self) {
        for family in 0..runs::FAMILIES.len() as u64 {
            let (count, longest) = match runs::FAMILIES[family as usize] {
                "full" => (5, 24),
                "long" => (1, 500),
                _ => (6, 60),
            };
            for _ in 0..count {
                let seed = self.random.bits() / 24 * 12 + family;
                let mut run = runs::run(seed);
                run.frames.truncate(longest);
                self.text(&format!("# {} {seed}", run.family));
                run.lines().iter().for_each(|line| self.text(line));
            }
        }
    }

    /// Boxes so close that many overlap; on whole numbers in some cases, so that overlaps tie.
    fn crowd(&mut self, case: usize) -> [f32; 4] {
        if case % 4 == 3 && self.random.once_in(3) {
            return self.numbers(4, 4).try_into().unwrap();
        }
        let whole = case % 4 == 1;
        let mut at = || if whole { self.random.within(0, 12) as f32 * 4.0 } else { self.random.between(0.0, 60.0) };
        let (x, y) = (at(), at());
        let (w, h) =
            if whole { (16.0, 16.0) } else { (self.random.between(8.0, 30.0), self.random.between(8.0, 30.0)) };
        [x, y, x + w, y + h]
    }
}
