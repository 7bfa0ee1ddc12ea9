//! Runs of a tracker by seed: settings or a loaded state, and frames. Every run is of one family, which says what it tries.
use crate::random::Random;
use crate::session::Session;
use crate::words::put_f32;

#[derive(Clone, Debug)]
pub struct Frame {
    pub boxes: usize,
    pub ids: usize,
    pub numbers: Vec<f32>,
    /// How often it is given; above 1 it is one `repeat` line.
    pub times: usize,
}

#[derive(Clone, Debug)]
pub struct Run {
    pub family: &'static str,
    /// The `new` line, or the lines of a `load`.
    pub head: Vec<String>,
    pub frames: Vec<Frame>,
}

impl Frame {
    fn of(numbers: Vec<f32>) -> Frame {
        Frame { boxes: 256, ids: 64, numbers, times: 1 }
    }

    fn line(&self) -> String {
        let mut line = match self.times {
            1 => format!("frame {} {}", self.boxes, self.ids),
            k => format!("repeat {k} {} {}", self.boxes, self.ids),
        }
        .into_bytes();
        self.numbers.iter().for_each(|&x| put_f32(&mut line, x));
        String::from_utf8(line).unwrap()
    }
}

impl Run {
    /// The run's lines; the whole state is asked for by its hash after every frame, and once at the end.
    pub fn lines(&self) -> Vec<String> {
        let frames = self.frames.iter().flat_map(|f| [f.line(), "hash".to_string()]);
        self.head.iter().cloned().chain(frames).chain(["state".to_string()]).collect()
    }
}

#[derive(Clone)]
struct Settings {
    det: f32,
    iou: f32,
    inertia: f32,
    max_age: usize,
    min_hits: usize,
    delta_t: usize,
    byte: bool,
}

impl Settings {
    fn words(&self) -> String {
        let mut words = Vec::new();
        [self.det, self.iou, self.inertia].iter().for_each(|&x| put_f32(&mut words, x));
        let (a, h, d, b) = (self.max_age, self.min_hits, self.delta_t, self.byte as u8);
        format!("{} {a} {h} {d} {b}", String::from_utf8(words).unwrap())
    }
}

/// What a moving box does, and how it is seen.
struct Motion {
    movers: usize,
    frames: usize,
    area: f32,
    size: (f32, f32),
    speed: f32,
    noise: f32,
    /// Positions and sizes on whole numbers, so that overlaps tie.
    whole: bool,
    /// Unseen once in so many frames, 0 for never.
    miss: usize,
    /// Longest gap; 0 for no planned gaps.
    gap: usize,
    /// Scores around the thresholds.
    low_scores: bool,
    /// A mover leaves and another comes once in so many frames, 0 for never.
    turnover: usize,
    /// Once in so many objects a number is odd, 0 for never.
    odd: usize,
    /// Once in so many frames it is one to refuse, 0 for never.
    refused: usize,
}

struct Mover {
    at: [f32; 2],
    size: [f32; 2],
    speed: [f32; 2],
    /// Frames until it is next hidden, and for how long; then seen for one frame and hidden again, in pairs.
    seen: usize,
    hidden: usize,
    again: bool,
}

pub const FAMILIES: [&str; 12] =
    ["motion", "gaps", "crossing", "spares", "scores", "odd", "full", "refused", "settings", "loaded", "ties", "long"];

/// The run of a seed; its family follows from the seed.
pub fn run(seed: u64) -> Run {
    let mut r = Random::of(seed.wrapping_mul(0x2545_F491_4F6C_DD1D) ^ 0x5EED);
    let family = FAMILIES[(seed % FAMILIES.len() as u64) as usize];
    let mut set = settings(&mut r, family);
    let mut m = motion(&mut r);
    match family {
        "gaps" => (m.gap, m.miss) = (gap_limit(&set), 0),
        "crossing" => (m.movers, m.area, m.speed) = (r.within(4, 16), 60.0, 4.0),
        "spares" => (set.byte, m.low_scores, m.area) = (true, true, 120.0),
        "scores" => m.low_scores = true,
        "odd" => m.odd = r.within(2, 30),
        "full" => (m.movers, m.area, m.frames) = (r.within(50, 64), r.pick(&[300.0, 600.0, 4000.0]), r.within(10, 60)),
        "refused" => m.refused = 4,
        "ties" => (m.whole, m.area, m.noise, m.size) = (true, 64.0, 0.0, (16.0, 32.0)),
        "long" => m.frames = r.within(500, 1500),
        _ => {}
    }
    if family == "full" {
        set.max_age = r.pick(&[0, 1, 2, 3, 5, 30]);
        m.turnover = r.pick(&[2, 3, 10]);
        m.miss = r.pick(&[0, 4, 20]);
    }
    let frames = frames(&mut r, &m, &set);
    match family {
        "loaded" => loaded(&mut r, set, frames),
        _ => Run { family, head: vec![format!("new{}", set.words())], frames },
    }
}

fn settings(r: &mut Random, family: &str) -> Settings {
    let mut set = Settings { det: 0.5, iou: 0.3, inertia: 0.2, max_age: 30, min_hits: 3, delta_t: 3, byte: false };
    if r.once_in(2) || family == "settings" {
        set.max_age = r.pick(&[0, 1, 2, 3, 5, 8, 30, 254, 255]);
        set.min_hits = r.pick(&[0, 1, 2, 3, 5, 254, 255]);
        set.delta_t = r.below(9);
        set.byte = r.once_in(2);
    }
    if r.once_in(4) || family == "settings" {
        set.iou = r.pick(&[0.0, -0.0, 1e-6, 0.1, 0.3, 0.5, 0.9, 1.0]);
        set.inertia = r.pick(&[0.0, -0.0, 0.2, 0.5, 1.0]);
        set.det = r.pick(&[0.5, 0.1, 0.0, -0.0, -1.0, f32::INFINITY, f32::NEG_INFINITY, 0.05, 0.9, 1e30]);
    }
    if family == "settings" && r.once_in(10) {
        match r.below(6) {
            0 => set.det = f32::NAN,
            1 => set.iou = r.pick(&[-1e-6, 1.000_000_1, f32::NAN, f32::INFINITY]),
            2 => set.inertia = r.pick(&[-1e-6, 1.000_000_1, f32::NAN, f32::NEG_INFINITY]),
            3 => set.max_age = r.pick(&[256, 4_294_967_295]),
            4 => set.min_hits = r.pick(&[256, 1_000_000]),
            _ => set.delta_t = r.pick(&[9, 4_294_967_295]),
        }
    }
    set
}

fn motion(r: &mut Random) -> Motion {
    Motion {
        movers: r.within(1, 12),
        frames: r.within(10, 120),
        area: r.pick(&[80.0, 200.0, 600.0, 1500.0]),
        size: r.pick(&[(16.0, 48.0), (8.0, 90.0), (60.0, 120.0)]),
        speed: r.pick(&[0.0, 1.0, 3.0, 9.0]),
        noise: r.pick(&[0.0, 0.3, 1.0, 4.0]),
        whole: r.once_in(8),
        miss: r.pick(&[0, 0, 3, 10, 30]),
        gap: 0,
        low_scores: r.once_in(6),
        turnover: r.pick(&[0, 10, 40]),
        odd: 0,
        refused: 0,
    }
}

/// Past max_age, but not so long that a run is only gaps.
fn gap_limit(set: &Settings) -> usize {
    set.max_age.clamp(2, 260) + 2
}

fn mover(r: &mut Random, m: &Motion) -> Mover {
    let place = |r: &mut Random| {
        if m.whole {
            r.within(0, (m.area / 4.0) as usize) as f32 * 4.0
        } else {
            r.between(0.0, m.area)
        }
    };
    let side = |r: &mut Random| if m.whole { r.pick(&[m.size.0, m.size.1]) } else { r.between(m.size.0, m.size.1) };
    let speed = |r: &mut Random| if m.whole { r.within(0, 2) as f32 * 4.0 - 4.0 } else { r.between(-m.speed, m.speed) };
    Mover {
        at: [place(r), place(r)],
        size: [side(r), side(r)],
        speed: [speed(r), speed(r)],
        seen: r.within(1, 8),
        hidden: if m.gap > 0 { r.within(1, m.gap) } else { 0 },
        again: r.once_in(2),
    }
}

impl Mover {
    /// One frame on; whether it is seen in it.
    fn step(&mut self, r: &mut Random, m: &Motion) -> bool {
        self.at = [self.at[0] + self.speed[0], self.at[1] + self.speed[1]];
        if m.miss > 0 && r.once_in(m.miss) {
            return false;
        }
        if m.gap == 0 {
            return true;
        }
        if self.seen > 0 {
            self.seen -= 1;
            return true;
        }
        if self.hidden > 0 {
            self.hidden -= 1;
            return false;
        }
        // Seen again: for one frame where a second gap follows at once, else for some.
        self.seen = if self.again { 0 } else { r.within(1, 6) };
        self.again = r.once_in(2);
        self.hidden = match r.below(3) {
            0 => r.within(1, 4),
            1 => r.within(1, m.gap),
            _ => m.gap - r.below(4).min(m.gap - 1),
        };
        true
    }

    fn object(&self, r: &mut Random, m: &Motion, det: f32) -> [f32; 5] {
        let mut jitter = |v: f32| if m.whole { v } else { v + r.between(-m.noise, m.noise) };
        let b = [jitter(self.at[0]), jitter(self.at[1]), jitter(self.size[0]), jitter(self.size[1])];
        [b[0], b[1], b[2], b[3], score(r, m.low_scores, det)]
    }
}

fn score(r: &mut Random, low: bool, det: f32) -> f32 {
    let up = |x: f32| f32::from_bits(x.to_bits().wrapping_add(1));
    let down = |x: f32| f32::from_bits(x.to_bits().wrapping_sub(1));
    if !low {
        return r.between(0.55, 1.0);
    }
    match r.below(12) {
        0 => det,
        1 => up(det),
        2 => down(det),
        3 => r.pick(&[0.1, up(0.1), down(0.1)]),
        4 => r.pick(&[f32::NAN, -0.5, 0.0, f32::INFINITY, f32::NEG_INFINITY, 1e30]),
        5..=7 => r.between(0.1, 0.5),
        _ => r.between(0.5, 1.0),
    }
}

fn odd_number(r: &mut Random) -> f32 {
    match r.below(3) {
        0 => r.pattern(),
        _ => r.pick(&[
            f32::NAN,
            f32::INFINITY,
            f32::NEG_INFINITY,
            0.0,
            -0.0,
            1e-45,
            -1e-45,
            1e-39,
            1e19,
            -1e19,
            1e20,
            3.4e38,
            -3.4e38,
            1e30,
            -1.0,
            -64.0,
            1e-6,
            16_777_216.0,
        ]),
    }
}

fn frames(r: &mut Random, m: &Motion, set: &Settings) -> Vec<Frame> {
    let mut movers: Vec<Mover> = (0..m.movers).map(|_| mover(r, m)).collect();
    let mut frames = Vec::new();
    for _ in 0..m.frames {
        if m.turnover > 0 && r.once_in(m.turnover) {
            let leaves = r.below(movers.len());
            movers[leaves] = mover(r, m);
        }
        let mut numbers = Vec::new();
        for mover in &mut movers {
            if mover.step(r, m) {
                numbers.extend(mover.object(r, m, set.det));
            }
        }
        if m.odd > 0 {
            for x in &mut numbers {
                if r.once_in(5 * m.odd) {
                    *x = odd_number(r);
                }
            }
        }
        let mut frame = Frame::of(numbers);
        if m.refused > 0 && r.once_in(m.refused) {
            to_refuse(r, &mut frame);
        }
        if r.once_in(200) {
            frame.times = r.within(2, 6);
        }
        // Empty frames age tracks, so that a full table does not refuse the rest of the run.
        if r.once_in(40) {
            frame = Frame { times: r.pick(&[1, 2, set.max_age.min(300) + 2]), ..Frame::of(Vec::new()) };
        }
        frames.push(frame);
    }
    frames
}

/// Ragged, crowded, short of room, or several of these; sometimes just within what is allowed.
fn to_refuse(r: &mut Random, frame: &mut Frame) {
    let far = |i: usize| [i as f32 * 100.0, 5000.0, 50.0, 50.0, 0.9];
    match r.below(7) {
        0 => frame.numbers.truncate(frame.numbers.len().saturating_sub(r.within(1, 4))),
        1 => frame.numbers.push(1.0),
        2 => frame.numbers = (0..r.pick(&[63, 64, 65, 66, 100])).flat_map(far).collect(),
        3 => frame.boxes = r.pick(&[0, 1, 255, 257, 1000]),
        4 => frame.ids = r.pick(&[0, 63, 65, 100]),
        5 => (frame.boxes, frame.ids) = (255, 63),
        _ => {
            frame.numbers.extend((0..64).flat_map(far));
            frame.boxes = r.pick(&[255, 256]);
        }
    }
}

/// A state taken from a run, changed in one place or several, and loaded before the rest of the run.
fn loaded(r: &mut Random, set: Settings, frames: Vec<Frame>) -> Run {
    let cut = r.below(frames.len());
    let state = state_after(&set, &frames[..cut]);
    let mut lines = state.lines();
    let counts: Vec<usize> = lines.next().unwrap().split(' ').skip(1).map(|w| w.parse().unwrap()).collect();
    let tracks: Vec<String> = lines.map(str::to_string).collect();
    let (mut set, mut counts, mut tracks) = (set, counts, tracks);
    if r.once_in(2) {
        change(r, &mut set, &mut counts, &mut tracks);
    }
    let head = format!("load{} {} {} {}", set.words(), counts[0], counts[1], counts[2]);
    let head = [vec![head], tracks].concat();
    Run { family: "loaded", head, frames: frames[cut..].to_vec() }
}

fn state_after(set: &Settings, frames: &[Frame]) -> String {
    let (mut session, mut out) = (Session::new(), Vec::new());
    session.line(&format!("new{}", set.words()), &mut out);
    for frame in frames {
        session.line(&frame.line(), &mut out);
    }
    out.clear();
    session.line("state", &mut out);
    String::from_utf8(out).unwrap()
}

/// Changes that leave a state sound, and ones that break a rule.
fn change(r: &mut Random, set: &mut Settings, counts: &mut [usize], tracks: &mut [String]) {
    match r.below(10) {
        0 => counts[0] = r.pick(&[999_998, 999_999, 1_000_000, 1_000_001, 4_294_967_295]),
        1 => counts[1] = r.pick(&[64 * counts[0], 64 * counts[0] + 1, 0, counts[1].saturating_sub(1)]),
        2 => set.max_age = r.pick(&[0, 1, 255, 256]),
        3 => set.iou = r.pick(&[0.5, f32::NAN, -1.0]),
        4 => set.det = r.pick(&[f32::NAN, 0.2]),
        5 => set.delta_t = r.pick(&[0, 8, 9]),
        6..=7 => change_word(r, tracks, "track"),
        _ => {
            let line = r.pick(&["x", "p", "sx", "sp", "dir", "list"]);
            change_word(r, tracks, line);
        }
    }
}

/// One word of one of the lines that start so.
fn change_word(r: &mut Random, tracks: &mut [String], start: &str) {
    let places: Vec<usize> = (0..tracks.len()).filter(|&i| tracks[i].split(' ').next() == Some(start)).collect();
    if places.is_empty() {
        return;
    }
    let line = &mut tracks[r.pick(&places)];
    let mut words: Vec<String> = line.split(' ').map(str::to_string).collect();
    // The last word of a track line says which lines follow, so it stays.
    let last = words.len() - if start == "track" { 2 } else { 1 };
    let at = r.within(1, last);
    if words[at] == "none" {
        return;
    }
    words[at] = if start == "track" {
        let old: usize = words[at].parse().unwrap();
        r.pick(&[0, old + 1, old.saturating_sub(1), old + 1000]).to_string()
    } else {
        let x = if r.once_in(3) { odd_number(r) } else { r.between(-100.0, 100.0) };
        format!("{:08X}", if x.is_nan() { 0x7FC0_0000 } else { x.to_bits() })
    };
    *line = words.join(" ");
}
