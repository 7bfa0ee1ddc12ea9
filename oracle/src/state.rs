//! The whole state of a tracker as plain values, the rules it has to keep, and its text.
use crate::oc_sort_tracker::convert_bbox_to_z;
use crate::words::{put_f32, put_f32s, put_whole};

#[derive(Clone, Debug)]
pub struct Settings {
    pub det_thresh: f32,
    pub iou_threshold: f32,
    pub inertia: f32,
    pub max_age: usize,
    pub min_hits: usize,
    pub delta_t: usize,
    pub use_byte: bool,
}

#[derive(Clone, Debug)]
pub struct Filter {
    pub x: [f32; 7],
    pub p: [f32; 49],
}

#[derive(Clone, Debug)]
pub struct Track {
    pub id: usize,
    pub age: usize,
    pub streak: usize,
    pub since: usize,
    pub filter: Filter,
    /// There exactly if the track is frozen.
    pub saved: Option<Filter>,
    pub last: Option<[f32; 5]>,
    pub list: Option<[f32; 4]>,
    pub dir: Option<[f32; 2]>,
    /// The boxes at the track's age and the seven before it.
    pub kept: [Option<[f32; 5]>; 8],
    pub newest: Option<[f32; 5]>,
}

#[derive(Clone, Debug)]
pub struct State {
    pub settings: Settings,
    pub frames: usize,
    pub ids: usize,
    /// The table's count, which can exceed the tracks that were given.
    pub count: usize,
    pub tracks: Vec<Track>,
}

impl Settings {
    pub fn in_range(&self) -> bool {
        let unit = 0.0..=1.0;
        !self.det_thresh.is_nan()
            && unit.contains(&self.iou_threshold)
            && unit.contains(&self.inertia)
            && self.max_age <= 255
            && self.min_hits <= 255
            && self.delta_t <= 8
    }
}

impl Filter {
    pub fn of(x: &nalgebra::SMatrix<f32, 7, 1>, p: &nalgebra::SMatrix<f32, 7, 7>) -> Filter {
        Filter { x: x.rows().try_into().unwrap(), p: p.rows().try_into().unwrap() }
    }
}

impl Track {
    fn is_sound(&self, frames: usize, max_age: usize) -> bool {
        let unseen = self.since == self.age;
        self.age <= frames
            && self.streak <= self.age
            && self.since <= self.age
            && self.since <= max_age
            && self.list.is_some() == self.last.is_some()
            && (cfg!(feature = "restored") || self.list_is_last())
            && !(unseen && self.last.is_some())
            && self.saved.is_some() == (self.last.is_some() && self.since > 0)
    }

    /// Where both are there, the list box is the last box as measured, number by number; all NaNs are one.
    fn list_is_last(&self) -> bool {
        let (Some(list), Some(last)) = (self.list, self.last) else { return true };
        let measured = convert_bbox_to_z(&last);
        let same = |i: usize| list[i].to_bits() == measured[i].to_bits() || list[i].is_nan() && measured[i].is_nan();
        (0..4).all(same)
    }

    fn put(&self, out: &mut Vec<u8>) {
        out.extend(b"track");
        for n in [self.id, self.age, self.streak, self.since, self.saved.is_some() as usize] {
            put_whole(out, n);
        }
        put_line(out, "\nx", Some(&self.filter.x));
        put_line(out, "p", Some(&self.filter.p));
        if let Some(saved) = &self.saved {
            put_line(out, "sx", Some(&saved.x));
            put_line(out, "sp", Some(&saved.p));
        }
        put_line(out, "last", self.last.as_ref());
        put_line(out, "list", self.list.as_ref());
        put_line(out, "dir", self.dir.as_ref());
        for (i, kept) in self.kept.iter().enumerate() {
            put_line(out, ["kept0", "kept1", "kept2", "kept3", "kept4", "kept5", "kept6", "kept7"][i], kept.as_ref());
        }
        put_line(out, "newest", self.newest.as_ref());
    }
}

fn put_line<const N: usize>(out: &mut Vec<u8>, word: &str, numbers: Option<&[f32; N]>) {
    out.extend(word.as_bytes());
    match numbers {
        Some(numbers) => put_f32s(out, numbers),
        None => out.extend(b" none"),
    }
    out.push(b'\n');
}

impl State {
    pub fn is_sound(&self) -> bool {
        let rising = |w: &[Track]| w[0].id < w[1].id;
        self.settings.in_range()
            && self.frames <= 1_000_000
            && self.ids <= 64 * self.frames
            && self.count <= 64
            && self.tracks.windows(2).all(rising)
            && self.tracks.iter().all(|t| t.id < self.ids && t.is_sound(self.frames, self.settings.max_age))
    }

    pub fn put(&self, out: &mut Vec<u8>) {
        out.extend(b"state");
        for n in [self.frames, self.ids, self.count] {
            put_whole(out, n);
        }
        out.push(b'\n');
        for track in &self.tracks {
            track.put(out);
        }
        out.extend(b"end\n");
    }
}

/// x y width height of a report behind its id.
pub fn put_report(out: &mut Vec<u8>, id: usize, rect: [f32; 4]) {
    out.extend(id.to_string().as_bytes());
    for number in rect {
        put_f32(out, number);
    }
    out.push(b'\n');
}

/// FNV-1a, 64 bits.
pub fn hash(text: &[u8]) -> u64 {
    text.iter().fold(0xCBF2_9CE4_8422_2325, |h, &b| (h ^ b as u64).wrapping_mul(0x0000_0100_0000_01B3))
}
