//! The tracker behind the head count: boxes of animals in, frame by frame, identified tracks out. The library under it is
//! proved to meet its contracts; this crate only lends it memory.
//!
//! ```
//! use satinjacks::{Detection, Refusal, Tracker};
//!
//! let mut tracker = Tracker::new(0.5)?;
//! let animal = Detection { x: 0.0, y: 0.0, width: 64.0, height: 64.0, score: 0.9 };
//! let tracks = tracker.update(&[animal])?;
//! assert_eq!((tracks.len(), tracks[0].id, tracks[0].width), (1, 1, 64.0));
//!
//! // a frame without animals is a frame: tracks age
//! assert!(tracker.update(&[])?.is_empty());
//! assert_eq!(tracker.update(&[animal; 65]), Err(Refusal::CrowdedFrame));
//! assert_eq!(tracker.frames(), 2);
//! # Ok::<(), Refusal>(())
//! ```

mod image;
mod refusal;

use std::fmt;

pub use image::{BoxImage, DirectionImage, Filter, ListImage, StoredError, TrackFloats, TrackWords, TrackerImage};
pub use refusal::Refusal;

/// This crate's version as one number, 10,000 for each major version, 100 for each minor one, 1 for each patch. The C
/// header that it goes with has the same, `SATINJACKS_VERSION`.
pub const VERSION: u32 = 10_000 * part(env!("CARGO_PKG_VERSION_MAJOR"))
    + 100 * part(env!("CARGO_PKG_VERSION_MINOR"))
    + part(env!("CARGO_PKG_VERSION_PATCH"));

const fn part(digits: &str) -> u32 {
    match u32::from_str_radix(digits, 10) {
        Ok(number) if number < 100 => number,
        _ => panic!("a part of the version is 0 to 99"),
    }
}

/// Reports that a frame may give, and objects that it may bring.
pub const ROOM: usize = 64;

/// An object of a frame: left upper corner, size and score.
#[repr(C)]
#[derive(Clone, Copy, Debug, PartialEq)]
pub struct Detection {
    pub x: f32,
    pub y: f32,
    pub width: f32,
    pub height: f32,
    pub score: f32,
}

/// A track as a frame reports it.
#[derive(Clone, Copy, Debug, PartialEq)]
pub struct Track {
    pub id: u64,
    pub x: f32,
    pub y: f32,
    pub width: f32,
    pub height: f32,
}

/// The tracker's settings. `det_thresh` must not be NaN, `iou_threshold` and `inertia` are 0 to 1, `max_age` and
/// `min_hits` 0 to 255, `delta_t` 0 to 8. With `use_byte`, objects of a score above 0.1, not above `det_thresh`, are
/// offered to the tracks that no other object got.
///
/// ```
/// use satinjacks::{Refusal, Settings, Tracker};
///
/// let tracker = Tracker::with_settings(Settings { max_age: 60, use_byte: true, ..Settings::new(0.5) })?;
/// assert_eq!(tracker.image().min_hits, 3);
/// # Ok::<(), Refusal>(())
/// ```
#[derive(Clone, Copy, Debug, PartialEq)]
pub struct Settings {
    pub det_thresh: f32,
    pub iou_threshold: f32,
    pub inertia: f32,
    pub max_age: u32,
    pub min_hits: u32,
    pub delta_t: u32,
    pub use_byte: bool,
}

impl Settings {
    /// The settings of [`Tracker::new`]: `iou_threshold` 0.3, `inertia` 0.2, `max_age` 30, `min_hits` 3, `delta_t` 3,
    /// `use_byte` off. The score that tells animals from noise is the detector's, so `det_thresh` has no default.
    pub const fn new(det_thresh: f32) -> Self {
        Self { det_thresh, iou_threshold: 0.3, inertia: 0.2, max_age: 30, min_hits: 3, delta_t: 3, use_byte: false }
    }
}

#[repr(C)]
#[derive(Clone, Copy)]
struct SettingsImage {
    det_thresh: f32,
    iou_threshold: f32,
    inertia: f32,
    max_age: u32,
    min_hits: u32,
    delta_t: u32,
    use_byte: u32,
}

/// Of all patterns of a size, those that take the shortcut of the pairing and those that go to the assignment.
#[repr(C)]
#[derive(Clone, Copy, Debug, PartialEq, Eq)]
pub struct Shortcuts {
    pub shortcut: u64,
    pub assignment: u64,
}

#[repr(C)]
struct Reply {
    number: u64,
    count: usize,
}

#[repr(C)]
struct AssignReply {
    number: u64,
    reads: usize,
}

extern "C" {
    fn satinjacks_new_lists(wide: *mut u64, floats: *mut f32, words: *mut u32, det_thresh: f32) -> u64;
    fn satinjacks_with_settings_lists(
        wide: *mut u64,
        floats: *mut f32,
        words: *mut u32,
        settings: SettingsImage,
    ) -> u64;
    fn satinjacks_update_lists(
        wide: *mut u64,
        floats: *mut f32,
        words: *mut u32,
        input: *const f32,
        input_len: usize,
        boxes: *mut f32,
        boxes_len: usize,
        ids: *mut u64,
        ids_len: usize,
    ) -> Reply;
    fn satinjacks_assign(
        n: usize,
        cost: *const f64,
        cost_len: usize,
        x: *mut i64,
        x_len: usize,
        y: *mut i64,
        y_len: usize,
    ) -> AssignReply;
    fn satinjacks_assign_whole(
        n: usize,
        cost: *const i64,
        cost_len: usize,
        x: *mut i64,
        x_len: usize,
        y: *mut i64,
        y_len: usize,
    ) -> u64;
    fn satinjacks_shortcuts(rows: u64, columns: u64) -> Shortcuts;
}

/// A tracker, its state on the heap.
#[derive(Clone)]
pub struct Tracker {
    image: Box<TrackerImage>,
    reported: Vec<Track>,
}

impl Tracker {
    /// A tracker with the defaults of [`Settings::new`].
    pub fn new(det_thresh: f32) -> Result<Self, Refusal> {
        // SAFETY: the lists are a whole, exclusive image's.
        Self::made(|wide, floats, words| unsafe { satinjacks_new_lists(wide, floats, words, det_thresh) })
    }

    /// A tracker with all seven settings.
    pub fn with_settings(settings: Settings) -> Result<Self, Refusal> {
        let settings = SettingsImage {
            det_thresh: settings.det_thresh,
            iou_threshold: settings.iou_threshold,
            inertia: settings.inertia,
            max_age: settings.max_age,
            min_hits: settings.min_hits,
            delta_t: settings.delta_t,
            use_byte: settings.use_byte.into(),
        };
        // SAFETY: the lists are a whole, exclusive image's.
        Self::made(|wide, floats, words| unsafe { satinjacks_with_settings_lists(wide, floats, words, settings) })
    }

    fn made(make: impl FnOnce(*mut u64, *mut f32, *mut u32) -> u64) -> Result<Self, Refusal> {
        let mut image = TrackerImage::zeroed();
        let (wide, floats, words) = image.lists();
        match Refusal::from_number(make(wide, floats, words)) {
            None => Ok(Self::from_image(image)),
            Some(refusal) => Err(refusal),
        }
    }

    /// A tracker that goes on where the one stood that gave these [`bytes`](Tracker::bytes). Another number of bytes
    /// is refused here; a state that breaks a rule is refused by [`update`](Tracker::update) as [`Refusal::UnsoundState`].
    ///
    /// ```
    /// use satinjacks::{Detection, Refusal, StoredError, Tracker};
    ///
    /// let animal = Detection { x: 0.0, y: 0.0, width: 64.0, height: 64.0, score: 0.9 };
    /// let mut tracker = Tracker::new(0.5)?;
    /// tracker.update(&[animal])?;
    /// let mut stored = tracker.bytes().to_vec();
    ///
    /// let mut restored = Tracker::from_bytes(&stored)?;
    /// assert_eq!(restored.update(&[animal])?, tracker.update(&[animal])?);
    ///
    /// assert_eq!(Tracker::from_bytes(&stored[..100]).unwrap_err(), StoredError::WrongLength { given: 100 });
    /// stored.fill(0xA5);
    /// let mut nonsense = Tracker::from_bytes(&stored)?;
    /// assert_eq!(nonsense.update(&[animal]), Err(Refusal::UnsoundState));
    /// # Ok::<(), Box<dyn std::error::Error>>(())
    /// ```
    pub fn from_bytes(bytes: &[u8]) -> Result<Self, StoredError> {
        TrackerImage::from_bytes(bytes).map(Self::from_image)
    }

    /// A tracker on any state, as one that was stored: whether it is sound shows at the next frame.
    pub fn from_image(image: Box<TrackerImage>) -> Self {
        Self { image, reported: Vec::with_capacity(ROOM) }
    }

    /// One frame: the tracks reported, newest first. A refusal leaves the state as it was: proved of the values, of which
    /// all NaNs are one; that a NaN keeps its bytes too is what tests/boundary of the repository shows.
    pub fn update(&mut self, detections: &[Detection]) -> Result<&[Track], Refusal> {
        let mut boxes = [0f32; 4 * ROOM];
        let mut ids = [0u64; ROOM];
        let (wide, floats, words) = self.image.lists();
        // SAFETY: a Detection is five f32 without padding, so the slice is five times as many; a slice's pointer is
        // aligned and never null; the image's lists, boxes and ids are exclusive, and the lengths are theirs.
        let reply = unsafe {
            satinjacks_update_lists(
                wide,
                floats,
                words,
                detections.as_ptr().cast(),
                5 * detections.len(),
                boxes.as_mut_ptr(),
                boxes.len(),
                ids.as_mut_ptr(),
                ids.len(),
            )
        };
        if let Some(refusal) = Refusal::from_number(reply.number) {
            return Err(refusal);
        }
        self.reported.clear();
        self.reported.extend(boxes.chunks_exact(4).zip(ids).take(reply.count).map(|(b, id)| Track {
            id,
            x: b[0],
            y: b[1],
            width: b[2],
            height: b[3],
        }));
        Ok(&self.reported)
    }

    /// Live tracks, reported or not.
    pub fn count(&self) -> usize {
        self.image.count as usize
    }

    pub fn frames(&self) -> u32 {
        self.image.frames
    }

    /// Ids given so far: ids are 1 to this.
    pub fn issued(&self) -> u64 {
        self.image.issued
    }

    pub fn image(&self) -> &TrackerImage {
        &self.image
    }

    /// The state's bytes, to store: [`TrackerImage::SIZE`] of them, for [`Tracker::from_bytes`].
    pub fn bytes(&self) -> &[u8] {
        self.image.bytes()
    }
}

/// The three counts; the state itself would fill pages.
impl fmt::Debug for Tracker {
    fn fmt(&self, f: &mut fmt::Formatter<'_>) -> fmt::Result {
        let mut shown = f.debug_struct("Tracker");
        shown.field("count", &self.count()).field("frames", &self.frames()).field("issued", &self.issued());
        shown.finish_non_exhaustive()
    }
}

/// Pairs n rows and n columns, n from 1 to 64, by n*n costs given row after row: `rows` gets each row's column, `columns`
/// each column's row. Gives how many cost entries were read, at most 3n³ + 6n². A refusal reads none and leaves both lists as
/// they were.
///
/// ```
/// let (mut rows, mut columns) = ([0; 2], [0; 2]);
/// let reads = satinjacks::assign(2, &[1.0, 2.0, 2.0, 1.0], &mut rows, &mut columns)?;
/// assert_eq!((rows, reads), ([0, 1], 6));
/// # Ok::<(), satinjacks::Refusal>(())
/// ```
pub fn assign(n: usize, costs: &[f64], rows: &mut [i64], columns: &mut [i64]) -> Result<usize, Refusal> {
    // SAFETY: each pointer is a slice's own, with its length; a slice's pointer is aligned and never null, and the two that
    // are written are exclusive, so nothing overlaps.
    let reply = unsafe {
        satinjacks_assign(
            n,
            costs.as_ptr(),
            costs.len(),
            rows.as_mut_ptr(),
            rows.len(),
            columns.as_mut_ptr(),
            columns.len(),
        )
    };
    Refusal::from_number(reply.number).map_or(Ok(reply.reads), Err)
}

/// Pairs n rows and n columns, n from 1 to 64, by n*n whole costs from -1,000,000 to 1,000,000, given row after row: `rows`
/// gets each row's column, `columns` each column's row, and no one-to-one pairing has a smaller total. A refusal leaves both
/// as they were.
///
/// ```
/// let (mut rows, mut columns) = ([0; 3], [0; 3]);
/// satinjacks::assign_whole(3, &[4, 1, 3, 2, 0, 5, 3, 2, 2], &mut rows, &mut columns)?;
/// assert_eq!(rows, [1, 0, 2]); // 1 + 2 + 2
/// let far = satinjacks::assign_whole(1, &[1_000_001], &mut rows[..1], &mut columns[..1]);
/// assert_eq!(far, Err(satinjacks::Refusal::CostOutOfRange));
/// # Ok::<(), satinjacks::Refusal>(())
/// ```
pub fn assign_whole(n: usize, costs: &[i64], rows: &mut [i64], columns: &mut [i64]) -> Result<(), Refusal> {
    // SAFETY: as for `assign`.
    let number = unsafe {
        satinjacks_assign_whole(
            n,
            costs.as_ptr(),
            costs.len(),
            rows.as_mut_ptr(),
            rows.len(),
            columns.as_mut_ptr(),
            columns.len(),
        )
    };
    Refusal::from_number(number).map_or(Ok(()), Err)
}

/// Of all patterns of overlaps above the threshold, `rows` by `columns`, how many take the shortcut of the pairing (no row and
/// no column has more than one, and there is one) and how many go to the assignment. 1 to 4 rows by 1 to 4 columns; any other
/// size gives 0 and 0.
///
/// ```
/// use satinjacks::{shortcuts, Shortcuts};
///
/// assert_eq!(shortcuts(3, 3), Shortcuts { shortcut: 33, assignment: 479 });
/// assert_eq!(shortcuts(5, 1), Shortcuts { shortcut: 0, assignment: 0 });
/// ```
pub fn shortcuts(rows: u64, columns: u64) -> Shortcuts {
    // SAFETY: the call takes and gives numbers alone, and takes any.
    unsafe { satinjacks_shortcuts(rows, columns) }
}
